//! Texts with a section that is short or long, and README's job with each number, and each answer, dropped
//! or doubled.
//!
//!   counts  all of them

use std::ops::Range;

use super::job_text::{sectioned, Answer, JobText, Parts};
use super::jobs::{drawn, IN_EACH_LAYOUT};
use super::printed::{count_line, odd_line, JOB_NUMBERS};
use super::sections::WORDS;
use crate::cases::folder::Case;
use crate::cases::tokens::lines;
use crate::sheet::random::Random;
use crate::sheet::whole_job::Contents;

/// README's job.
const SAMPLE: &str = include_str!("../../../crates/whole_job/stdin");

/// Texts with a section that has not its count.
pub fn counts(random: &mut Random) -> Vec<Case> {
    [
        few_in_job(),
        one_section(random),
        two_sections(random),
        sample(),
    ]
    .concat()
}

/// The section JOB with up to twelve numbers, and with some too many.
fn few_in_job() -> Vec<Case> {
    let by_hand = JobText::by_hand().parts();
    let cases = (0..20).filter(|&has| has != JOB_NUMBERS).map(|has| {
        let mut parts = by_hand.clone();
        parts[0].resize(has, 1);
        (sectioned(&parts), count_line(0, has, JOB_NUMBERS, 1))
    });
    cases.collect()
}

/// A job in each layout.
fn bases(random: &mut Random) -> [JobText; 3] {
    IN_EACH_LAYOUT.map(|line| drawn(random, line, 0))
}

/// The lists that differ from a list by one number, at the front and at the end, or are empty or
/// twice as long.
fn miscounted(numbers: &[u32]) -> [Vec<u32>; 6] {
    let last = numbers.len() - 1;
    [
        numbers[1..].to_vec(),
        numbers[..last].to_vec(),
        [&[1], numbers].concat(),
        [numbers, &[1]].concat(),
        Vec::new(),
        numbers.repeat(2),
    ]
}

/// The answers of a list of numbers.
fn answers(numbers: &[u32]) -> Vec<Answer> {
    let pairs = numbers.chunks_exact(2);
    pairs.map(|pair| [pair[0], pair[1]]).collect()
}

/// Jobs in each layout with one section short or long. Any number of answers is fit, but not one
/// without a minute.
fn one_section(random: &mut Random) -> Vec<Case> {
    let mut cases = Vec::new();
    for job in bases(random) {
        let parts = job.parts();
        for section in 0..6 {
            let needs = parts[section].len();
            for numbers in miscounted(&parts[section]) {
                let due = count_line(section, numbers.len(), needs, section + 1);
                cases.push((with(&parts, section, numbers), due));
            }
        }
        for numbers in miscounted(&parts[6]) {
            let order = answers(&numbers);
            let due = match numbers.len() == 2 * order.len() {
                true => JobText {
                    order,
                    ..job.clone()
                }
                .due(),
                false => odd_line(numbers.len(), 7),
            };
            cases.push((with(&parts, 6, numbers), due));
        }
    }
    cases
}

/// The text of these sections, with other numbers in one.
fn with(parts: &Parts, section: usize, numbers: Vec<u32>) -> Vec<u8> {
    let mut parts = parts.clone();
    parts[section] = numbers;
    sectioned(&parts)
}

/// Jobs in each layout with a number moved from one section to the next or the one after, or back:
/// the first section is told.
fn two_sections(random: &mut Random) -> Vec<Case> {
    let mut cases = Vec::new();
    for job in bases(random) {
        let parts = job.parts();
        for later in 1..7_usize {
            for earlier in later.saturating_sub(2)..later {
                let needs = parts[earlier].len();
                let mut on = parts.clone();
                let number = on[earlier].pop().expect("a number");
                on[later].insert(0, number);
                let due = count_line(earlier, needs - 1, needs, earlier + 1);
                cases.push((sectioned(&on), due));
                let mut back = parts.clone();
                let number = back[later].remove(0);
                back[earlier].push(number);
                let due = count_line(earlier, needs + 1, needs, earlier + 1);
                cases.push((sectioned(&back), due));
            }
        }
    }
    cases
}

/// README's job as it stands, with line ends of each kind, and with each number and each answer
/// dropped and doubled.
fn sample() -> Vec<Case> {
    let job = sample_job();
    let mut cases = Vec::new();
    for end in ["\n", "\r", "\r\n"] {
        let text = SAMPLE.replace('\n', end).into_bytes();
        assert_eq!(lines(&text).len(), SAMPLE.lines().count() + 1);
        cases.push((text, job.due()));
    }
    let numbers = sample_numbers();
    for (section, bytes) in numbers.clone() {
        for doubled in [false, true] {
            let text = changed(bytes.clone(), doubled);
            cases.push((text, sample_due(&job, section, doubled)));
        }
    }
    let (_, others) = numbers.split_at(numbers.len() - 2 * job.order.len());
    for (index, pair) in others.chunks_exact(2).enumerate() {
        for doubled in [false, true] {
            let text = changed(pair[0].1.start..pair[1].1.end, doubled);
            let mut job = job.clone();
            match doubled {
                true => job.order.insert(index, job.order[index]),
                false => drop(job.order.remove(index)),
            }
            cases.push((text, job.due()));
        }
    }
    cases
}

/// README's job with some bytes doubled or dropped.
fn changed(bytes: Range<usize>, doubled: bool) -> Vec<u8> {
    let old = &SAMPLE[bytes.clone()];
    let new = if doubled {
        format!("{old} {old}")
    } else {
        String::new()
    };
    let mut text = SAMPLE.to_string();
    text.replace_range(bytes, &new);
    text.into_bytes()
}

/// What is due where a number of a section of README's job is dropped or doubled.
fn sample_due(job: &JobText, section: usize, doubled: bool) -> String {
    let needs = job.parts()[section].len();
    let is_word = |line: &str| line.split(' ').next() == Some(WORDS[section]);
    let line = SAMPLE.lines().position(is_word).expect("a word") + 1;
    let has = if doubled { needs + 1 } else { needs - 1 };
    match section {
        6 => odd_line(has, line),
        _ => count_line(section, has, needs, line),
    }
}

/// The numbers of README's job: the section of each, and its bytes.
fn sample_numbers() -> Vec<(usize, Range<usize>)> {
    let (mut numbers, mut begin, mut sections) = (Vec::new(), 0, 0);
    for line in SAMPLE.split_inclusive('\n') {
        let bare = line.split(['#', '\n']).next().unwrap_or("");
        let mut at = begin;
        for token in bare.split(' ') {
            if token.starts_with(|c: char| c.is_ascii_digit()) {
                numbers.push((sections - 1, at..at + token.len()));
            } else if !token.is_empty() {
                sections += 1;
            }
            at += token.len() + 1;
        }
        begin += line.len();
    }
    numbers
}

/// README's job: nine hosts, A and B of 24 elements each, and masks of as many.
fn sample_job() -> JobText {
    let mut parts: Parts = Default::default();
    for (section, bytes) in sample_numbers() {
        let number = SAMPLE[bytes].parse().expect("a number");
        parts[section].push(number);
    }
    let counts = parts.each_ref().map(Vec::len);
    assert_eq!(counts[..6], [JOB_NUMBERS, 9, 24, 24, 24, 24]);
    let [job, points, a, b, a_masks, b_masks, order] = parts;
    let sides = [(a, a_masks), (b, b_masks)];
    JobText {
        line: job[..10].try_into().expect("ten numbers"),
        job_number: job[10],
        window: [job[11], job[12]],
        points,
        sides: sides.map(|(matrix, masks)| Contents { matrix, masks }),
        order: answers(&order),
    }
}
