//! Texts of all forms for the sheet's smallest job, with large numbers too; and texts near the longest.
//!
//!   parts    the numbers of that job, section by section
//!   bare     its text in one line
//!   forms    texts of all forms
//!   lengths  texts as long as can be, with very many numbers too, and texts that are too long

use super::job_text::{sectioned, tokens, Answer, JobText, Parts};
use super::printed::{count_line, odd_line, JOB_NUMBERS, MOST_TEXT, TOO_LONG};
use super::sections::expected_line;
use crate::cases::folder::Case;
use crate::cases::forms::{self, filled_up, padded};
use crate::cases::tokens::{no_number, Position};

/// The numbers of the sheet's smallest job, section by section.
pub fn parts() -> Parts {
    JobText::by_hand().parts()
}

/// The text of the sheet's smallest job in one line, with no line end.
pub fn bare() -> Vec<u8> {
    tokens(&parts()).join(&b' ')
}

/// A text of the sheet's smallest job.
fn fit(text: Vec<u8>) -> Case {
    (text, JobText::by_hand().due())
}

/// Texts of all forms for a job that is carried out.
pub fn forms() -> Vec<Case> {
    let same = forms::forms(&tokens(&parts())).into_iter().map(fit);
    [same.collect(), line_ends(), large_numbers()].concat()
}

/// Each section in a line, with a comment after its word and one after its numbers; each kind of
/// line end, and kinds in turn. Then the same with a fault in the last line, after line ends that
/// are one each, or two.
fn line_ends() -> Vec<Case> {
    let text = |end: &[u8], fault: &str| {
        let lines = String::from_utf8(sectioned(&parts())).expect("a text");
        let lines = lines.lines().map(|line| match line.split_once(' ') {
            Some((word, numbers)) => [
                format!("{word}# 1 x").into_bytes(),
                format!(" {numbers} # A").into_bytes(),
            ],
            None => unreachable!("each section has a number"),
        });
        [lines.flatten().collect::<Vec<_>>().join(end), fault.into()].concat()
    };
    let ends: [(&[u8], usize); 8] = [
        (b"\n", 1),
        (b"\r", 1),
        (b"\r\n", 1),
        (b"\n\r", 2),
        (b"\r\r", 2),
        (b"\r\n\n", 2),
        (b"\r\r\n", 2),
        (b"\r\n\r\n", 2),
    ];
    let mut cases = Vec::new();
    for (end, count) in ends {
        cases.push(fit(text(end, "")));
        let more = [&text(end, "")[..], end, b" ?"].concat();
        cases.push((more, no_number(14 * count + 1, 2)));
    }
    cases
}

/// The largest numbers that fit, as a job number, as a closing minute, as a host and as a minute; and
/// 0 as a job number and as an opening minute.
fn large_numbers() -> Vec<Case> {
    let zeros = ["0", "000"];
    let large = ["4294967295", "0000000000004294967295", "4000000000"];
    let put = |(number, digits): (usize, &str)| {
        let mut tokens = tokens(&parts());
        tokens[number] = digits.into();
        fit(tokens.join(&b' '))
    };
    let numbers = [(11, &zeros[..]), (11, &large), (12, &zeros), (13, &large)];
    let pairs = numbers.map(|(number, list)| list.iter().map(move |&digits| (number, digits)));
    let mut cases: Vec<Case> = pairs.into_iter().flatten().map(put).collect();
    for large in [u32::MAX, u32::MAX - 1, 1 << 31, 999_999_999] {
        for answer in [[large, 5], [2, large], [large, large]] {
            let mut job = JobText::by_hand();
            job.order.insert(1, answer);
            cases.push(job.case());
        }
    }
    cases
}

/// Texts as long as can be, and texts that are too long.
pub fn lengths() -> Vec<Case> {
    [longest(), too_long()].concat()
}

/// The sheet's smallest job with so many numbers in one section; one section in a line.
fn filled(section: usize, count: usize, number: u32) -> Vec<u8> {
    let mut parts = parts();
    parts[section] = vec![number; count];
    sectioned(&parts)
}

/// Texts of 65,535 bytes: filled up with white space, with a comment and with leading zeros, with a
/// mark; as many numbers as there can be in a section.
fn longest() -> Vec<Case> {
    let length = MOST_TEXT - 1;
    let many = |first: &[Answer], others: Answer| {
        let mut job = JobText::by_hand();
        job.order = Vec::new();
        let left = (length - job.text().len()) / 4;
        job.order = first.to_vec();
        job.order.resize(left, others);
        (padded(&job.text(), length, b'\n'), job.due())
    };
    let (line, column) = (1, MOST_TEXT);
    let mut cases: Vec<Case> = filled_up(&bare(), length).into_iter().map(fit).collect();
    cases.extend([
        many(&[[3, 2], [1, 8], [2, 5]], [1, 5]),
        many(&[], [1, 5]),
        many(&[], [1, 9]),
        many(&[], [9, 5]),
        (
            padded(b"JOB ", length, b'0'),
            expected_line(1, Position { line, column }),
        ),
    ]);
    for (section, needs) in [(0, JOB_NUMBERS), (1, 3), (2, 1), (3, 1), (4, 1), (5, 1)] {
        let count = (length - filled(section, 0, 0).len()) / 2;
        let text = padded(&filled(section, count, 1), length, b'\n');
        cases.push((text, count_line(section, count, needs, section + 1)));
    }
    let most = (length - filled(6, 0, 0).len()) / 2;
    let odd = most - (most + 1) % 2;
    let text = padded(&filled(6, odd, 1), length, b'\n');
    cases.push((text, odd_line(odd, 7)));
    assert!(cases.iter().all(|(text, _)| text.len() == length));
    cases
}

/// Texts of 65,536 bytes and more, whatever they hold.
fn too_long() -> Vec<Case> {
    let texts = forms::too_long(&bare(), MOST_TEXT).into_iter();
    texts.map(|text| (text, TOO_LONG.into())).collect()
}
