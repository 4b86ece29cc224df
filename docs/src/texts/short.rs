//! Texts that end too soon, and texts changed by chance.
//!
//!   short    the beginnings of a text
//!   changed  texts with a byte or a number changed, whatever becomes of them

use super::job_text::{tokens, JobText};
use super::jobs::{drawn, IN_EACH_LAYOUT};
use super::printed::odd_line;
use super::sections::{expected_line, WORDS};
use crate::cases::draw::{nudged, turns};
use crate::cases::folder::Case;
use crate::cases::tokens::Position;
use crate::jobs::stories::small_line;
use crate::lister::malformed::damage;
use crate::sheet::random::Random;

/// All beginnings of the sheet's smallest job and, for a job in each layout, those that end before a
/// word, with it, and one number after it. They are in one line, or a token in a line.
pub fn short(random: &mut Random) -> Vec<Case> {
    let smallest = JobText::by_hand();
    let mut cases = Vec::new();
    for kept in 0..=tokens(&smallest.parts()).len() {
        cases.push(beginning(&smallest, kept, b' '));
        cases.push(beginning(&smallest, kept, b'\r'));
    }
    for line in IN_EACH_LAYOUT {
        let job = drawn(random, line, 0);
        let all = tokens(&job.parts());
        let words = (0..all.len()).filter(|&at| !all[at][0].is_ascii_digit());
        let kept = words.flat_map(|at| [at, at + 1, at + 2]);
        cases.extend(kept.map(|kept| beginning(&job, kept, b'\n')));
    }
    cases
}

/// So many of the first tokens of a job, with a byte between two.
fn beginning(job: &JobText, kept: usize, gap: u8) -> Case {
    let all = tokens(&job.parts());
    let text = all[..kept].join(&gap);
    let is_word = |token: &&Vec<u8>| !token[0].is_ascii_digit();
    let words = all[..kept].iter().filter(is_word).count();
    if words == WORDS.len() {
        let has = 2 * job.order.len() + kept - all.len();
        let line = if gap == b' ' { 1 } else { kept - has };
        let mut front = job.clone();
        front.order.truncate(has / 2);
        let due = match has % 2 {
            0 => front.due(),
            _ => odd_line(has, line),
        };
        return (text, due);
    }
    let last = all[..kept].last().map_or(0, Vec::len);
    let position = match gap {
        b' ' => Position {
            line: 1,
            column: text.len() + 1,
        },
        _ => Position {
            line: kept.max(1),
            column: last + 1,
        },
    };
    (text, expected_line(words, position))
}

/// Texts of small jobs with a byte, a number of the plan, or a minute of the window changed by chance.
pub fn changed(random: &mut Random) -> Vec<Vec<u8>> {
    let mut texts = Vec::new();
    for round in 0..440 {
        let line = small_line(random, round);
        let mut job = drawn(random, line, 0);
        if round / turns() % 2 == 0 {
            texts.push(damage(random, job.text()));
        } else {
            job.line = nudged(random, line);
            texts.push(job.strewn_text(random));
        }
    }
    for round in 0..4 * turns() {
        let line = small_line(random, round);
        let mut job = drawn(random, line, 0);
        job.window[random.index(2)] = random.any_minute(job.window);
        texts.push(job.strewn_text(random));
    }
    texts
}
