//! Texts with a fault in a number: a byte that is no number's, or a digit by which a value would
//! reach 2^32.
//!
//!   faults  all of them

use super::forms::{bare, parts};
use super::job_text::{sectioned, tokens};
use super::printed::MOST_TEXT;
use super::sections::{expected_line, WORDS};
use crate::cases::folder::Case;
use crate::cases::number_faults::{far_faults, told_faults, told_large, wrong_bytes, wrong_tokens};
use crate::cases::tokens::{no_number, too_large, Position, MARK};

/// Texts with a fault.
pub fn faults() -> Vec<Case> {
    let groups = [
        told_faults(b"JOB"),
        told_large(b"JOB"),
        wrong_bytes(&bare(), 7),
        wrong_tokens(&tokens(&parts())),
        large_in_each_section(),
        marks(),
        far_faults(b"JOB", MOST_TEXT - 1),
        behind_a_job(),
    ];
    groups.concat()
}

/// A number that is too large by one, and one that is by far, in each section: after its word, and
/// after its last number.
fn large_in_each_section() -> Vec<Case> {
    let text = sectioned(&parts());
    let lines: Vec<&[u8]> = text.split(|&byte| byte == b'\n').collect();
    let mut cases = Vec::new();
    for (section, word) in WORDS.iter().enumerate() {
        for (digits, before) in [(" 4294967296", 10), (" 00099999999999999999", 13)] {
            for at in [word.len(), lines[section].len()] {
                let (front, back) = lines[section].split_at(at);
                let line = [front, digits.as_bytes(), back].concat();
                let mut lines = lines.clone();
                lines[section] = &line;
                cases.push((lines.join(&b'\n'), too_large(section + 1, at + 1 + before)));
            }
        }
    }
    cases
}

/// The UTF-8 mark, or a part of it, where it does not belong.
fn marks() -> Vec<Case> {
    let expected = |section, line, column| expected_line(section, Position { line, column });
    let at = |before: &[u8], mark: &[u8], after: &[u8]| [before, mark, after].concat();
    let text = bare();
    let points = text.windows(6).position(|word| word == b"POINTS");
    let points = points.expect("the word POINTS");
    vec![
        (at(MARK, MARK, &text), expected(0, 1, 1)),
        (at(b" ", MARK, &text), expected(0, 1, 2)),
        (at(b"\n", MARK, &text), expected(0, 2, 1)),
        (at(b"#\r\n", MARK, &text), expected(0, 2, 1)),
        (at(b"", &MARK[..2], &text), expected(0, 1, 1)),
        (at(b"", &MARK[..1], &text), expected(0, 1, 1)),
        (at(b"", &MARK[1..], &text), expected(0, 1, 1)),
        (at(b"", MARK, b""), expected(0, 1, 1)),
        (at(b"", MARK, b"\n"), expected(0, 2, 1)),
        (at(b"", &MARK[..2], b""), expected(0, 1, 1)),
        (at(b"JOB", MARK, &text[3..]), expected(0, 1, 1)),
        (at(&text[..4], MARK, &text[4..]), no_number(1, 5)),
        (
            at(&text[..points], MARK, &text[points..]),
            no_number(1, points + 1),
        ),
        (at(&text, MARK, b""), no_number(1, text.len() + 1)),
        (at(&text, b"\r", MARK), no_number(2, 1)),
        ([MARK, &text, b" ?"].concat(), no_number(1, text.len() + 2)),
    ]
}

/// Faults after a whole job.
fn behind_a_job() -> Vec<Case> {
    let whole = [&bare()[..], b"\n"].concat();
    let behind = |end: &[u8]| [&whole[..], end].concat();
    vec![
        (behind(b"?"), no_number(2, 1)),
        (behind(b"1 2 ? y"), no_number(2, 5)),
        (
            behind(&[&b"1\n".repeat(9_000)[..], b"7 4294967296"].concat()),
            too_large(9_002, 12),
        ),
    ]
}
