//! Texts in which a word is missing, repeated, out of order, unknown, or runs into its neighbours.
//!
//!   words  all of them

use super::forms::parts;
use super::job_text::tokens;
use super::sections::{expected_line, WORDS};
use crate::cases::folder::Case;
use crate::cases::tokens::{no_number, Position};

/// Texts with a fault in a word.
pub fn words() -> Vec<Case> {
    let groups = [told(), missing(), doubled(), swapped(), others(), glued()];
    groups.concat()
}

/// The line where something else than a section's word stands in a line, at its front.
fn expected(section: usize, line: usize) -> String {
    expected_line(section, Position { line, column: 1 })
}

/// The words and numbers of the sheet's smallest job, and the indices of the words among them.
fn all() -> (Vec<Vec<u8>>, [usize; 7]) {
    let all = tokens(&parts());
    let index = |word: &str| {
        let index = all.iter().position(|token| token == word.as_bytes());
        index.expect("each word is a token")
    };
    let indices = WORDS.map(index);
    (all, indices)
}

/// Tokens, each in a line.
fn lines(tokens: &[Vec<u8>]) -> Vec<u8> {
    tokens.join(&b'\n')
}

/// Short texts, with the word that is expected and its position as told by hand.
fn told() -> Vec<Case> {
    let texts: [(&[u8], &str, usize, usize); 29] = [
        (b"", "the word JOB", 1, 1),
        (b"\n", "the word JOB", 2, 1),
        (b"\r", "the word JOB", 2, 1),
        (b"\r\n", "the word JOB", 2, 1),
        (b" \t\r\n ", "the word JOB", 2, 2),
        (b"#", "the word JOB", 1, 2),
        (b"# JOB 1 1 1 1 1 1 1 1 1 3 7", "the word JOB", 1, 28),
        (b"0", "the word JOB", 1, 1),
        (b"1 JOB", "the word JOB", 1, 1),
        (b"#1\n  2#3\n4", "the word JOB", 2, 3),
        (b"4294967296 JOB", "the word JOB", 1, 1),
        (b"-1 JOB", "the word JOB", 1, 1),
        (b"?", "the word JOB", 1, 1),
        (b"job", "the word JOB", 1, 1),
        (b"JO B", "the word JOB", 1, 1),
        (b"JOBS", "the word JOB", 1, 1),
        (b"JO", "the word JOB", 1, 1),
        (b"J", "the word JOB", 1, 1),
        (b"_JOB", "the word JOB", 1, 1),
        (b"POINTS JOB", "the word JOB", 1, 1),
        (b"JOB", "the word POINTS", 1, 4),
        (b"JOB\r\n", "the word POINTS", 2, 1),
        (b"JOB 1 2 3", "the word POINTS", 1, 10),
        (b"JOB JOB", "the word POINTS", 1, 5),
        (b"JOB A -", "the word POINTS", 1, 5),
        (b"JOB 1\nPOINTS x", "the word A", 2, 8),
        (b"JOB\n1 POINTS: 2", "the word POINTS", 2, 3),
        (b"JOB POINTS A B MASKS_A MASKS_B", "the word ANSWERS", 1, 31),
        (
            b"JOB POINTS A B MASKS_A MASKS_B ANSWERS _ JOB",
            "the end of the text",
            1,
            40,
        ),
    ];
    let line = |(text, what, line, column): (&[u8], &str, usize, usize)| {
        let due = format!("EXPECTED {what} at line {line}, column {column}\n");
        (text.to_vec(), due)
    };
    texts.map(line).to_vec()
}

/// Each word missing, and each turned into a comment.
fn missing() -> Vec<Case> {
    let mut cases = Vec::new();
    for section in 0..7 {
        let (mut tokens, indices) = all();
        let next = *indices.get(section + 1).unwrap_or(&tokens.len());
        let mut commented = tokens.clone();
        commented[indices[section]].insert(0, b'#');
        tokens.remove(indices[section]);
        let [text, commented] = [tokens, commented].map(|tokens| lines(&tokens));
        let [line, commented_line] = match section {
            0 => [1, 2],
            1..=5 => [next, next + 1],
            _ => {
                cases.push(end_expected(text));
                cases.push(end_expected(commented));
                continue;
            }
        };
        cases.push((text, expected(section, line)));
        cases.push((commented, expected(section, commented_line)));
    }
    cases
}

/// A text at whose end, after a number of one digit, the last word is expected.
fn end_expected(text: Vec<u8>) -> Case {
    let line = text.split(|&byte| byte == b'\n').count();
    let position = Position { line, column: 2 };
    (text, expected_line(6, position))
}

/// Each word twice: at once, after its numbers, and at the end of the text.
fn doubled() -> Vec<Case> {
    let mut cases = Vec::new();
    for (section, word) in WORDS.iter().enumerate() {
        let (tokens, indices) = all();
        let next = *indices.get(section + 1).unwrap_or(&tokens.len());
        for (index, expecting) in [
            (indices[section] + 1, section + 1),
            (next, section + 1),
            (tokens.len(), 7),
        ] {
            let mut tokens = tokens.clone();
            tokens.insert(index, word.as_bytes().to_vec());
            cases.push((lines(&tokens), expected(expecting, index + 1)));
        }
    }
    cases
}

/// Each two words exchanged, with their numbers left where they are.
fn swapped() -> Vec<Case> {
    let mut cases = Vec::new();
    for later in 0..7 {
        for earlier in 0..later {
            let (mut tokens, indices) = all();
            tokens.swap(indices[earlier], indices[later]);
            cases.push((lines(&tokens), expected(earlier, indices[earlier] + 1)));
        }
    }
    cases
}

/// Another word for each: in small letters, with a letter more or less, and others.
fn others() -> Vec<Case> {
    let mut cases = Vec::new();
    for (section, word) in WORDS.iter().enumerate() {
        let (tokens, indices) = all();
        let others = [
            word.to_lowercase(),
            format!("{}{}", &word[..1], word[1..].to_lowercase() + "_"),
            format!("{word}S"),
            format!("{word}_"),
            format!("_{word}"),
            format!("{word}:"),
            format!("{word},"),
            format!("{word}\u{e9}"),
            format!("{word}\0"),
            "MASKS".into(),
            "Z".into(),
            "_".into(),
            "C".into(),
            "MASKS_C".into(),
        ];
        for other in others {
            let mut tokens = tokens.clone();
            tokens[indices[section]] = other.into_bytes();
            cases.push((lines(&tokens), expected(section, indices[section] + 1)));
        }
    }
    cases
}

/// A word with no gap to the number after it, or to the one before it; two words with none; a byte
/// that is no number's before a word; and comments with no gap, which are fit.
fn glued() -> Vec<Case> {
    let mut cases = Vec::new();
    for section in 0..7 {
        let (tokens, indices) = all();
        let index = indices[section];
        let without = |at: usize| {
            let mut tokens = tokens.clone();
            let token = tokens.remove(at + 1);
            tokens[at].extend(token);
            tokens
        };
        cases.push((lines(&without(index)), expected(section, index + 1)));
        if section > 0 {
            let column = tokens[index - 1].len() + 1;
            cases.push((lines(&without(index - 1)), no_number(index, column)));
        }
        let mut stray = tokens.clone();
        stray[index].insert(0, b'=');
        let due = match section {
            0 => expected(0, 1),
            _ => no_number(index + 1, 1),
        };
        cases.push((lines(&stray), due));
    }
    let (mut tokens, indices) = all();
    tokens[indices[4]] = b"MASKS_AMASKS_B".to_vec();
    cases.push((lines(&tokens), expected(4, indices[4] + 1)));
    cases
}
