//! The sections of a plain text.
//!
//! A token that begins with a letter or _ is a word. There are seven words, in one order, the first
//! token is the first of them, and all other tokens are numbers.
//!
//!   WORDS          the words of the sections
//!   Section        a section: the line of its word, and its numbers
//!   sections       the sections of a text, or the line for its first fault
//!   expected_line  the line for something else than the word of a section

use crate::cases::tokens::{end, number, tokens, Position};

/// The words of the sections, in their order.
pub const WORDS: [&str; 7] = ["JOB", "POINTS", "A", "B", "MASKS_A", "MASKS_B", "ANSWERS"];

/// A section: the line of its word, and its numbers.
pub struct Section {
    pub line: usize,
    pub numbers: Vec<u32>,
}

/// The sections of a text, or the line for its first fault.
pub fn sections(text: &[u8]) -> Result<Vec<Section>, String> {
    let mut sections: Vec<Section> = Vec::new();
    for (position, token) in tokens(text) {
        if sections.is_empty() || is_word(&token) {
            let word = WORDS.get(sections.len()).map(|word| word.as_bytes());
            if word != Some(&token) {
                return Err(expected_line(sections.len(), position));
            }
            let (line, numbers) = (position.line, Vec::new());
            sections.push(Section { line, numbers });
        } else {
            let last = sections.last_mut().expect("a section");
            last.numbers.push(number(position, &token)?);
        }
    }
    match sections.len() == WORDS.len() {
        true => Ok(sections),
        false => Err(expected_line(sections.len(), end(text))),
    }
}

/// Whether a token is a word.
fn is_word(token: &[u8]) -> bool {
    token[0].is_ascii_alphabetic() || token[0] == b'_'
}

/// The line for something else than the word of a section; past the last section, than the end.
pub fn expected_line(section: usize, position: Position) -> String {
    let Position { line, column } = position;
    let due = match WORDS.get(section) {
        Some(word) => format!("the word {word}"),
        None => "the end of the text".into(),
    };
    format!("EXPECTED {due} at line {line}, column {column}\n")
}
