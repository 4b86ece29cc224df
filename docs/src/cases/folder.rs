//! Texts for a program, and what it must print for each, as the files of a folder.
//!
//!   Case      a text and all that must be printed for it
//!   gathered  all texts, each once
//!   write     the files of the folder
//!   capitals  the words in capitals that a line begins with

use std::collections::{BTreeMap, HashSet};

use super::save;

/// A text and all that must be printed for it.
pub type Case = (Vec<u8>, String);

/// All texts, each once: those that were made for what they print, and others, whatever becomes of
/// them. Panics if something else is printed for one than it was made for.
pub fn gathered(made: Vec<Case>, others: Vec<Vec<u8>>, printed: fn(&[u8]) -> String) -> Vec<Case> {
    for (text, due) in &made {
        let front = &text[..text.len().min(400)];
        assert!(printed(text) == *due, "{}", String::from_utf8_lossy(front));
    }
    let others = others.into_iter().map(|text| {
        let due = printed(&text);
        (text, due)
    });
    let mut seen = HashSet::new();
    let mut cases: Vec<Case> = made.into_iter().chain(others).collect();
    cases.retain(|(text, _)| seen.insert(text.clone()));
    cases
}

/// Writes each text to a file NNNN.in of a folder, and what must be printed for it to NNNN.out; prints
/// how many there are of each kind. Panics unless their kinds are those given, by name, and there are at
/// least so many of each.
pub fn write(folder: &str, cases: &[Case], kind: fn(&str) -> String, kinds: &[(&str, u32)]) {
    let mut counts: BTreeMap<String, u32> = BTreeMap::new();
    for (i, (text, due)) in cases.iter().enumerate() {
        save(&format!("{folder}/{i:04}.in"), text);
        save(&format!("{folder}/{i:04}.out"), due.as_bytes());
        *counts.entry(kind(due)).or_default() += 1;
    }
    for (kind, count) in &counts {
        println!("{kind}: {count}");
    }
    println!("texts: {}", cases.len());
    let names = kinds.iter().map(|(kind, _)| kind);
    assert!(counts.keys().eq(names), "other kinds");
    for (kind, least) in kinds {
        assert!(counts[*kind] >= *least, "{kind}: not {least} texts");
    }
}

/// The words in capitals that a line begins with, in small letters.
pub fn capitals(line: &str) -> String {
    let is_capital = |word: &&str| word.chars().all(|c| c.is_ascii_uppercase() || c == ':');
    let words: Vec<&str> = line.split_whitespace().take_while(is_capital).collect();
    words.join(" ").trim_end_matches(':').to_lowercase()
}
