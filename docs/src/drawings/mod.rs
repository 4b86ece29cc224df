//! The subcommand `drawings`: gathers texts for the program that draws masks, checks them, and writes
//! each to a file NNNN.in of a folder, and what must be printed for it to NNNN.out.
//!
//!   printed    what the program must print for a text
//!   draw_text  masks to draw as a text, and what must be printed by another way
//!   draws      texts that are drawn or refused, of all forms
//!   faults     texts with something wrong
//!   large      texts with very many words

mod draw_text;
mod draws;
mod faults;
mod large;
mod printed;

use crate::cases::folder::{self, capitals, Case};
use crate::sheet::masks_check;
use crate::sheet::random::Random;
use printed::printed;

/// The kinds of all that is printed, each with the least count of its texts.
#[rustfmt::skip]
const KINDS: [(&str, u32); 10] = [
    ("drawn", 157), ("drawn above 65536", 23), ("expected", 20), ("no number", 147),
    ("none drawn", 21), ("number too large", 32), ("refused 1", 38), ("refused 27", 40),
    ("text too long", 16), ("too many elements", 14),
];

/// Checks the program, then writes the texts and all that must be printed to a folder.
pub fn write_folder(folder: &str) {
    masks_check::run();
    folder::write(folder, &gathered(), kind, &KINDS);
}

/// All texts, each once, with all that must be printed.
fn gathered() -> Vec<Case> {
    let random = &mut Random::new(2031);
    let groups = [draws::draws(random), faults::faults(), large::large(random)];
    folder::gathered(groups.concat(), draws::changed(random), printed)
}

/// The kind of what is printed.
fn kind(printed: &str) -> String {
    let words: Vec<&str> = printed.split_whitespace().take(3).collect();
    match words[..] {
        ["REFUSED", number] => format!("refused {number}"),
        ["#", "USED", "0"] => "none drawn".into(),
        ["#", "USED", _] if has_large_element(printed) => "drawn above 65536".into(),
        ["#", "USED", _] => "drawn".into(),
        _ => capitals(printed),
    }
}

/// Whether an element that is printed is above 65536: only the largest prime has such elements.
fn has_large_element(printed: &str) -> bool {
    let elements = printed.lines().skip(1).map(str::parse::<u32>);
    elements.flatten().any(|element| element > 65536)
}
