//! Masks drawn from random words (02, U3).
//!
//!   Drawing  a call that draws masks
//!   Drawn    what a drawing that no refusal number fits gives
//!   draw     the elements and the count of words used, or the first refusal number that fits
//!   limit    from which word on words are skipped
//!   WORDS    how many words of 32 bits there are
//!   drawn    the elements, where there are WORDS words or any other number of them

use super::plan::prime;

/// A call that draws masks from words; `room` is the length of the output, and so the number of
/// elements wanted.
#[derive(Clone)]
pub struct Drawing {
    pub modulus: u32,
    pub words: Vec<u32>,
    pub room: usize,
}

/// The elements of a drawing, and how many words were used, skipped ones counted.
#[derive(Debug, PartialEq, Eq)]
pub struct Drawn {
    pub elements: Vec<u32>,
    pub used: usize,
}

/// How many words of 32 bits there are.
pub const WORDS: u64 = 1 << 32;

/// The largest multiple of q that is at most b, the number of all words: a word from there on is
/// skipped.
pub fn limit(b: u64, q: u32) -> u64 {
    b / u64::from(q) * u64::from(q)
}

/// The elements and the count of words used, or the first refusal number that fits.
pub fn draw(call: &Drawing) -> Result<Drawn, u32> {
    let q = prime(call.modulus).ok_or(1_u32)?;
    drawn(WORDS, q, &call.words, call.room).ok_or(27)
}

/// So many elements, each from a word of its own, where there are b words in all: they come from the
/// first usable ones. None where fewer are usable.
pub fn drawn(b: u64, q: u32, words: &[u32], wanted: usize) -> Option<Drawn> {
    let is_usable = |&at: &usize| u64::from(words[at]) < limit(b, q);
    let usable: Vec<usize> = (0..words.len()).filter(is_usable).collect();
    let chosen = usable.get(..wanted)?;
    Some(Drawn {
        elements: chosen.iter().map(|&at| words[at] % q).collect(),
        used: chosen.last().map_or(0, |last| last + 1),
    })
}
