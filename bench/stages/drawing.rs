//! Masks drawn from random words, timed for both.
//!
//!   MASKS, SKIPPED  how many masks are drawn, and how many words are skipped
//!   lowest_skipped  the lowest word that is skipped
//!   measure         times a drawing

use crate::calls::{Calls, Plain};
use crate::library::Library;
use crate::race::{race, Contestant, Times};
use crate::random::Random;
use crate::work::prime;
use std::hint::black_box;

/// How many masks are drawn, and how many words are skipped among those that they come from.
pub const MASKS: usize = 65_536;
pub const SKIPPED: usize = 8;

/// The lowest word that is skipped.
pub fn lowest_skipped(modulus: u32) -> u32 {
    let q = u64::from(prime(modulus));
    ((1 << 32) / q * q) as u32
}

/// As many usable words as there are masks, in between some that are skipped.
fn words(random: &mut Random, modulus: u32) -> Vec<u32> {
    let lowest = lowest_skipped(modulus);
    let mut words = random.elements(MASKS, lowest);
    for _ in 0..SKIPPED {
        let at = random.index(MASKS);
        words.insert(at, random.within(lowest, u32::MAX));
    }
    words
}

/// Draws masks once, from all words.
fn make(calls: &impl Calls, modulus: u32, words: &[u32], masks: &mut [u32]) {
    let used = calls.draw(modulus, black_box(words), masks);
    assert_eq!(used, Ok(words.len()));
}

/// Times a drawing for both, into the same masks, after both had the same.
pub fn measure(modulus: u32) -> Times {
    let words = words(&mut Random::new(u64::from(modulus)), modulus);
    let (mut masks, mut other) = (vec![0; MASKS], vec![0; MASKS]);
    make(&Library, modulus, &words, &mut masks);
    make(&Plain, modulus, &words, &mut other);
    assert!(masks == other, "two drawings differ");
    race(&mut |contestant| match contestant {
        Contestant::Library => make(&Library, modulus, &words, &mut masks),
        Contestant::Plain => make(&Plain, modulus, &words, &mut masks),
    })
}
