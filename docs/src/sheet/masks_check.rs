//! Drawing masks checked: against values worked out by hand, against a search for the limit, and, with
//! few words, against a count of all lists of words.
//!
//!   SKIPPED  how many words are skipped for each modulus
//!   run      checks the drawing

use std::collections::HashMap;

use super::masks::{draw, drawn, limit, Drawing, Drawn, WORDS};
use super::plan::primes;

/// How many words are skipped for each modulus: always the topmost (02, U3 and U4).
const SKIPPED: [u32; 4] = [9, 1, 1, 2];

/// Panics unless drawing agrees with everything below.
pub fn run() {
    hand_values();
    skipped_words();
    for b in [1, 2, 7, 12, 16] {
        for q in 1..=b + 1 {
            single_elements(b, q);
            pairs(b, q);
            pairs_among_skipped(b, q);
        }
    }
}

/// Drawings worked out by hand: skipped words at the front, between and at the end, too few usable
/// words, no element wanted, no modulus.
fn hand_values() {
    let top = |below: u32| u32::MAX - below;
    let of = |modulus, words: &[u32], room| {
        let words = words.to_vec();
        let drawn = draw(&Drawing {
            modulus,
            words,
            room,
        });
        drawn.map(|Drawn { elements, used }| (elements, used))
    };
    let mixed = [top(0), top(8), 5, 13, top(9)];
    assert_eq!(of(3, &[top(0), 1, 9], 1), Ok((vec![1], 2)));
    assert_eq!(of(1, &mixed, 3), Ok((vec![5, 0, 12], 5)));
    assert_eq!(of(1, &mixed, 2), Ok((vec![5, 0], 4)));
    assert_eq!(of(1, &mixed, 4), Err(27));
    assert_eq!(of(2, &[top(1), top(0), top(0)], 1), Ok((vec![256], 1)));
    assert_eq!(of(3, &[top(0), 65537], 1), Ok((vec![0], 2)));
    let large = [top(1), top(2), top(0), 2147483647, 2147483648];
    assert_eq!(of(4, &large, 1), Ok((vec![2147483646], 2)));
    assert_eq!(of(4, &large, 3), Ok((vec![2147483646, 0, 1], 5)));
    assert_eq!(of(4, &large, 4), Err(27));
    assert_eq!(of(1, &[top(0)], 0), Ok((vec![], 0)));
    assert_eq!(of(1, &[], 0), Ok((vec![], 0)));
    assert_eq!(of(0, &[], 0), Err(1));
    assert_eq!(of(0, &[], 1), Err(1));
    assert_eq!(of(5, &[], 1), Err(1));
}

/// The words that are skipped, by a walk down from 2^32 to the first multiple of q.
fn skipped_words() {
    assert_eq!(primes().count(), SKIPPED.len());
    for ((_, q), due) in primes().zip(SKIPPED) {
        let mut down = (0..q).map(|below| WORDS - u64::from(below));
        let first = down.find(|number| number % u64::from(q) == 0);
        assert_eq!(first, Some(limit(WORDS, q)));
        let lowest = WORDS - u64::from(due);
        let is_skipped = |&word: &u64| drawn(WORDS, q, &[word as u32], 1).is_none();
        let near_top = WORDS - 70_000..WORDS;
        assert!(near_top.filter(is_skipped).eq(lowest..WORDS));
    }
}

/// All lists of so many numbers below b.
fn lists(b: u32, length: u32) -> impl Iterator<Item = Vec<u32>> {
    let digits = move |number: u32| (0..length).map(move |place| number / b.pow(place) % b);
    (0..b.pow(length)).map(move |number| digits(number).collect())
}

/// How many of the lists of words give each list of elements with each count of words used.
fn counted(
    b: u32,
    q: u32,
    lists: impl Iterator<Item = Vec<u32>>,
    wanted: usize,
) -> HashMap<(Vec<u32>, usize), u32> {
    let mut counts = HashMap::new();
    for words in lists {
        if let Some(Drawn { elements, used }) = drawn(b.into(), q, &words, wanted) {
            *counts.entry((elements, used)).or_default() += 1;
        }
    }
    counts
}

/// Each element comes from b / q of b words.
fn single_elements(b: u32, q: u32) {
    let counts = counted(b, q, lists(b, 1), 1);
    for element in lists(q, 1) {
        assert_eq!(counts.get(&(element, 1)).unwrap_or(&0), &(b / q));
    }
}

/// Each two elements come from (b / q)^2 lists of two usable words.
fn pairs(b: u32, q: u32) {
    let usable = |words: &Vec<u32>| {
        words
            .iter()
            .all(|&word| u64::from(word) < limit(b.into(), q))
    };
    let counts = counted(b, q, lists(b, 2).filter(usable), 2);
    for elements in lists(q, 2) {
        assert_eq!(counts.get(&(elements, 2)).unwrap_or(&0), &(b / q).pow(2));
    }
}

/// Each two elements come from equally many lists of three words of which two are used, and from
/// equally many of which three are: there one of the first two is skipped.
fn pairs_among_skipped(b: u32, q: u32) {
    let counts = counted(b, q, lists(b, 3), 2);
    for elements in lists(q, 2) {
        for (used, others) in [(0, 0), (1, 0), (2, b), (3, 2 * (b % q))] {
            let count = counts.get(&(elements.clone(), used)).unwrap_or(&0);
            assert_eq!(count, &(others * (b / q).pow(2)));
        }
    }
}
