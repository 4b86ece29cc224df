//! Texts with very many words: each element counted, and as many elements as can be wanted.
//!
//!   large  all of them

use std::collections::HashMap;

use super::draw_text::DrawText;
use super::printed::{drawn_lines, MOST_ELEMENTS, MOST_TEXT};
use crate::calls::masks::lowest_skipped;
use crate::cases::folder::Case;
use crate::cases::forms::padded;
use crate::sheet::listing::refused;
use crate::sheet::plan::primes;
use crate::sheet::random::Random;

/// How many words each list has, up to a few.
const MANY: u32 = 65_536;

/// Texts with very many words.
pub fn large(random: &mut Random) -> Vec<Case> {
    let mut cases = Vec::new();
    for (modulus, q) in primes() {
        cases.push(lowest_words(modulus, q));
        cases.extend(topmost_words(modulus, q));
        cases.extend(most_elements(random, modulus, q));
        cases.extend(most_skipped(random, modulus, q));
    }
    cases.extend(most_words());
    cases
}

/// A case whose text is written in some way; panics unless so many words are used.
fn used(text: &DrawText, written: fn(&DrawText) -> Vec<u8>, count: usize) -> Case {
    let due = text.due();
    assert_eq!(due.lines().next(), Some(&format!("# USED {count}")[..]));
    (written(text), due)
}

/// Panics unless of so many elements that are printed each one below q comes equally often, or once more:
/// of 65,536 modulo 13 each comes 5041 or 5042 times.
fn counted(due: &str, total: u32, q: u32) {
    let mut counts: HashMap<&str, u32> = HashMap::new();
    for element in due.lines().skip(1) {
        *counts.entry(element).or_default() += 1;
    }
    let fewest = total / q;
    assert_eq!(counts.values().sum::<u32>(), total);
    assert_eq!(counts.len(), q.min(total) as usize);
    assert!(counts
        .values()
        .all(|count| [fewest, fewest + 1].contains(count)));
}

/// The lowest words: each gives an element.
fn lowest_words(modulus: u32, q: u32) -> Case {
    let text = DrawText {
        modulus,
        wanted: MANY,
        words: (0..MANY).collect(),
    };
    counted(&text.due(), MANY, q);
    used(&text, DrawText::column, MANY as usize)
}

/// The topmost words, rising and falling: as many elements as there are usable words, and one more,
/// which is refused.
fn topmost_words(modulus: u32, q: u32) -> Vec<Case> {
    let rising: Vec<u32> = (u32::MAX - (MANY - 1)..=u32::MAX).collect();
    let falling = rising.iter().rev().copied().collect();
    let wanted = lowest_skipped(q) - rising[0];
    let text = |words| DrawText {
        modulus,
        wanted,
        words,
    };
    let [rising, falling] = [text(rising), text(falling)];
    counted(&rising.due(), wanted, q);
    counted(&falling.due(), wanted, q);
    let mut cases = vec![
        used(&rising, DrawText::by_od, wanted as usize),
        used(&falling, DrawText::column, MANY as usize),
    ];
    for mut text in [rising, falling] {
        text.wanted += 1;
        cases.push((text.by_od(), refused(27)));
    }
    cases
}

/// As many elements as can be wanted, from as many words, with some skipped at the front, among them,
/// before the last and after it; then without the last usable word.
fn most_elements(random: &mut Random, modulus: u32, q: u32) -> Vec<Case> {
    let lowest = lowest_skipped(q);
    let mut words = random.elements(MOST_ELEMENTS as usize, lowest);
    for at in [0, 0, 1, 30_000, 30_000, words.len() - 1, words.len() - 1] {
        words.insert(at, random.within(lowest, u32::MAX));
    }
    let last = words.len() - 1;
    words.extend([u32::MAX, lowest]);
    let mut text = DrawText {
        modulus,
        wanted: MOST_ELEMENTS,
        words,
    };
    let fit = used(&text, DrawText::by_od, MOST_ELEMENTS as usize + 7);
    text.words.remove(last);
    vec![fit, (text.by_od(), refused(27))]
}

/// As many skipped words as a text has room for, then one that is usable; and without that one.
fn most_skipped(random: &mut Random, modulus: u32, q: u32) -> Vec<Case> {
    let lowest = lowest_skipped(q);
    let word = |_| random.within(lowest, u32::MAX);
    let mut text = DrawText {
        modulus,
        wanted: 1,
        words: (0..71_493).map(word).collect(),
    };
    let none = (text.bare(), refused(27));
    text.words.push(4);
    let one = (text.bare(), drawn_lines(71_494, &[4]));
    assert!((MOST_TEXT - 11..MOST_TEXT).contains(&one.0.len()));
    vec![none, one]
}

/// As many words as a text has room for, of which the first are used; and as many as can be used: the
/// most elements, from words of one digit after as many skipped ones as there is room for.
fn most_words() -> Vec<Case> {
    let longest = MOST_TEXT - 1;
    let front = format!("1 {MOST_ELEMENTS}\n").into_bytes();
    let wanted = MOST_ELEMENTS as usize;
    let skipped = (longest - front.len() - 2 * wanted) / 11;
    let all_used = [b"4294967295 ".repeat(skipped), b"7 ".repeat(wanted)];
    let cases = [
        (b"7 ".repeat((longest - front.len()) / 2), wanted),
        (all_used.concat(), skipped + wanted),
    ];
    let case = |(words, used): (Vec<u8>, usize)| {
        let text = padded(&[&front[..], &words].concat(), longest, b' ');
        (text, drawn_lines(used, &vec![7; wanted]))
    };
    cases.map(case).to_vec()
}
