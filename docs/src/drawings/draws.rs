//! Texts of all forms of masks to draw, most of them small: told by hand, and by chance.
//!
//!   draws    texts that are drawn, or refused with 1 or 27
//!   changed  texts with a byte changed, whatever becomes of them

use super::draw_text::DrawText;
use super::printed::drawn_lines;
use crate::calls::masks::{lowest_skipped, mixed};
use crate::cases::draw::modulus_in_turn;
use crate::cases::faults::NO_MODULUS;
use crate::cases::folder::Case;
use crate::cases::forms::{forms, strewn};
use crate::cases::tokens::{no_number, MARK};
use crate::lister::malformed::damage;
use crate::sheet::listing::refused;
use crate::sheet::plan::{known_prime, primes};
use crate::sheet::random::Random;

/// Texts that are drawn, or refused with 1 or 27.
pub fn draws(random: &mut Random) -> Vec<Case> {
    let groups = [
        told_by_hand(),
        all_forms(),
        line_ends(),
        by_od(random),
        about_limits(),
        no_modulus(),
        by_chance(random),
    ];
    groups.concat()
}

/// Texts, and what is printed for them, as told by hand.
fn told_by_hand() -> Vec<Case> {
    let texts = [
        ("3 1 4294967295 1 9", "# USED 2\n1\n"),
        ("3 2 4294967295 1 9", "# USED 3\n1\n9\n"),
        ("3 3 4294967295 1 9", "REFUSED 27\n"),
        (
            "1 3 4294967295 4294967287 5 13 4294967286",
            "# USED 5\n5\n0\n12\n",
        ),
        (
            "1 2 4294967295 4294967287 5 13 4294967286",
            "# USED 4\n5\n0\n",
        ),
        ("1 4 4294967295 4294967287 5 13 4294967286", "REFUSED 27\n"),
        ("1 0", "# USED 0\n"),
        ("1 0 4294967295", "# USED 0\n"),
        ("1 0 5 13", "# USED 0\n"),
        ("2 1 7 4294967295", "# USED 1\n7\n"),
        ("2 2 4294967294 4294967295 257", "# USED 3\n256\n0\n"),
        ("4 1 4294967294 4294967293", "# USED 2\n2147483646\n"),
        (
            "4 3 4294967295 4294967293 4294967294 2147483647 2147483648",
            "# USED 5\n2147483646\n0\n1\n",
        ),
        ("4 1 4294967294 4294967295", "REFUSED 27\n"),
        ("4 0 4294967295", "# USED 0\n"),
        ("5 0", "REFUSED 1\n"),
        ("5 1 4294967293", "REFUSED 1\n"),
        ("0 0", "REFUSED 1\n"),
        ("0 1", "REFUSED 1\n"),
        ("1 1", "REFUSED 27\n"),
        ("# a comment\n\t2 1 # one\r\n258", "# USED 1\n1\n"),
        ("1 3\n# USED 5\n5\n0\n12\n", "# USED 3\n5\n0\n12\n"),
    ];
    let case = |(text, due): (&str, &str)| (text.into(), due.into());
    texts.map(case).to_vec()
}

/// A text in all forms.
fn all_forms() -> Vec<Case> {
    let text = DrawText::by_hand();
    let due = drawn_lines(5, &[5, 0, 12]);
    let texts = forms(&text.tokens()).into_iter();
    texts.map(|text| (text, due.clone())).collect()
}

/// A number and a comment in a line, with each kind of line end and kinds in turn; then the same with a
/// fault in the last line, after line ends that are one each, or two.
fn line_ends() -> Vec<Case> {
    let commented = |token: Vec<u8>| [&token[..], b" # 1 x"].concat();
    let lines: Vec<Vec<u8>> = DrawText::by_hand().tokens();
    let lines: Vec<Vec<u8>> = lines.into_iter().map(commented).collect();
    let ends = [
        ("\n", 1),
        ("\r", 1),
        ("\r\n", 1),
        ("\n\r", 2),
        ("\r\r\n", 2),
    ];
    let mut cases = Vec::new();
    for (end, count) in ends {
        let text = lines.join(end.as_bytes());
        let faulty = [&text[..], end.as_bytes(), b"\t?"].concat();
        cases.push((text, drawn_lines(5, &[5, 0, 12])));
        cases.push((faulty, no_number(lines.len() * count + 1, 2)));
    }
    cases
}

/// Up to eleven words as `od` writes them, with a mark and without.
fn by_od(random: &mut Random) -> Vec<Case> {
    let mut cases = Vec::new();
    for count in 0..12 {
        let text = DrawText {
            modulus: modulus_in_turn(count),
            wanted: count,
            words: random.elements(count as usize, u32::MAX - 8),
        };
        let due = text.due();
        assert!(due.starts_with(&format!("# USED {count}\n")));
        let marked = [MARK, &text.by_od()].concat();
        cases.extend([(text.by_od(), due.clone()), (marked, due)]);
    }
    cases
}

/// For each modulus the words about 0, q and the limit, by themselves.
fn about_limits() -> Vec<Case> {
    let mut cases = Vec::new();
    for (modulus, q) in primes() {
        let lowest = lowest_skipped(q);
        let drawn = [
            (0, 0),
            (q - 1, q - 1),
            (q, 0),
            (q + 1, 1),
            (lowest - 1, q - 1),
        ];
        let text = |word| format!("{modulus} 1 {word}\n").into_bytes();
        cases.extend(drawn.map(|(word, element)| (text(word), drawn_lines(1, &[element]))));
        cases.extend([lowest, u32::MAX].map(|word| (text(word), refused(27))));
    }
    cases
}

/// Numbers that are no modulus, with enough words and with too few.
fn no_modulus() -> Vec<Case> {
    let texts = |modulus| [format!("{modulus} 2 3"), format!("{modulus} 1 2 3\n")];
    let cases = NO_MODULUS.into_iter().flat_map(texts);
    cases.map(|text| (text.into(), refused(1))).collect()
}

/// Few words by chance, many of them about a limit or skipped.
fn drawn_by_chance(random: &mut Random, round: u32) -> DrawText {
    let modulus = modulus_in_turn(round);
    let q = known_prime(modulus);
    let count = random.within(1, 20);
    let words = mixed(random, q, count, round % 5);
    DrawText {
        modulus,
        wanted: random.within(0, count / 2),
        words: words.into_iter().map(|(word, _)| word).collect(),
    }
}

/// Texts by chance, with gaps of all kinds.
fn by_chance(random: &mut Random) -> Vec<Case> {
    let case = |round| {
        let text = drawn_by_chance(random, round);
        (strewn(random, &text.tokens()), text.due())
    };
    (0..48).map(case).collect()
}

/// Texts by chance with a byte changed.
pub fn changed(random: &mut Random) -> Vec<Vec<u8>> {
    let text = |round| {
        let text = drawn_by_chance(random, round).column();
        damage(random, text)
    };
    (0..48).map(text).collect()
}
