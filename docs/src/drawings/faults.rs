//! Texts with something wrong: a fault in a number, too few numbers, too many elements, and two of all
//! that can be wrong at once.
//!
//!   faults  all of them

use super::draw_text::DrawText;
use super::printed::{drawn_lines, MOST_TEXT, TOO_FEW, TOO_LONG, TOO_MANY};
use crate::cases::folder::Case;
use crate::cases::forms::{filled_up, padded, too_long};
use crate::cases::number_faults::{far_faults, told_faults, told_large, wrong_bytes, wrong_tokens};
use crate::cases::tokens::{no_number, too_large, MARK};
use crate::sheet::listing::refused;

/// Texts with something wrong, and some beside them with nothing wrong.
pub fn faults() -> Vec<Case> {
    let text = DrawText::by_hand();
    let groups = [
        told_faults(b"1 1"),
        told_large(b"1 1"),
        wrong_bytes(&text.bare(), 3),
        wrong_tokens(&text.tokens()),
        far_faults(b"1 1", MOST_TEXT - 1),
        letters(),
        marks(),
        few_numbers(),
        element_counts(),
        lengths(&text.bare()),
        two_at_once(),
    ];
    groups.concat()
}

/// Letters, words and signs, which belong to no number here, with their positions as told by hand.
fn letters() -> Vec<Case> {
    let texts = [
        ("x", 1, 1),
        ("1 x", 1, 3),
        ("1 1 x", 1, 5),
        ("1x 1 5", 1, 2),
        ("1 1x 5", 1, 4),
        ("1 1 5x", 1, 6),
        ("1 1 5 x", 1, 7),
        ("1 1 5 Z9", 1, 7),
        ("1 1 5_", 1, 6),
        ("_ 1 1 5", 1, 1),
        ("JOB 1 1 5", 1, 1),
        ("1 1\nMASKS_A 5", 2, 1),
        ("1 1 5\nREFUSED 27\n", 2, 1),
        ("1 1 5\n USED", 2, 2),
        ("1 1\r\n5,\r\n6", 2, 2),
        ("1:1 5", 1, 2),
        ("q=13", 1, 1),
        ("-1 1 5", 1, 1),
        ("1 -1 5", 1, 3),
        ("1 1 0x5", 1, 6),
        ("1 1 5 \u{e4}", 1, 7),
    ];
    let case = |(text, line, column): (&str, usize, usize)| (text.into(), no_number(line, column));
    texts.map(case).to_vec()
}

/// The UTF-8 mark at the front, which is skipped, and a mark or a part of one where it does not belong.
fn marks() -> Vec<Case> {
    let fit = DrawText::by_hand().bare();
    let after = |front: &[&[u8]]| [&front.concat()[..], &fit].concat();
    vec![
        (after(&[MARK]), drawn_lines(5, &[5, 0, 12])),
        (after(&[MARK, MARK]), no_number(1, 1)),
        (after(&[b" ", MARK]), no_number(1, 2)),
        (after(&[b"\n", MARK]), no_number(2, 1)),
        (after(&[&MARK[..2]]), no_number(1, 1)),
        (after(&[&MARK[..1]]), no_number(1, 1)),
        (after(&[&MARK[1..]]), no_number(1, 1)),
        ([&fit, MARK].concat(), no_number(1, fit.len() + 1)),
        ([MARK, &fit, b" ?"].concat(), no_number(1, fit.len() + 2)),
        ([MARK, b"1 4294967296"].concat(), too_large(1, 12)),
        (MARK.into(), TOO_FEW.into()),
        (MARK[..2].into(), no_number(1, 1)),
        ([MARK, b"1"].concat(), TOO_FEW.into()),
    ]
}

/// Texts with one number or none.
fn few_numbers() -> Vec<Case> {
    #[rustfmt::skip]
    let texts: [&[u8]; 16] = [
        b"", b"\n", b"\r", b"\r\n", b" \t ", b"#", b"# 1 1 5", b"# 1\n# 1\r# 5", b"1", b"1\n", b"0",
        b" 4294967295 ", b"1#1 5", b"#\n3 # 1 5", b"00000000000000", b"65537\r\n\r\n",
    ];
    texts.map(|text| (text.into(), TOO_FEW.into())).to_vec()
}

/// Wanted elements about the most; none of the texts has a word.
fn element_counts() -> Vec<Case> {
    let texts = [
        ("1 65535", refused(27)),
        ("1 65536", refused(27)),
        ("1 0000065536", refused(27)),
        ("1 65537", TOO_MANY.into()),
        ("2 65538", TOO_MANY.into()),
        ("3 65537\n", TOO_MANY.into()),
        ("4 65536", refused(27)),
        ("4 65537", TOO_MANY.into()),
        ("1 131072", TOO_MANY.into()),
        ("1 2147483648", TOO_MANY.into()),
        ("1 4294967294", TOO_MANY.into()),
        ("1 4294967295", TOO_MANY.into()),
        ("1 4294967296", too_large(1, 12)),
        ("1 4295032832", too_large(1, 12)),
    ];
    texts.map(|(text, due)| (text.into(), due)).to_vec()
}

/// A text as long as can be, and too long.
fn lengths(text: &[u8]) -> Vec<Case> {
    let longest = MOST_TEXT - 1;
    let fit = |text| (text, drawn_lines(5, &[5, 0, 12]));
    let zeros = [&padded(b"2 1 ", longest - 1, b'0')[..], b"5"].concat();
    let mut cases: Vec<Case> = filled_up(text, longest).into_iter().map(fit).collect();
    cases.push((zeros, drawn_lines(1, &[5])));
    assert!(cases.iter().all(|(text, _)| text.len() == longest));
    let long = too_long(text, MOST_TEXT).into_iter();
    cases.extend(long.map(|text| (text, TOO_LONG.into())));
    cases
}

/// Texts with two things wrong, or more: the first is printed.
fn two_at_once() -> Vec<Case> {
    let fronts = ["", "1", "1 65537 5", "0 1 5", "1 1", "4294967296"];
    let long = fronts.map(|front| padded(front.as_bytes(), MOST_TEXT, b' '));
    let mut cases = long.map(|text| (text, TOO_LONG.into())).to_vec();
    let texts = [
        ("1 4294967296 x", too_large(1, 12)),
        ("1 x 4294967296", no_number(1, 3)),
        ("4294967296", too_large(1, 10)),
        ("1 ?", no_number(1, 3)),
        ("1 65537 x", no_number(1, 9)),
        ("1 65537 4294967296", too_large(1, 18)),
        ("0 65537 x", no_number(1, 9)),
        ("0 1 5 x", no_number(1, 7)),
        ("0 1 4294967296", too_large(1, 14)),
        ("1 2 5 x", no_number(1, 7)),
        ("1 2 5 4294967296", too_large(1, 16)),
        ("1 0 x", no_number(1, 5)),
        ("0", TOO_FEW.into()),
        ("65537", TOO_FEW.into()),
        ("0 65537", TOO_MANY.into()),
        ("0 65537 5", TOO_MANY.into()),
        ("1 65537 5", TOO_MANY.into()),
        ("4294967295 4294967295", TOO_MANY.into()),
        ("5 65537 5", TOO_MANY.into()),
        ("5 1 x", no_number(1, 5)),
        ("5", TOO_FEW.into()),
        ("5 2 4294967295", refused(1)),
        ("0 65536", refused(1)),
        ("0 2 4294967295", refused(1)),
        ("0 0 4294967295", refused(1)),
    ];
    cases.extend(texts.map(|(text, due)| (text.into(), due)));
    cases
}
