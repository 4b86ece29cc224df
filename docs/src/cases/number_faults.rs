//! Texts with a fault in a number: a byte that is no number's, or a digit by which a value would reach
//! 2^32.
//!
//!   told_faults   short texts with a byte that is no number's
//!   told_large    short texts with a number that is too large
//!   wrong_bytes   a byte that is no number's instead of a gap
//!   wrong_tokens  tokens that are no number, or too large a one
//!   far_faults    faults far on in a text

use super::folder::Case;
use super::tokens::{no_number, too_large};

/// Short texts after a line that is fit, with the position of the fault as told by hand.
pub fn told_faults(line: &[u8]) -> Vec<Case> {
    let texts: [(&[u8], usize, usize); 23] = [
        (b"-", 2, 1),
        (b" -1", 2, 2),
        (b"1 -2 3", 2, 3),
        (b"12x", 2, 3),
        (b"12A", 2, 3),
        (b"1\n2\n3.0", 4, 2),
        (b"\n\n\t+", 4, 2),
        (b"# x\n1\t\t?", 3, 4),
        (b"1\r\n2\r\n3\r?", 5, 1),
        (b"\r\r\r?", 5, 1),
        (b"1#x\n?", 3, 1),
        (b"1#x\r?", 3, 1),
        (b"#\n#\n#\n\n,", 6, 1),
        (b"1 2 3 \\# 4", 2, 7),
        (b"; y\nz", 2, 1),
        (b"1 2\n3 = 4\nz", 3, 3),
        (b"\xef\xbb\xbf1 2 3", 2, 1),
        (b"1 \xc3\xa9 2", 2, 3),
        (b"\0", 2, 1),
        (b"1 2\0", 2, 4),
        (b"429496729x6", 2, 10),
        (b"1\x0b2", 2, 2),
        (b"1\x0c2", 2, 2),
    ];
    let cases = texts.map(|(text, number, column)| {
        let text = [line, b"\n", text].concat();
        (text, no_number(number, column))
    });
    cases.to_vec()
}

/// Numbers that are too large, after three bytes that are fit and a space in the same line.
pub fn told_large(front: &[u8; 3]) -> Vec<Case> {
    let texts: [(&[u8], usize, usize); 10] = [
        (b"4294967296", 1, 14),
        (b"4294967300", 1, 14),
        (b"9999999999", 1, 14),
        (b"42949672950", 1, 15),
        (b"18446744073709551616", 1, 15),
        (b"340282366920938463463374607431768211456", 1, 15),
        (b"1 00004294967296\n", 1, 20),
        (b"4294967295 4294967296", 1, 25),
        (b"4294967296x", 1, 14),
        (b"\r\n4294967296# -", 2, 10),
    ];
    let cases = texts.map(|(text, line, column)| {
        let text = [front, &b" "[..], text].concat();
        (text, too_large(line, column))
    });
    cases.to_vec()
}

/// A text of one line with a byte that is no number's instead of the gap after a number.
pub fn wrong_bytes(text: &[u8], gap: usize) -> Vec<Case> {
    #[rustfmt::skip]
    let bytes = [
        0, 1, 7, 8, 11, 12, 14, 26, 27, 31, 33, 34, 36, 39, 42, 43, 44, 45, 46, 47, 58, 59, 61, 64,
        65, 69, 92, 95, 96, 97, 101, 120, 124, 126, 127, 128, 133, 137, 138, 141, 160, 163, 176,
        185, 187, 191, 239, 255,
    ];
    assert_eq!(text[gap], b' ');
    let cases = bytes.map(|byte| {
        let mut text = text.to_vec();
        text[gap] = byte;
        (text, no_number(1, gap + 1))
    });
    cases.to_vec()
}

/// Tokens that are no number, or too large a one, instead of numbers all along a text; each token
/// stands in a line of its own, and the fault so many bytes into the token.
pub fn wrong_tokens(tokens: &[Vec<u8>]) -> Vec<Case> {
    let list: [(&[u8], usize); 13] = [
        (b"-1", 0),
        (b"+1", 0),
        (b"1.", 1),
        (b"1,", 1),
        (b"0x1", 1),
        (b"1e0", 1),
        (b"1_000", 1),
        (b"4294967296", 9),
        (b"4294967297", 9),
        (b"6553600000000", 9),
        (b"\xd9\xa1", 0),
        (b"1\xc2\xa0", 1),
        (b"'1'", 0),
    ];
    let is_number = |&at: &usize| tokens[at][0].is_ascii_digit();
    let numbers: Vec<usize> = (0..tokens.len()).filter(is_number).collect();
    let cases = list.iter().enumerate().map(|(i, (wrong, before))| {
        let at = numbers[i * 3 % numbers.len()];
        let mut tokens = tokens.to_vec();
        tokens[at] = wrong.to_vec();
        let due = match before {
            9 => too_large(at + 1, before + 1),
            _ => no_number(at + 1, before + 1),
        };
        (tokens.join(&b'\n'), due)
    });
    cases.collect()
}

/// Faults far on in a text that begins with three bytes that are fit: in a high line, in a high column,
/// and in the last byte of the longest text.
pub fn far_faults(front: &[u8; 3], longest: usize) -> Vec<Case> {
    let after = |filling: &[u8], count: usize, end: &[u8]| {
        [front, &filling.repeat(count)[..], end].concat()
    };
    vec![
        (after(b"\n", 60_000, b" ?"), no_number(60_001, 2)),
        (after(b"\r", 60_000, b" ?"), no_number(60_001, 2)),
        (after(b"\r\n", 30_000, b" ?"), no_number(30_001, 2)),
        (after(b"\n", longest - 4, b"?"), no_number(longest - 3, 1)),
        (after(b" ", 60_000, b"?"), no_number(1, 60_004)),
        (after(b"\t", longest - 4, b"?"), no_number(1, longest)),
        (
            [front, &b" "[..], &b"0".repeat(longest - 5), b"?"].concat(),
            no_number(1, longest),
        ),
        (after(b" 1 2\r\n", 9_000, b"?"), no_number(9_001, 1)),
        (
            after(b"# x\n", 9_000, b"  4294967296"),
            too_large(9_001, 12),
        ),
    ]
}
