//! Texts of the same tokens in all forms: white space, comments, line ends, the UTF-8 mark, leading
//! zeros, and all lengths.
//!
//!   forms      the tokens in all forms
//!   strewn     the tokens with gaps and leading zeros by chance
//!   padded     a text and copies of a byte up to a length
//!   filled_up  a text made longer by what means nothing
//!   too_long   texts of a length and more, whatever they hold

use super::tokens::MARK;
use crate::sheet::random::Random;

/// What may stand between two tokens.
#[rustfmt::skip]
const GAPS: [&[u8]; 16] = [
    b" ", b"\t", b"\n", b"\r", b"\r\n", b"   ", b"\n\n", b" \t\r\n ", b"#\n", b" # 1 2 3\n",
    b"#x\r\n\t", b"\r#-1 A\r\r\n", b"\n# a, b; c.\n# -7\n", b"####\r",
    b"#\0\x0b\x0c\x7f\x80\xff\n", b"# \xe2\x88\x92\xc2\xa0\n ",
];

/// The tokens in all forms.
pub fn forms(tokens: &[Vec<u8>]) -> Vec<Vec<u8>> {
    let groups = [
        gaps(tokens),
        beginnings(tokens),
        endings(tokens),
        zeros(tokens),
    ];
    groups.concat()
}

/// The same between each two tokens: each kind of gap, and a comment with every byte but those that
/// end a line.
fn gaps(tokens: &[Vec<u8>]) -> Vec<Vec<u8>> {
    let inside = (0..=255).filter(|byte| !b"\r\n".contains(byte));
    let comment = [b"#", &inside.collect::<Vec<u8>>()[..]].concat();
    let comments = [b"\n", b"\r"].map(|end| [&comment[..], end].concat());
    let gaps = GAPS.into_iter().chain(comments.iter().map(Vec::as_slice));
    gaps.map(|gap| tokens.join(gap)).collect()
}

/// Something before the first token.
fn beginnings(tokens: &[Vec<u8>]) -> Vec<Vec<u8>> {
    #[rustfmt::skip]
    let begins: [&[u8]; 15] = [
        b" ", b"\n", b"\t\t", b"\r\n", b"\r", b"#\n", b"# 1\n# 2\n\n", b"#\r\n\r\n  ", b"##\n", b"#\r",
        b"# JOB 1\r\r", MARK, b"\xef\xbb\xbf\n", b"\xef\xbb\xbf# x\r\n", b"#\xef\xbb\xbf\n",
    ];
    let bare = tokens.join(&b' ');
    begins.map(|begin| [begin, &bare].concat()).to_vec()
}

/// Something after the last token.
fn endings(tokens: &[Vec<u8>]) -> Vec<Vec<u8>> {
    #[rustfmt::skip]
    let ends: [&[u8]; 16] = [
        b"", b"\n", b" ", b"\t", b"\r", b"\r\n", b"\n\n\n", b"#", b"# end", b"# end\n", b"\n#1 2 3",
        b" #\r", b"\n#\n#", b"#\xff\0", b"# JOB", b"\r#x\r\n#\r",
    ];
    let bare = tokens.join(&b' ');
    ends.map(|end| [&bare[..], end].concat()).to_vec()
}

/// One, twelve and two hundred leading zeros on each number.
fn zeros(tokens: &[Vec<u8>]) -> Vec<Vec<u8>> {
    let prefixed = |count| {
        let tokens = tokens.iter().map(|token| {
            let is_number = token[0].is_ascii_digit();
            let zeros = b"0".repeat(if is_number { count } else { 0 });
            [&zeros[..], token].concat()
        });
        tokens.collect::<Vec<_>>().join(&b' ')
    };
    [1, 12, 200].map(prefixed).to_vec()
}

/// The tokens with any gaps between, some numbers with leading zeros, and maybe a gap at either end.
pub fn strewn(random: &mut Random, tokens: &[Vec<u8>]) -> Vec<u8> {
    let mut text = Vec::new();
    for (i, token) in tokens.iter().enumerate() {
        if i > 0 || random.within(0, 1) == 0 {
            text.extend(GAPS[random.index(GAPS.len())]);
        }
        let zeros = random.within(0, 40).saturating_sub(30) as usize;
        if token[0].is_ascii_digit() {
            text.extend(b"0".repeat(zeros));
        }
        text.extend(token);
    }
    if random.within(0, 1) == 0 {
        text.extend(GAPS[random.index(GAPS.len())]);
    }
    text
}

/// A text and copies of a byte up to a length.
pub fn padded(text: &[u8], length: usize, byte: u8) -> Vec<u8> {
    let mut text = text.to_vec();
    text.resize(length, byte);
    text
}

/// A text with no line end, made longer by what means nothing: white space at either end, a comment, and
/// a mark at the front.
pub fn filled_up(text: &[u8], length: usize) -> Vec<Vec<u8>> {
    vec![
        padded(text, length, b' '),
        padded(text, length, b'\n'),
        padded(&[MARK, text].concat(), length, b'\r'),
        padded(&[text, b"#"].concat(), length, b'9'),
        [&b" ".repeat(length - text.len()), text].concat(),
    ]
}

/// Texts of a length and more, whatever they hold.
pub fn too_long(text: &[u8], length: usize) -> Vec<Vec<u8>> {
    vec![
        padded(text, length, b'\n'),
        padded(text, length, b' '),
        padded(text, length, b'x'),
        padded(&[MARK, text].concat(), length, b' '),
        padded(b"", length, b'x'),
        padded(b"", length, 0),
        padded(b"", length, b'#'),
        padded(text, length + 1, b'\n'),
        padded(text, 2 * length, b'\n'),
        padded(b"#", 5 * length, b'1'),
    ]
}
