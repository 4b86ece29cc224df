//! Lister cases that are not ten well-formed numbers, so that 26 is due, and accepted lines with
//! a random byte damaged.

use super::plans::EXAMPLE;
use crate::cases::forms::padded;
use crate::sheet::listing::text;
use crate::sheet::random::Random;

/// The sheet's example without its LF.
const BARE: &[u8] = b"2 4 4 4 2 2 2 2 2 20";

/// All cases for which 26 is due.
pub fn malformed(random: &mut Random) -> Vec<Vec<u8>> {
    let groups = [
        whole_inputs(),
        beginnings(),
        endings(),
        prefixes(),
        wrong_counts(),
        wide_gaps(),
        wrong_gaps(),
        leading_zeros(),
        wrong_numbers(),
        long_inputs(random),
    ];
    groups.concat()
}

/// Short inputs that are no line at all, and malformed lines that other tests would turn down too.
fn whole_inputs() -> Vec<Vec<u8>> {
    #[rustfmt::skip]
    let inputs: [&[u8]; 18] = [
        b"", b"\n", b"\n\n", b" ", b" \n", b"0", b"0\n", b"7\n", b"\0", b"\r\n", b"\t\n", b"\xff",
        b"0 0 0 0 0 0 0 0 0 0", b"9 9 9 9 9 9 9 9 9 9\r\n", b" 0 0 0 0 0 0 0 0 0 0\n",
        b"REFUSED 26\n", b"         \n", b"\n\n\n\n\n\n\n\n\n\n",
    ];
    inputs.map(<[u8]>::to_vec).to_vec()
}

/// The example with something before it.
fn beginnings() -> Vec<Vec<u8>> {
    #[rustfmt::skip]
    let begins: [&[u8]; 11] = [
        b" ", b"  ", b"\n", b"\r\n", b"\t", b"\0", b"+", b"-", b"0", b"\xef\xbb\xbf", b"\"",
    ];
    begins.map(|begin| [begin, BARE, b"\n"].concat()).to_vec()
}

/// The example with a wrong end.
fn endings() -> Vec<Vec<u8>> {
    #[rustfmt::skip]
    let ends: [&[u8]; 22] = [
        b"", b"\r", b"\r\n", b"\n\n", b"\n\r", b" \n", b"  \n", b"\t\n", b" ", b"\n ", b"\nx",
        b"\n2", b"\n\0", b"\0", b"\0\n", b"\n2 4 4 4 2 2 2 2 2 20\n", b".\n", b";\n", b"\x1a",
        b"\n\x1a", b"\x85", b"\x8a",
    ];
    ends.map(|end| [BARE, end].concat()).to_vec()
}

/// Beginnings of the example, a number or a space last.
fn prefixes() -> Vec<Vec<u8>> {
    (1..BARE.len())
        .step_by(3)
        .map(|length| BARE[..length].to_vec())
        .collect()
}

/// Lines of one to nine numbers, and of eleven, twelve, nineteen and twenty.
fn wrong_counts() -> Vec<Vec<u8>> {
    let counts = (1..10).chain([11, 12, 19, 20]);
    counts
        .map(|count| line_of(&vec![b"2".to_vec(); count]))
        .collect()
}

/// Words with single spaces between and one LF at the end.
fn line_of(words: &[Vec<u8>]) -> Vec<u8> {
    let mut line = words.join(&b' ');
    line.push(b'\n');
    line
}

/// The words of the example.
fn example_words() -> Vec<Vec<u8>> {
    BARE.split(|&byte| byte == b' ')
        .map(<[u8]>::to_vec)
        .collect()
}

/// The example with another gap after word number i, from 0.
fn gap_after(i: usize, gap: &[u8]) -> Vec<u8> {
    let words = example_words();
    let (left, right) = words.split_at(i + 1);
    [&left.join(&b' ')[..], gap, &line_of(right)].concat()
}

/// Two spaces in each of the nine gaps.
fn wide_gaps() -> Vec<Vec<u8>> {
    (0..9).map(|i| gap_after(i, b"  ")).collect()
}

/// Other separators, in gaps all along the line.
fn wrong_gaps() -> Vec<Vec<u8>> {
    #[rustfmt::skip]
    let gaps: [&[u8]; 18] = [
        b"\t", b"\n", b"", b"\r", b"\0", b",", b"\xa0", b"\x0b", b"\x0c", b" \t", b", ", b"\n ",
        b" \n", b"_", b"\xc2\xa0", b"   ", b"/", b"\n",
    ];
    gaps.iter()
        .enumerate()
        .map(|(i, gap)| gap_after(i * 5 % 9, gap))
        .collect()
}

/// The example with word number i, from 0, put in another way.
fn word_at(i: usize, word: &[u8]) -> Vec<u8> {
    let mut words = example_words();
    words[i] = word.to_vec();
    line_of(&words)
}

/// Each of the ten numbers with a needless leading 0.
fn leading_zeros() -> Vec<Vec<u8>> {
    let words = example_words();
    (0..10)
        .map(|i| word_at(i, &[b"0", &words[i][..]].concat()))
        .collect()
}

/// Words that are no number of 1 to 5 digits, all along the line.
fn wrong_numbers() -> Vec<Vec<u8>> {
    #[rustfmt::skip]
    let words: [&[u8]; 30] = [
        b"", b"00", b"00000", b"000000", b"01", b"00002", b"000002", b"-1", b"+1", b"-0", b"a",
        b"2a", b"two", b"2.0", b"0x2", b"2e0", b"1_0", b"100000", b"999999", b"065536",
        b"4294967298", b"18446744073709551618", b"/", b":", b"\xb2", b"2\xb2", b"\xd9\xa2",
        b"2\0", b"\x002", b"|",
    ];
    words
        .iter()
        .enumerate()
        .map(|(i, word)| word_at(i * 3 % 10, word))
        .collect()
}

/// Inputs near 60 bytes, the length of the longest line, and up to 199 bytes.
fn long_inputs(random: &mut Random) -> Vec<Vec<u8>> {
    let line = text(&EXAMPLE);
    let noise = (0..150).map(|_| random.byte()).collect();
    let mut list = vec![line.repeat(7), noise];
    list.extend([b'0', b'2', b' ', b'\n', b'\0', 0xff].map(|byte| vec![byte; 150]));
    list.extend([61, 64, 65, 128, 199].map(|length| padded(&line, length, b'\n')));
    list.extend([61, 64, 65, 128, 199].map(|length| padded(&line, length, b'\0')));
    list.extend(after_longest());
    list
}

/// The longest line, ten times 99999, with a wrong end.
fn after_longest() -> Vec<Vec<u8>> {
    let longest = text(&[99999; 10]);
    let bare = &longest[..longest.len() - 1];
    let ends: [&[u8]; 8] = [
        b"",
        b"9\n",
        b" 9\n",
        b" 99999\n",
        b"\n9",
        b"\n\n",
        b" \n",
        b"\r\n",
    ];
    ends.map(|end| [bare, end].concat()).to_vec()
}

/// Lines with one byte replaced, put in or taken out at random; some stay well-formed.
pub fn damaged(random: &mut Random, lines: &[Vec<u8>]) -> Vec<Vec<u8>> {
    (0..40)
        .map(|_| {
            let line = lines[random.index(lines.len())].clone();
            damage(random, line)
        })
        .collect()
}

/// A line with one byte changed by chance; half the new bytes are ones that a line has.
pub fn damage(random: &mut Random, mut line: Vec<u8>) -> Vec<u8> {
    let at = random.index(line.len());
    let usual = b"0123456789 \n"[random.index(12)];
    let byte = if random.within(0, 1) == 0 {
        usual
    } else {
        random.byte()
    };
    match random.within(0, 2) {
        0 => line[at] = byte,
        1 => line.insert(at, byte),
        _ => drop(line.remove(at)),
    }
    line
}
