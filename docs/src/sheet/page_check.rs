//! Pages checked: against pages made by hand, against the formula of their length, and by reading them
//! back.
//!
//!   BY_HAND     a table of two panels
//!   run         checks pages of many sizes
//!   reads_back  checks that a page has the length of the formula and reads back to its table

use super::page::{formatted, length, page, Paging};

/// A table of 2 by 7 elements modulo 2147483647.
pub const BY_HAND: [u32; 14] = [1, 20, 300, 0, 5, 6, 7, 2147483646, 9, 10, 11, 12, 13, 14];

/// Its page.
const BY_HAND_PAGE: [&str; 7] = [
    "               1          2          3          4          5          6\n",
    "    1          1         20        300          0          5          6\n",
    "    2 2147483646          9         10         11         12         13\n",
    "\n",
    "               7\n",
    "    1          7\n",
    "    2         14\n",
];

/// Panics unless pages agree with everything below.
pub fn run() {
    hand_pages();
    hand_lengths();
    refusals();
    sizes();
}

/// Pages made by hand: two panels, a single element, a full panel, and row numbers of one digit and two.
fn hand_pages() {
    assert_eq!(formatted(&BY_HAND, 7), BY_HAND_PAGE.concat());
    assert_eq!(formatted(&[12], 1), "               1\n    1         12\n");
    let [heading, first, ..] = BY_HAND_PAGE;
    assert_eq!(formatted(&BY_HAND[..6], 6), [heading, first].concat());
    let column = formatted(&[0; 10], 1);
    assert!(column.ends_with("\n    9          0\n   10          0\n"));
}

/// Lengths worked out by hand: the pages above, the longest column, the longest row, and the longest page
/// of all.
fn hand_lengths() {
    assert_eq!(length(2, 7), 3 * (72 + 17) + 1);
    assert_eq!(length(1, 1), 34);
    assert_eq!(length(1, 6), 144);
    assert_eq!(length(10, 1), 187);
    assert_eq!(length(7, 13), 8 * (72 + 72 + 17) + 2);
    assert_eq!(length(16384, 1), 278_545);
    assert_eq!(length(1, 16384), 395_950);
    assert_eq!(length(16384, 16384), 3_221_457_580);
}

/// The refusal numbers in their order: all faults at once, then one fewer at a time.
fn refusals() {
    let mut call = Paging {
        modulus: 5,
        t: 0,
        r: 7,
        table: BY_HAND[..13].to_vec(),
        room: 267,
    };
    call.table[7] = 2147483647;
    assert_eq!(page(&call), Err(1));
    call.modulus = 4;
    assert_eq!(page(&call), Err(2));
    call.t = 2;
    assert_eq!(page(&call), Err(13));
    call.table.push(14);
    assert_eq!(page(&call), Err(28));
    call.room = 268;
    assert_eq!(page(&call), Err(14));
    call.table[7] = 2147483646;
    assert_eq!(page(&call), Ok(BY_HAND_PAGE.concat().into_bytes()));
}

/// Pages of all sizes up to 26 by 26, and of sizes with numbers of more digits. The elements of a table all
/// differ: they go from 0 on, or are spread over all words.
fn sizes() {
    let small = (1..=26).flat_map(|t| (1..=26).map(move |r| (t, r)));
    let longer = [99, 100, 999, 1000, 9999, 10000, 16384];
    let large = longer.into_iter().flat_map(|size| [(size, 1), (1, size)]);
    for (t, r) in small.chain(large).chain([(100, 100), (1000, 13)]) {
        for step in [1, u32::MAX / (t * r)] {
            let table: Vec<u32> = (0..t * r).map(|i| i * step).collect();
            reads_back(formatted(&table, r as usize).as_bytes(), &table, r);
        }
    }
}

/// Panics unless a page has the length of the formula, is in panels of six columns and a last one of the
/// others, with one blank line between two, and reads back to the table of so many columns.
pub fn reads_back(page: &[u8], table: &[u32], columns: u32) {
    let mut rows = vec![Vec::<u32>::new(); table.len() / columns as usize];
    assert_eq!(page.len(), length(rows.len(), columns as usize));
    let text = std::str::from_utf8(page).expect("a text");
    let text = text.strip_suffix('\n').expect("the last line's end");
    let lines: Vec<&str> = text.split('\n').collect();
    for panel in lines.split(|line| line.is_empty()) {
        assert_eq!(panel.len(), rows.len() + 1);
        let first = rows[0].len() as u32 + 1;
        let heading: Vec<u32> = (first..=columns.min(first + 5)).collect();
        assert_eq!(numbers(panel[0], 16), heading);
        for ((number, row), line) in (1..).zip(&mut rows).zip(&panel[1..]) {
            let numbers = numbers(line, 5);
            let due = (number, heading.len() + 1);
            assert_eq!((numbers[0], numbers.len()), due);
            row.extend(&numbers[1..]);
        }
    }
    assert_eq!(rows.concat(), table);
}

/// The numbers of a line; panics unless they are digits without a needless 0, the first ends in this column
/// and each other 11 columns on, the last one ends the line, and all else are spaces.
fn numbers(line: &str, first_end: usize) -> Vec<u32> {
    let is_digit = |at: usize| line.as_bytes().get(at).is_some_and(u8::is_ascii_digit);
    assert!(line
        .bytes()
        .all(|byte| byte.is_ascii_digit() || byte == b' '));
    assert!(!line.ends_with(' '));
    let ends = (1..=line.len()).filter(|&end| is_digit(end - 1) && !is_digit(end));
    assert!(ends.eq((first_end..=line.len()).step_by(11)));
    line.split_whitespace().map(number).collect()
}

/// The number of a word; panics unless it is as short as can be.
fn number(word: &str) -> u32 {
    let number: u32 = word.parse().expect("a number");
    assert_eq!(number.to_string(), word);
    number
}
