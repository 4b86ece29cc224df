//! The kinship page: a table as lines of text, in panels of up to six columns (02, U6).
//!
//!   Paging     a call that writes a page
//!   page       the bytes of the page, or the first refusal number that fits
//!   length     how many bytes the page of a table has, by the formula alone
//!   formatted  the page of a table

use std::fmt::Display;

use super::plan::{all_within, prime};

/// The most columns of a panel.
const ACROSS: usize = 6;

/// A call that writes the page of a table of t rows and r columns; `room` is the length of the output, in
/// bytes.
#[derive(Clone)]
pub struct Paging {
    pub modulus: u32,
    pub t: u32,
    pub r: u32,
    pub table: Vec<u32>,
    pub room: usize,
}

/// The bytes of the page, or the first refusal number that fits.
pub fn page(call: &Paging) -> Result<Vec<u8>, u32> {
    let q = prime(call.modulus).ok_or(1_u32)?;
    if !all_within(&[call.t, call.r], 1, 16384) {
        return Err(2);
    }
    let [t, r] = [call.t, call.r].map(|size| size as usize);
    if call.table.len() != t * r {
        return Err(13);
    }
    if call.room != length(t, r) {
        return Err(28);
    }
    if call.table.iter().any(|&element| element >= q) {
        return Err(14);
    }
    Ok(formatted(&call.table, r).into_bytes())
}

/// The length of a page with P panels: each panel has a heading and t rows, each of these 5 columns and a
/// line feed; all panels together have in the headings and in each row r numbers of 11 columns; and there
/// is a line feed between two panels.
pub fn length(t: usize, r: usize) -> usize {
    let p = r.div_ceil(6);
    (t + 1) * (6 * p + 11 * r) + p - 1
}

/// The page of a table of so many columns, as its elements are. It is made without the formula.
pub fn formatted(table: &[u32], columns: usize) -> String {
    let numbers: Vec<usize> = (1..=columns).collect();
    let rows: Vec<&[u32]> = table.chunks(columns).collect();
    let panels = numbers.chunks(ACROSS).map(|shown| panel(&rows, shown));
    panels.collect::<Vec<String>>().join("\n")
}

/// The lines of a panel that shows the columns of these numbers.
fn panel(rows: &[&[u32]], shown: &[usize]) -> String {
    let mut lines = line("", shown);
    for (number, row) in (1..).zip(rows) {
        let elements: Vec<u32> = shown.iter().map(|column| row[column - 1]).collect();
        lines += &line(number, &elements);
    }
    lines
}

/// A line with something in front and numbers after it.
fn line(front: impl Display, numbers: &[impl Display]) -> String {
    let cells: String = numbers.iter().map(|cell| format!("{cell:>11}")).collect();
    format!("{front:>5}{cells}\n")
}
