//! The kinship page: a table as lines of text, panel after panel.

use crate::field::{all_below, prime, with_prime};
use crate::plan::outside;

/// The bytes of a row number, and of an element or a column number.
const LABEL: usize = 5;
const CELL: usize = 11;

/// The most elements of a line.
const ACROSS: usize = 6;

/// How many bytes a line of so many elements has, with its end.
fn line_length(count: usize) -> usize {
    LABEL + CELL * count + 1
}

/// How many bytes the page of a table has.
pub fn page_length(rows: usize, columns: usize) -> usize {
    let panels = columns.div_ceil(ACROSS);
    (rows + 1) * ((LABEL + 1) * panels + CELL * columns) + panels - 1
}

/// Writes a table of t rows and r columns as a page.
pub fn write_page(modulus: u32, t: u32, r: u32, table: &[u32], out: &mut [u8]) -> Result<(), u32> {
    let q = prime(modulus)?;
    if outside(16384, t) || outside(16384, r) {
        return Err(2);
    }
    let (rows, columns) = (t as usize, r as usize);
    if table.len() != rows * columns {
        return Err(13);
    }
    if out.len() != page_length(rows, columns) {
        return Err(28);
    }
    if !with_prime!(q, all_below(table)) {
        return Err(14);
    }
    write_panels(rows, columns, table, out);
    Ok(())
}

/// Writes the panels, a blank line after each but the last. All but the last are full.
fn write_panels(rows: usize, columns: usize, table: &[u32], out: &mut [u8]) {
    let full = (rows + 1) * line_length(ACROSS);
    for (p, bytes) in out.chunks_mut(full + 1).enumerate() {
        let left = p * ACROSS;
        let count = ACROSS.min(columns - left);
        let (panel, blank) = bytes.split_at_mut((rows + 1) * line_length(count));
        write_panel(columns, left, count, table, panel);
        blank.fill(b'\n');
    }
}

/// Writes a panel of so many columns of a table, from the column at its left on.
fn write_panel(columns: usize, left: usize, count: usize, table: &[u32], panel: &mut [u8]) {
    let (heading, lines) = panel.split_at_mut(line_length(count));
    let (label, cells) = heading.split_at_mut(LABEL);
    label.fill(b' ');
    write_numbers(left as u32 + 1.., cells);
    let lines = lines.chunks_exact_mut(line_length(count));
    for ((i, row), line) in table.chunks_exact(columns).enumerate().zip(lines) {
        let (label, cells) = line.split_at_mut(LABEL);
        write_number(i as u32 + 1, label);
        write_numbers(row[left..left + count].iter().copied(), cells);
    }
}

/// Writes numbers, as many as there are cells, and the end of their line.
fn write_numbers(numbers: impl Iterator<Item = u32>, line: &mut [u8]) {
    let mut cells = line.chunks_exact_mut(CELL);
    for (cell, number) in cells.by_ref().zip(numbers) {
        write_number(number, cell);
    }
    cells.into_remainder().fill(b'\n');
}

/// Writes a number, right-aligned in its cell: its digits, from the last on.
fn write_number(number: u32, cell: &mut [u8]) {
    cell.fill(b' ');
    let mut rest = number;
    for byte in cell.iter_mut().rev() {
        let tens = rest / 10;
        *byte = b'0' + (rest - 10 * tens) as u8;
        if rest < 10 {
            return;
        }
        rest = tens;
    }
}
