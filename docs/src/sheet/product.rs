//! A host's product of its two shares (01, "Exponents" and "Product").

use super::plan::{all_within, prime};

/// A call that multiplies the share `a`, rows by inner, with the share `b`, inner by columns;
/// `room` is the length of the output.
#[derive(Clone)]
pub struct Multiplying {
    pub modulus: u32,
    pub rows: u32,
    pub inner: u32,
    pub columns: u32,
    pub a: Vec<u32>,
    pub b: Vec<u32>,
    pub room: usize,
}

/// The product, row by row, or the first refusal number that fits.
pub fn product(call: &Multiplying) -> Result<Vec<u32>, u32> {
    let q = prime(call.modulus).ok_or(1_u32)?;
    let sizes = [call.rows, call.inner, call.columns];
    if !all_within(&sizes, 1, 16384) {
        return Err(2);
    }
    let [rows, inner, columns] = sizes.map(|size| size as usize);
    let lengths = [rows * inner, inner * columns, rows * columns];
    if lengths.iter().any(|&length| length > 4096) {
        return Err(6);
    }
    if [call.a.len(), call.b.len(), call.room] != lengths {
        return Err(13);
    }
    if call.a.iter().chain(&call.b).any(|&element| element >= q) {
        return Err(14);
    }
    let cells = (0..rows).flat_map(|i| (0..columns).map(move |j| (i, j)));
    Ok(cells.map(|(i, j)| entry(call, i, j, q)).collect())
}

/// The product's element in a row and a column, from 0. Five products of elements may pass 64 bits,
/// so the sum is made in 128: at most 4096 products, each below 2^62.
fn entry(call: &Multiplying, row: usize, column: usize, q: u32) -> u32 {
    let (inner, columns) = (call.inner as usize, call.columns as usize);
    let products = (0..inner)
        .map(|k| u128::from(call.a[row * inner + k]) * u128::from(call.b[k * columns + column]));
    (products.sum::<u128>() % u128::from(q)) as u32
}
