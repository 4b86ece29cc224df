//! The check of a decoded table: a secret matrix V, and A(BV), which (table)V must equal.
//!
//!   Check    V and A(BV), with their columns
//!   columns  how many columns V has for a prime
//!   Matrix   a matrix with its columns
//!
//! A wrong table passes with odds of one in q to the number of columns, below 2^-40.

use crate::sys;

/// How rare it must be that a wrong table passes: one in so many.
const ODDS: u128 = 1 << 40;

/// The most rows and columns of a piece. A piece has at most 64 * 64 = 4096 elements, and so have
/// two products of at most 32 columns that are added.
const SIDE: usize = 64;

/// V, r by c, and A(BV), t by c.
pub struct Check {
    pub columns: usize,
    pub secret: Vec<u32>,
    pub product: Vec<u32>,
}

/// How many columns V has: the least number c with q to the c above 2^40.
pub fn columns(prime: u32) -> usize {
    let wide = u128::from(prime.max(2));
    let powers = std::iter::successors(Some(wide), |power| power.checked_mul(wide));
    powers.take_while(|&power| power <= ODDS).count() + 1
}

/// A matrix, row by row, with its columns.
#[derive(Clone, Copy)]
pub struct Matrix<'a> {
    pub columns: usize,
    pub elements: &'a [u32],
}

/// A product of two matrices, band by band of the first.
fn product(modulus: u32, left: Matrix, right: Matrix) -> Result<Vec<u32>, u32> {
    let mut out = Vec::new();
    for band in left.elements.chunks((SIDE * left.columns).max(1)) {
        let columns = left.columns;
        let elements = band;
        out.extend(band_product(modulus, Matrix { columns, elements }, right)?);
    }
    Ok(out)
}

/// A product of a band of few rows: the sum over its pieces of few columns.
fn band_product(modulus: u32, band: Matrix, right: Matrix) -> Result<Vec<u32>, u32> {
    let rows = band.elements.len() / band.columns.max(1);
    let mut sum = vec![0; rows * right.columns];
    let below = right.elements.chunks((SIDE * right.columns).max(1));
    for (before, piece) in below.enumerate() {
        let inner = piece.len() / right.columns.max(1);
        let left = columns_from(band, before * SIDE);
        let mut part = vec![0; sum.len()];
        multiply(
            modulus,
            [rows, inner, right.columns],
            (&left, piece),
            &mut part,
        )?;
        sum = added(modulus, &sum, &part)?;
    }
    Ok(sum)
}

/// The columns of a band from one on, as many as a piece has.
fn columns_from(band: Matrix, from: usize) -> Vec<u32> {
    let rows = band.elements.chunks(band.columns.max(1));
    rows.flat_map(|row| row.iter().skip(from).take(SIDE))
        .copied()
        .collect()
}

/// The sum of two lists: a row of two ones times the two as rows.
fn added(modulus: u32, one: &[u32], other: &[u32]) -> Result<Vec<u32>, u32> {
    let both = [one, other].concat();
    let mut out = vec![0; one.len()];
    multiply(modulus, [1, 2, one.len()], (&[1, 1], &both), &mut out)?;
    Ok(out)
}

/// The library's product. A size that no word holds is none that it takes.
fn multiply(
    modulus: u32,
    sizes: [usize; 3],
    (left, right): (&[u32], &[u32]),
    out: &mut [u32],
) -> Result<(), u32> {
    let sizes = sizes.map(|size| u32::try_from(size).unwrap_or(u32::MAX));
    sys::multiply(modulus, sizes, left, right, out)
}

impl Check {
    /// The check of a table A times B by a secret matrix V.
    pub fn of(
        modulus: u32,
        (a, b): (Matrix, Matrix),
        secret: Vec<u32>,
        columns: usize,
    ) -> Result<Check, u32> {
        let v = Matrix {
            columns,
            elements: &secret,
        };
        let bv = product(modulus, b, v)?;
        let bv = Matrix {
            columns,
            elements: &bv,
        };
        let product = product(modulus, a, bv)?;
        Ok(Check {
            columns,
            secret,
            product,
        })
    }

    /// A table passes: (table)V is A(BV).
    pub fn passes(&self, modulus: u32, table: Matrix) -> Result<bool, u32> {
        let v = Matrix {
            columns: self.columns,
            elements: &self.secret,
        };
        Ok(product(modulus, table, v)? == self.product)
    }
}
