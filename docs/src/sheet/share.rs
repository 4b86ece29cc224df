//! The shares of A and of B (01, "Exponents" and "Share").
//!
//!   Side     which matrix is shared
//!   Sharing  a call that makes one host's share
//!   Shape    what a side takes from the job: sizes and exponents
//!   share    the share, or the first refusal number that fits
//!   times    a product in the field
//!   sum_of   a sum in the field

use super::plan::{self, choose, prime, Job};

/// Which matrix is shared.
#[derive(Clone, Copy, PartialEq, Eq)]
pub enum Side {
    A,
    B,
}

/// A call that makes one host's share of one side; `room` is the length of the output.
#[derive(Clone)]
pub struct Sharing {
    pub side: Side,
    pub job: Job,
    pub job_number: u32,
    pub host: u32,
    pub points: Vec<u32>,
    pub matrix: Vec<u32>,
    pub masks: Vec<u32>,
    pub room: usize,
}

/// What a side takes from the job: the sizes of its grid and of a block, and the exponents of its
/// blocks, row by row, and of its masks.
pub struct Shape {
    grid_rows: usize,
    grid_columns: usize,
    block_rows: usize,
    block_columns: usize,
    block_exponents: Vec<u32>,
    mask_exponents: Vec<u32>,
}

impl Shape {
    /// The shape of a side of a job that the plan accepts: A is cut into m by p blocks of t/m by
    /// s/p elements, B into p by n blocks of s/p by r/n.
    pub fn of(side: Side, job: &Job) -> Shape {
        let layout = choose(job);
        let [m, p, n] = [job.m, job.p, job.n].map(|count| count as usize);
        let [t, s, r] = [job.t, job.s, job.r].map(|size| size as usize);
        match side {
            Side::A => Shape {
                grid_rows: m,
                grid_columns: p,
                block_rows: t / m,
                block_columns: s / p,
                block_exponents: layout.a_blocks,
                mask_exponents: layout.a_masks,
            },
            Side::B => Shape {
                grid_rows: p,
                grid_columns: n,
                block_rows: s / p,
                block_columns: r / n,
                block_exponents: layout.b_blocks,
                mask_exponents: layout.b_masks,
            },
        }
    }

    /// How many elements a block holds, and so a mask and the share.
    pub fn block_length(&self) -> usize {
        self.block_rows * self.block_columns
    }

    /// How many elements the matrix holds.
    pub fn matrix_length(&self) -> usize {
        self.grid_rows * self.grid_columns * self.block_length()
    }

    /// How many elements all masks hold.
    pub fn masks_length(&self) -> usize {
        self.mask_exponents.len() * self.block_length()
    }

    /// The elements of the block in a row and a column of the grid, from 0, row by row.
    fn block(&self, matrix: &[u32], row: usize, column: usize) -> Vec<u32> {
        let width = self.grid_columns * self.block_columns;
        let left = column * self.block_columns;
        let rows = matrix.chunks(width).skip(row * self.block_rows);
        rows.take(self.block_rows)
            .flat_map(|cells| &cells[left..left + self.block_columns])
            .copied()
            .collect()
    }

    /// All blocks, row by row.
    fn blocks(&self, matrix: &[u32]) -> Vec<Vec<u32>> {
        (0..self.grid_rows * self.grid_columns)
            .map(|i| self.block(matrix, i / self.grid_columns, i % self.grid_columns))
            .collect()
    }
}

/// The share, row by row, or the first refusal number that fits.
pub fn share(call: &Sharing) -> Result<Vec<u32>, u32> {
    if let Some(number) = plan::refusal(&call.job, &call.points) {
        return Err(number);
    }
    let q = prime(call.job.modulus).ok_or(1_u32)?;
    let shape = Shape::of(call.side, &call.job);
    if call.host < 1 || call.host > call.job.hosts {
        return Err(12);
    }
    if call.matrix.len() != shape.matrix_length()
        || call.masks.len() != shape.masks_length()
        || call.room != shape.block_length()
    {
        return Err(13);
    }
    if call.matrix.iter().any(|&element| element >= q) {
        return Err(14);
    }
    if call.masks.iter().any(|&element| element >= q) {
        return Err(15);
    }
    let point = call.points[call.host as usize - 1];
    Ok(masked_sum(&shape, call, point, q))
}

/// The sum of blocks and masks, each times the point to its exponent, mod q.
fn masked_sum(shape: &Shape, call: &Sharing, point: u32, q: u32) -> Vec<u32> {
    let mut parts = shape.blocks(&call.matrix);
    parts.extend(call.masks.chunks(shape.block_length()).map(<[u32]>::to_vec));
    let exponents = shape.block_exponents.iter().chain(&shape.mask_exponents);
    let mut sums = vec![0; shape.block_length()];
    for (part, &exponent) in parts.iter().zip(exponents) {
        let weight = power(point, exponent, q);
        for (sum, &element) in sums.iter_mut().zip(part) {
            *sum = sum_of(*sum, times(element, weight, q), q);
        }
    }
    sums
}

/// A point to an exponent, mod q, by one multiplication after another.
fn power(point: u32, exponent: u32, q: u32) -> u32 {
    (0..exponent).fold(1, |value, _| times(value, point, q))
}

/// A product mod q; it is made in 64 bits, since (q - 1)^2 is below 2^62.
pub fn times(x: u32, y: u32, q: u32) -> u32 {
    (u64::from(x) * u64::from(y) % u64::from(q)) as u32
}

/// A sum mod q; it is made in 64 bits, too.
pub fn sum_of(x: u32, y: u32, q: u32) -> u32 {
    ((u64::from(x) + u64::from(y)) % u64::from(q)) as u32
}
