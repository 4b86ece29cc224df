//! Sharing: the masked block of a matrix that a host gets.

use crate::field::{add_row, all_below, power, reduce_row, with_prime};
use crate::plan::{outside, plan, Job, Plan};

/// Which matrix is shared.
#[derive(Clone, Copy)]
pub enum Matrix {
    A,
    B,
}

/// A matrix of a job: its grid of blocks, down by across, a block's rows and columns, and the number of
/// its masks.
struct Side {
    down: usize,
    across: usize,
    rows: usize,
    columns: usize,
    masks: usize,
}

impl Side {
    /// The side of a matrix.
    fn new(matrix: Matrix, job: &Job, plan: &Plan) -> Side {
        let (m, p, n) = (job.m as usize, job.p as usize, job.n as usize);
        match matrix {
            Matrix::A => Side {
                down: m,
                across: p,
                rows: plan.rows,
                columns: plan.inner,
                masks: job.xa as usize,
            },
            Matrix::B => Side {
                down: p,
                across: n,
                rows: plan.inner,
                columns: plan.columns,
                masks: job.xb as usize,
            },
        }
    }
}

/// The exponents of a matrix: of its blocks, row by row, and then of its masks.
fn exponents(matrix: Matrix, job: &Job, plan: &Plan) -> Vec<u32> {
    let layout = &plan.layout;
    let mut exponents = Vec::with_capacity(80);
    match matrix {
        Matrix::A => {
            for k in 0..job.m {
                exponents.extend((0..job.p).map(|l| k * layout.stride_a + l));
            }
            exponents.extend(layout.mask_a..layout.mask_a + job.xa);
        }
        Matrix::B => {
            for l in 0..job.p {
                exponents.extend((0..job.n).map(|j| j * layout.stride_b + job.p - 1 - l));
            }
            exponents.extend(layout.mask_b..layout.mask_b + job.xb);
        }
    }
    exponents
}

/// The share of a host, numbered from 1, into the output.
pub fn share(
    matrix: Matrix,
    job: &Job,
    points: &[u32],
    host: u32,
    elements: &[u32],
    masks: &[u32],
    out: &mut [u32],
) -> Result<(), u32> {
    let plan = plan(job, points)?;
    if outside(job.hosts, host) {
        return Err(12);
    }
    let side = Side::new(matrix, job, &plan);
    let block = side.rows * side.columns;
    if elements.len() != side.down * side.across * block
        || masks.len() != side.masks * block
        || out.len() != block
    {
        return Err(13);
    }
    let (x, exponents) = (points[host as usize - 1], exponents(matrix, job, &plan));
    with_prime!(
        plan.q,
        share_rows(&side, x, &exponents, elements, masks, out)
    )
}

/// The share modulo Q, after the tests of the elements.
fn share_rows<const Q: u32>(
    side: &Side,
    x: u32,
    exponents: &[u32],
    elements: &[u32],
    masks: &[u32],
    out: &mut [u32],
) -> Result<(), u32> {
    if !all_below::<Q>(elements) {
        return Err(14);
    }
    if !all_below::<Q>(masks) {
        return Err(15);
    }
    let weights: Vec<u32> = exponents.iter().map(|&e| power::<Q>(x, e)).collect();
    let (block_weights, mask_weights) = weights.split_at(side.down * side.across);
    let (rows, columns) = (side.rows, side.columns);
    let width = side.across * columns;
    let mut sums = vec![0; columns];
    for (i, out) in out.chunks_exact_mut(columns).enumerate() {
        sums.fill(0);
        for (k, weights) in block_weights.chunks_exact(side.across).enumerate() {
            let row = &elements[(k * rows + i) * width..][..width];
            for (&weight, part) in weights.iter().zip(row.chunks_exact(columns)) {
                add_row::<Q>(&mut sums, weight, part);
            }
        }
        for (&weight, mask) in mask_weights.iter().zip(masks.chunks_exact(rows * columns)) {
            add_row::<Q>(&mut sums, weight, &mask[i * columns..][..columns]);
        }
        reduce_row::<Q>(&sums, out);
    }
    Ok(())
}
