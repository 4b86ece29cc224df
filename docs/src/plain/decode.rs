//! Decoding: the table from the answers of the K lowest-numbered hosts heard.

use crate::arrival::test_heard;
use crate::field::{add_row, all_below, inverse, multiply, reduce, reduce_row, with_prime};
use crate::plan::{plan, Job, Plan};

/// Decodes the table.
pub fn decode(
    job: &Job,
    points: &[u32],
    heard: u64,
    store: &[u32],
    table: &mut [u32],
) -> Result<(), u32> {
    let plan = plan(job, points)?;
    test_heard(job, heard)?;
    let size = plan.rows * plan.columns;
    if store.len() != job.hosts as usize * size || table.len() != (job.t * job.r) as usize {
        return Err(13);
    }
    if heard.count_ones() < plan.layout.needed {
        return Err(24);
    }
    with_prime!(
        plan.q,
        decode_table(job, &plan, points, heard, store, table)
    )
}

/// The table modulo Q, after the test of the elements.
fn decode_table<const Q: u32>(
    job: &Job,
    plan: &Plan,
    points: &[u32],
    heard: u64,
    store: &[u32],
    table: &mut [u32],
) -> Result<(), u32> {
    let answers: Vec<(u32, &[u32])> = points
        .iter()
        .copied()
        .zip(store.chunks_exact(plan.rows * plan.columns))
        .enumerate()
        .filter(|(place, _)| heard >> place & 1 == 1)
        .map(|(_, answer)| answer)
        .collect();
    if !answers.iter().all(|(_, answer)| all_below::<Q>(answer)) {
        return Err(14);
    }
    let answers = &answers[..plan.layout.needed as usize];
    let weights = weights::<Q>(job, plan, answers);
    write_table::<Q>(job, plan, answers, &weights, table);
    Ok(())
}

/// Writes the table: in each of its blocks, the sum of the answers, each times its weight there.
fn write_table<const Q: u32>(
    job: &Job,
    plan: &Plan,
    answers: &[(u32, &[u32])],
    weights: &[u32],
    table: &mut [u32],
) {
    let (down, across) = (job.m as usize, job.n as usize);
    let columns = plan.columns;
    let mut sums = vec![0; columns];
    for (row, out) in table.chunks_exact_mut(across * columns).enumerate() {
        let (k, i) = (row / plan.rows, row % plan.rows);
        for (j, out) in out.chunks_exact_mut(columns).enumerate() {
            let weights = weights.chunks_exact(down * across);
            sums.fill(0);
            for (weights, (_, answer)) in weights.zip(answers) {
                let part = &answer[i * columns..][..columns];
                add_row::<Q>(&mut sums, weights[k * across + j], part);
            }
            reduce_row::<Q>(&sums, out);
        }
    }
}

/// The weights of each answer in the blocks of the table, answer by answer: the coefficients of the
/// Lagrange polynomial of its point at the places of the blocks.
fn weights<const Q: u32>(job: &Job, plan: &Plan, answers: &[(u32, &[u32])]) -> Vec<u32> {
    let layout = &plan.layout;
    let places: Vec<usize> = (0..job.m)
        .flat_map(|k| (0..job.n).map(move |j| (k, j)))
        .map(|(k, j)| (k * layout.stride_a + j * layout.stride_b + job.p - 1) as usize)
        .collect();
    let points: Vec<u32> = answers.iter().map(|&(x, _)| x).collect();
    let product = product_of_roots::<Q>(&points);
    let mut quotient = vec![0; points.len()];
    let mut weights = Vec::with_capacity(points.len() * places.len());
    for &x in &points {
        divide_by_root::<Q>(&product, x, &mut quotient);
        let scale = scale_of::<Q>(x, &points);
        weights.extend(places.iter().map(|&e| multiply::<Q>(scale, quotient[e])));
    }
    weights
}

/// The coefficients of the product of (X − x) over the points.
fn product_of_roots<const Q: u32>(points: &[u32]) -> Vec<u32> {
    let mut product = vec![0; points.len() + 1];
    product[0] = 1;
    for (degree, &x) in points.iter().enumerate() {
        let minus = u64::from(Q - x);
        for e in (1..=degree + 1).rev() {
            product[e] = reduce::<Q>(u64::from(product[e - 1]) + minus * u64::from(product[e]));
        }
        product[0] = reduce::<Q>(minus * u64::from(product[0]));
    }
    product
}

/// The quotient of a polynomial by (X − x), by synthetic division.
fn divide_by_root<const Q: u32>(polynomial: &[u32], x: u32, quotient: &mut [u32]) {
    let mut value = 0;
    for (place, &coefficient) in quotient.iter_mut().zip(&polynomial[1..]).rev() {
        value = reduce::<Q>(u64::from(coefficient) + u64::from(x) * u64::from(value));
        *place = value;
    }
}

/// The product of the inverses of x less each other point.
fn scale_of<const Q: u32>(x: u32, points: &[u32]) -> u32 {
    points
        .iter()
        .filter(|&&other| other != x)
        .map(|&other| inverse::<Q>((x + Q - other) % Q))
        .fold(1, multiply::<Q>)
}
