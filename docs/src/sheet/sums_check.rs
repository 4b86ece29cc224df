//! Sums checked where every element is q - 1. The square of q - 1 is 1 mod q, so that the sum of n
//! products is n mod q, however large the products are.
//!
//!   run  checks products, tables and shares

use super::plan::{choose, primes, Job};
use super::product::{product, Multiplying};
use super::share::{share, Shape, Side};
use super::whole_job::{plain, sharing, Contents};

/// Panics unless products, tables and shares agree with everything below.
pub fn run() {
    for (modulus, q) in primes() {
        for inner in (1..=10).chain([63, 64, 4095, 4096]) {
            products(modulus, inner, q);
        }
        for s in [1, 4, 5, 8192, 16383, 16384] {
            tables(modulus, s, q);
        }
        for masks in [1, 4, 5] {
            shares([modulus, 1, 1, 1, 1, 1, 1, masks, masks, 12], q);
        }
    }
    shares([4, 8, 6, 1, 8, 6, 1, 1, 1, 64], 2147483647);
    shares([4, 2, 2, 2, 2, 2, 2, 16, 16, 64], 2147483647);
}

/// A product of one row and one column with so many elements each.
fn products(modulus: u32, inner: u32, q: u32) {
    let largest = vec![q - 1; inner as usize];
    let call = Multiplying {
        modulus,
        rows: 1,
        inner,
        columns: 1,
        a: largest.clone(),
        b: largest,
        room: 1,
    };
    assert_eq!(product(&call), Ok(vec![inner % q]));
}

/// A table of one row and one column with so many elements each.
fn tables(modulus: u32, s: u32, q: u32) {
    let job = Job::of_line(&[modulus, 1, s, 1, 1, 8, 1, 1, 1, 12]);
    let side = Contents {
        matrix: vec![q - 1; s as usize],
        masks: Vec::new(),
    };
    assert_eq!(plain(&job, &[side.clone(), side], q), [s % q]);
}

/// The shares of hosts 1 and 2, whose points are 1 and q - 1. A block or mask gives q - 1 where its
/// weight is 1; at the point q - 1 the weight is 1 for even exponents, and q - 1 for odd ones.
fn shares(line: [u32; 10], q: u32) {
    let job = Job::of_line(&line);
    let layout = choose(&job);
    let mut points = vec![1, q - 1];
    points.extend(2..job.hosts);
    for (side, blocks, masks) in [
        (Side::A, &layout.a_blocks, &layout.a_masks),
        (Side::B, &layout.b_blocks, &layout.b_masks),
    ] {
        let shape = Shape::of(side, &job);
        let contents = Contents {
            matrix: vec![q - 1; shape.matrix_length()],
            masks: vec![q - 1; shape.masks_length()],
        };
        let made = [1, 2].map(|host| share(&sharing(&job, &points, side, &contents, host)));
        let exponents = [&blocks[..], masks].concat();
        let odd = exponents.iter().filter(|&exponent| exponent % 2 == 1);
        let [all, odd] = [exponents.len(), odd.count()].map(|count| count as i64);
        let due = [-all, 2 * odd - all].map(|sum| sum.rem_euclid(q.into()) as u32);
        assert_eq!(made, due.map(|sum| Ok(vec![sum; shape.block_length()])));
    }
}
