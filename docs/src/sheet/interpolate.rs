//! Interpolation over the prime field as a system of linear equations: for each point x the
//! powers 1, x, x^2, .. times the unknown coefficients are the answer at x. Gauss's elimination
//! solves it for all elements of the answers at once.
//!
//!   interpolated  the coefficients, lowest first

use super::share::{sum_of, times};

/// The coefficients, lowest first, of the polynomial with as many of them as there are points and
/// with this block as its value at each point; panics if the points are not distinct.
pub fn interpolated(points: &[u32], blocks: &[&[u32]], q: u32) -> Vec<Vec<u32>> {
    let pairs = || points.iter().zip(blocks);
    let mut rows: Vec<Vec<u32>> = pairs()
        .map(|(&point, block)| equation(point, points.len(), block, q))
        .collect();
    for column in 0..points.len() {
        eliminate(&mut rows, column, q);
    }
    let coefficients: Vec<Vec<u32>> = rows.iter().map(|row| row[points.len()..].into()).collect();
    assert!(pairs().all(|(&point, block)| value_at(&coefficients, point, q) == *block));
    coefficients
}

/// One equation: the first powers of a point, then the answer there.
fn equation(point: u32, count: usize, block: &[u32], q: u32) -> Vec<u32> {
    let powers = std::iter::successors(Some(1), |&power| Some(times(power, point, q)));
    powers.take(count).chain(block.iter().copied()).collect()
}

/// Brings 1 to a column in the row of the same number, and 0 to it in all other rows.
fn eliminate(rows: &mut [Vec<u32>], column: usize, q: u32) {
    let found = (column..rows.len()).find(|&row| rows[row][column] != 0);
    rows.swap(column, found.expect("distinct points"));
    let scale = inverse(rows[column][column], q);
    let own: Vec<u32> = rows[column].iter().map(|&x| times(x, scale, q)).collect();
    for row in rows.iter_mut() {
        let factor = q - row[column];
        for (element, &x) in row.iter_mut().zip(&own) {
            *element = sum_of(*element, times(x, factor, q), q);
        }
    }
    rows[column] = own;
}

/// The inverse of an element that is not 0: by Fermat its power q - 2, made by squaring.
fn inverse(element: u32, q: u32) -> u32 {
    let (mut square, mut exponent, mut power) = (element, q - 2, 1);
    while exponent > 0 {
        if exponent % 2 == 1 {
            power = times(power, square, q);
        }
        square = times(square, square, q);
        exponent /= 2;
    }
    assert_eq!(times(power, element, q), 1);
    power
}

/// The value at a point of a polynomial with blocks as coefficients, element by element.
fn value_at(coefficients: &[Vec<u32>], point: u32, q: u32) -> Vec<u32> {
    let mut value = vec![0; coefficients[0].len()];
    for block in coefficients.iter().rev() {
        for (sum, &element) in value.iter_mut().zip(block) {
            *sum = sum_of(times(*sum, point, q), element, q);
        }
    }
    value
}
