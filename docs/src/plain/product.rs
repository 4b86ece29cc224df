//! A host's product of two shares: on elements, and on big-endian bytes. The same tests in the same
//! order for both.

use crate::field::{add_row, all_below, big_endian, prime, reduce, reduce_row, with_prime};
use crate::plan::outside;
use crate::MOST;

/// The product of rows by inner and inner by columns elements.
pub fn product(
    modulus: u32,
    sizes: [u32; 3],
    a: &[u32],
    b: &[u32],
    out: &mut [u32],
) -> Result<(), u32> {
    let q = prime(modulus)?;
    let counts = test_sizes(sizes)?;
    if [a.len(), b.len(), out.len()] != counts {
        return Err(13);
    }
    with_prime!(q, multiply_elements(sizes, a, b, out))
}

/// The same product of bytes.
pub fn product_of_bytes(
    modulus: u32,
    sizes: [u32; 3],
    a: &[u8],
    b: &[u8],
    out: &mut [u8],
) -> Result<(), u32> {
    let q = prime(modulus)?;
    let counts = test_sizes(sizes)?;
    if [a.len(), b.len(), out.len()] != counts.map(|count| 4 * count) {
        return Err(13);
    }
    with_prime!(q, multiply_bytes(sizes, a, b, out))
}

/// The tests 2 and 6; how many elements both shares and the product have.
fn test_sizes(sizes: [u32; 3]) -> Result<[usize; 3], u32> {
    if sizes.iter().any(|&size| outside(16384, size)) {
        return Err(2);
    }
    let [rows, inner, columns] = sizes.map(|size| size as usize);
    let counts = [rows * inner, inner * columns, rows * columns];
    if counts.iter().any(|&count| count > MOST) {
        return Err(6);
    }
    Ok(counts)
}

/// The product modulo Q.
fn multiply_elements<const Q: u32>(
    sizes: [u32; 3],
    a: &[u32],
    b: &[u32],
    out: &mut [u32],
) -> Result<(), u32> {
    if !all_below::<Q>(a) || !all_below::<Q>(b) {
        return Err(14);
    }
    let [_, inner, columns] = sizes.map(|size| size as usize);
    let mut sums = vec![0; columns];
    for (row, out) in a.chunks_exact(inner).zip(out.chunks_exact_mut(columns)) {
        add_products::<Q>(row, b, &mut sums);
        reduce_row::<Q>(&sums, out);
    }
    Ok(())
}

/// The product modulo Q, of bytes.
fn multiply_bytes<const Q: u32>(
    sizes: [u32; 3],
    a: &[u8],
    b: &[u8],
    out: &mut [u8],
) -> Result<(), u32> {
    let (left, right): (Vec<u32>, Vec<u32>) = (big_endian(a).collect(), big_endian(b).collect());
    if !all_below::<Q>(&left) || !all_below::<Q>(&right) {
        return Err(14);
    }
    write_product::<Q>(sizes, &left, &right, out);
    Ok(())
}

/// Writes the product modulo Q, of elements below Q, as bytes.
pub fn write_product<const Q: u32>(sizes: [u32; 3], a: &[u32], b: &[u32], out: &mut [u8]) {
    let [_, inner, columns] = sizes.map(|size| size as usize);
    let mut sums = vec![0; columns];
    for (row, out) in a.chunks_exact(inner).zip(out.chunks_exact_mut(4 * columns)) {
        add_products::<Q>(row, b, &mut sums);
        write::<Q>(&sums, out);
    }
}

/// The sums of one row of the product: to each, an element of the row times the rows of b is added.
fn add_products<const Q: u32>(row: &[u32], b: &[u32], sums: &mut [u64]) {
    sums.fill(0);
    for (&weight, b_row) in row.iter().zip(b.chunks_exact(sums.len())) {
        add_row::<Q>(sums, weight, b_row);
    }
}

/// Writes the sums modulo Q as big-endian elements.
fn write<const Q: u32>(sums: &[u64], bytes: &mut [u8]) {
    for (&sum, four) in sums.iter().zip(bytes.chunks_exact_mut(4)) {
        four.copy_from_slice(&reduce::<Q>(sum).to_be_bytes());
    }
}
