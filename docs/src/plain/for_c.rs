//! The product on bytes for a C program, with the parameters and numbers of `mukerihe_product`.

use crate::product::product_of_bytes;
use std::slice::{from_raw_parts, from_raw_parts_mut};

/// The product; 0, or the number of the first test that fits.
///
/// # Safety
/// No pointer is null, each is good for as many bytes as its length says, and `out` overlaps
/// nothing.
#[no_mangle]
pub unsafe extern "C" fn plain_product(
    modulus: u32,
    rows: u32,
    inner: u32,
    columns: u32,
    a: *const u8,
    a_length: usize,
    b: *const u8,
    b_length: usize,
    out: *mut u8,
    out_length: usize,
) -> u32 {
    let (a, b) = (from_raw_parts(a, a_length), from_raw_parts(b, b_length));
    let out = from_raw_parts_mut(out, out_length);
    match product_of_bytes(modulus, [rows, inner, columns], a, b, out) {
        Ok(()) => 0,
        Err(number) => number,
    }
}
