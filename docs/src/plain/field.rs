//! Elements modulo a prime Q that is known when the code is compiled, so that no remainder is by a
//! variable.

/// The prime of a modulus number.
pub fn prime(number: u32) -> Result<u32, u32> {
    match number {
        1 => Ok(13),
        2 => Ok(257),
        3 => Ok(65537),
        4 => Ok(2147483647),
        _ => Err(1),
    }
}

/// Calls a function of a constant prime for a prime that is a value.
macro_rules! with_prime {
    ($q:expr, $function:ident($($argument:expr),*)) => {
        match $q {
            13 => $function::<13>($($argument),*),
            257 => $function::<257>($($argument),*),
            65537 => $function::<65537>($($argument),*),
            _ => $function::<2147483647>($($argument),*),
        }
    };
}
pub(crate) use with_prime;

/// A sum modulo Q.
pub fn reduce<const Q: u32>(sum: u64) -> u32 {
    (sum % u64::from(Q)) as u32
}

/// The product of two elements.
pub fn multiply<const Q: u32>(a: u32, b: u32) -> u32 {
    reduce::<Q>(u64::from(a) * u64::from(b))
}

/// x to an exponent, by squares.
pub fn power<const Q: u32>(x: u32, mut exponent: u32) -> u32 {
    let (mut result, mut square) = (1, x);
    while exponent > 0 {
        if exponent % 2 == 1 {
            result = multiply::<Q>(result, square);
        }
        square = multiply::<Q>(square, square);
        exponent /= 2;
    }
    result
}

/// The inverse of an element that is not 0, by Euclid's remainders. No factor is farther from 0 than Q,
/// so that i32 holds them all.
pub fn inverse<const Q: u32>(a: u32) -> u32 {
    let (mut last, mut next) = (Q as i32, a as i32);
    let (mut last_factor, mut next_factor) = (0, 1);
    while next != 0 {
        let quotient = last / next;
        (last, next) = (next, last - quotient * next);
        (last_factor, next_factor) = (next_factor, last_factor - quotient * next_factor);
    }
    last_factor.rem_euclid(Q as i32) as u32
}

/// Whether all elements are below Q.
pub fn all_below<const Q: u32>(elements: &[u32]) -> bool {
    elements
        .iter()
        .fold(true, |below, &element| below & (element < Q))
}

/// Big-endian elements, one after another.
pub fn big_endian(bytes: &[u8]) -> impl Iterator<Item = u32> + '_ {
    bytes
        .chunks_exact(4)
        .map(|four| u32::from_be_bytes([four[0], four[1], four[2], four[3]]))
}

/// A product of two elements as a term of a sum. A u64 holds only four products modulo 2^31 − 1: there the
/// digits in the base 2^31 are added, which is the same modulo Q and below 2^32.
fn term<const Q: u32>(product: u64) -> u64 {
    match Q {
        2147483647 => (product & 0x7FFF_FFFF) + (product >> 31),
        _ => product,
    }
}

/// Adds a weight times a row to a row of sums.
pub fn add_row<const Q: u32>(sums: &mut [u64], weight: u32, row: &[u32]) {
    for (sum, &element) in sums.iter_mut().zip(row) {
        *sum += term::<Q>(u64::from(weight) * u64::from(element));
    }
}

/// The sums modulo Q.
pub fn reduce_row<const Q: u32>(sums: &[u64], row: &mut [u32]) {
    for (element, &sum) in row.iter_mut().zip(sums) {
        *element = reduce::<Q>(sum);
    }
}
