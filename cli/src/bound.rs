//! How large an entry of A times B may be, and whether it comes back whole.
//!
//!   bound          the largest that an entry can be, by the size of the numbers
//!   must_be_whole  refuses where an entry might not come back whole

use crate::fault::{refused, Done};
use crate::primes;
use crate::sys;
use crate::table::Table;
use crate::words::by;

/// The size of an element: as it is, or that of its signed reading.
fn size(modulus: u32, signed: bool, element: u32) -> Result<u128, u32> {
    match signed {
        true => Ok(u128::from(sys::signed(modulus, element)?.unsigned_abs())),
        false => Ok(u128::from(element)),
    }
}

/// The sizes of all elements.
fn sizes(modulus: u32, signed: bool, elements: &[u32]) -> Done<Vec<u128>> {
    let sized = |&element: &u32| size(modulus, signed, element);
    let all: Result<Vec<u128>, u32> = elements.iter().map(sized).collect();
    all.map_err(|number| refused(by(number)))
}

/// The largest over A's rows of the sum, over its columns, of each size in the row times the
/// largest size in B's row of that number. No entry of A times B is larger. All is below 2^76.
pub fn bound(modulus: u32, signed: bool, a: &Table, b: &Table) -> Done<u128> {
    let b_sizes = sizes(modulus, signed, &b.elements)?;
    let a_sizes = sizes(modulus, signed, &a.elements)?;
    let largest: Vec<u128> = b_sizes
        .chunks(b.columns.max(1))
        .map(|row| row.iter().copied().max().unwrap_or_default())
        .collect();
    let sum = |row: &[u128]| row.iter().zip(&largest).map(|(x, y)| x * y).sum::<u128>();
    let sums = a_sizes.chunks(a.columns.max(1)).map(sum);
    Ok(sums.max().unwrap_or_default())
}

/// Refuses a bound at which an entry might not come back whole; it says which prime would do.
pub fn must_be_whole(modulus: u32, signed: bool, bound: u128) -> Done<()> {
    let prime = primes::prime_of(modulus).unwrap_or_default();
    let fits = |prime: u32| bound <= u128::from(primes::whole(prime, signed));
    if fits(prime) {
        return Ok(());
    }
    let most = primes::whole(prime, signed);
    let what = if signed { "size" } else { "entry" };
    let other = match primes::primes().into_iter().find(|&prime| fits(prime)) {
        Some(prime) => format!("prime = {prime} would do"),
        None => "no prime would do".to_string(),
    };
    Err(refused(format!(
        "an entry might be as large as {bound}, and prime {prime} brings back no {what} above \
         {most}; {other}, or insist with --wrap"
    )))
}
