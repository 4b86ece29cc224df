//! The primes of the sheet, as the library knows them.
//!
//!   primes      all primes, from the smallest on; the first has modulus number 1
//!   last        the modulus number of the largest prime
//!   modulus_of  the modulus number of a prime
//!   prime_of    the prime of a modulus number
//!   whole       the largest entry that comes back whole, as an element or by its signed reading
//!   listed      all primes in words

use crate::sys;

/// The prime of a modulus number: the element whose signed reading is -1, and one more.
pub fn prime_of(modulus: u32) -> Option<u32> {
    let largest = sys::element(modulus, -1).ok()?;
    largest.checked_add(1)
}

/// All primes; the first has modulus number 1.
pub fn primes() -> Vec<u32> {
    (1..).map_while(prime_of).collect()
}

/// The modulus number of the largest prime.
pub fn last() -> u32 {
    u32::try_from(primes().len()).unwrap_or(u32::MAX)
}

/// The modulus number of a prime.
pub fn modulus_of(prime: u32) -> Option<u32> {
    let at = primes().iter().position(|&known| known == prime)?;
    u32::try_from(at).ok()?.checked_add(1)
}

/// The largest entry that comes back whole; by signed reading the smallest is as far below 0.
pub fn whole(prime: u32, signed: bool) -> u32 {
    let largest = prime.saturating_sub(1);
    if signed {
        largest / 2
    } else {
        largest
    }
}

/// All primes in words: "13, 257, .."
pub fn listed() -> String {
    let names: Vec<String> = primes().iter().map(u32::to_string).collect();
    names.join(", ")
}
