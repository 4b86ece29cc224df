//! The kinship page of a table, timed for both.
//!
//!   SIDES    how many rows and columns the tables have
//!   measure  times a page

use crate::calls::{Calls, Plain};
use crate::library::Library;
use crate::race::{race, Contestant, Times};
use crate::random::Random;
use crate::work::prime;
use plain::page::page_length;
use std::hint::black_box;

/// How many rows, and as many columns, the tables have.
pub const SIDES: [u32; 2] = [64, 512];

/// Writes a page once.
fn make(calls: &impl Calls, modulus: u32, side: u32, table: &[u32], page: &mut [u8]) {
    let outcome = calls.page(modulus, side, side, black_box(table), page);
    assert_eq!(outcome, Ok(()));
}

/// Times a page for both, into the same bytes, after both had the same.
pub fn measure(modulus: u32, side: u32) -> Times {
    let count = side as usize;
    let table = Random::new(u64::from(modulus)).elements(count * count, prime(modulus));
    let length = page_length(count, count);
    let (mut page, mut other) = (vec![0; length], vec![0; length]);
    make(&Library, modulus, side, &table, &mut page);
    make(&Plain, modulus, side, &table, &mut other);
    assert!(page == other, "two pages differ");
    race(&mut |contestant| match contestant {
        Contestant::Library => make(&Library, modulus, side, &table, &mut page),
        Contestant::Plain => make(&Plain, modulus, side, &table, &mut page),
    })
}
