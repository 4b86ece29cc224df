//! Signed reading and its way back (01, "Signed reading" and "What is turned down").
//!
//!   half            (q - 1) / 2
//!   signed_reading  an element as a signed value
//!   way_back        a signed value as an element

use super::plan::prime;

/// A call that reads an element as a signed value.
#[derive(Clone)]
pub struct SignedReading {
    pub modulus: u32,
    pub element: u32,
}

/// A call that takes a signed value back to its element.
#[derive(Clone)]
pub struct WayBack {
    pub modulus: u32,
    pub value: i64,
}

/// The end of the range of signed values.
pub fn half(q: u32) -> u32 {
    (q - 1) / 2
}

/// The element's signed value, or the first refusal number that fits.
pub fn signed_reading(call: &SignedReading) -> Result<i64, u32> {
    let q = prime(call.modulus).ok_or(1_u32)?;
    if call.element >= q {
        return Err(14);
    }
    let v = i64::from(call.element);
    Ok(if call.element <= half(q) {
        v
    } else {
        v - i64::from(q)
    })
}

/// The element that is the signed value mod q, or the first refusal number that fits.
pub fn way_back(call: &WayBack) -> Result<u32, u32> {
    let q = prime(call.modulus).ok_or(1_u32)?;
    let end = i64::from(half(q));
    if !(-end..=end).contains(&call.value) {
        return Err(25);
    }
    Ok(call.value.rem_euclid(i64::from(q)) as u32)
}
