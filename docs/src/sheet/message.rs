//! Messages, version 1 (01, "Message, version 1", "Write a message" and "Read a message").
//!
//!   Fields   what a message says in bytes 5 to 15
//!   Writing  a call that writes a message
//!   Reading  a call that reads a message
//!   write    the message, or the first refusal number that fits
//!   read     fields and elements, or the first refusal number that fits

use super::plan::{all_within, prime};

/// The first three bytes of a message, "MDO".
const MARK: [u8; 3] = [0x4D, 0x44, 0x4F];

/// How many bytes come before the elements.
pub const HEADER: usize = 16;

/// What a message says about its elements.
#[derive(Clone, Copy, PartialEq, Eq, Debug)]
pub struct Fields {
    pub kind: u32,
    pub modulus: u32,
    pub host: u32,
    pub rows: u32,
    pub columns: u32,
    pub job_number: u32,
}

/// A call that writes a message; `room` is the length of the output in bytes.
#[derive(Clone)]
pub struct Writing {
    pub fields: Fields,
    pub elements: Vec<u32>,
    pub room: usize,
}

/// A call that reads a message; `room` is the length of the output in elements.
#[derive(Clone)]
pub struct Reading {
    pub message: Vec<u8>,
    pub room: usize,
}

/// The message, or the first refusal number that fits.
pub fn write(call: &Writing) -> Result<Vec<u8>, u32> {
    let q = fields_prime(&call.fields)?;
    let count = (call.fields.rows * call.fields.columns) as usize;
    if call.elements.len() != count || call.room != HEADER + 4 * count {
        return Err(13);
    }
    if call.elements.iter().any(|&element| element >= q) {
        return Err(14);
    }
    Ok(message(&call.fields, &call.elements))
}

/// The tests 16, 1, 12, 2 and 6 on the fields, in this order; the prime if none of them fits.
fn fields_prime(fields: &Fields) -> Result<u32, u32> {
    if !all_within(&[fields.kind], 1, 3) {
        return Err(16);
    }
    let q = prime(fields.modulus).ok_or(1_u32)?;
    if !all_within(&[fields.host], 1, 64) {
        return Err(12);
    }
    if !all_within(&[fields.rows, fields.columns], 1, 16384) {
        return Err(2);
    }
    if fields.rows * fields.columns > 4096 {
        return Err(6);
    }
    Ok(q)
}

/// The bytes of a message with these fields, each cut to the bytes that it has there, and these
/// elements.
pub fn message(fields: &Fields, elements: &[u32]) -> Vec<u8> {
    let mut bytes = MARK.to_vec();
    bytes.extend([0, 1]);
    bytes.extend([fields.kind, fields.modulus, fields.host].map(|field| field as u8));
    bytes.extend((fields.rows as u16).to_be_bytes());
    bytes.extend((fields.columns as u16).to_be_bytes());
    bytes.extend(fields.job_number.to_be_bytes());
    bytes.extend(elements.iter().flat_map(|element| element.to_be_bytes()));
    bytes
}

/// The fields and elements of a message, or the first refusal number that fits.
pub fn read(call: &Reading) -> Result<(Fields, Vec<u32>), u32> {
    let message = &call.message;
    if call.room < 4096 {
        return Err(13);
    }
    if message.len() < HEADER {
        return Err(17);
    }
    if message[0..3] != MARK {
        return Err(18);
    }
    if message[3..5] != [0, 1] {
        return Err(19);
    }
    let fields = fields_of(message);
    let q = fields_prime(&fields)?;
    if message.len() != HEADER + 4 * (fields.rows * fields.columns) as usize {
        return Err(20);
    }
    let elements: Vec<u32> = message[HEADER..].chunks(4).map(number).collect();
    if elements.iter().any(|&element| element >= q) {
        return Err(14);
    }
    Ok((fields, elements))
}

/// The fields in a header, whatever they hold.
fn fields_of(header: &[u8]) -> Fields {
    Fields {
        kind: number(&header[5..6]),
        modulus: number(&header[6..7]),
        host: number(&header[7..8]),
        rows: number(&header[8..10]),
        columns: number(&header[10..12]),
        job_number: number(&header[12..16]),
    }
}

/// The number that one to four big-endian bytes hold.
fn number(bytes: &[u8]) -> u32 {
    bytes
        .iter()
        .fold(0, |value, &byte| value * 256 + u32::from(byte))
}
