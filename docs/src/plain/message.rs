//! Messages, version 1: written, looked over, read and compared with a block.

use crate::field::{all_below, big_endian, prime, with_prime};
use crate::plan::outside;
use crate::MOST;

/// The bytes of a header.
pub const HEADER: usize = 16;

/// A message's fields.
#[derive(Clone, Copy, Debug, PartialEq)]
pub struct Header {
    pub kind: u32,
    pub modulus: u32,
    pub host: u32,
    pub rows: u32,
    pub columns: u32,
    pub number: u32,
}

impl Header {
    /// The tests 16, 1, 12, 2 and 6; the prime, and how many elements there are.
    fn test(&self) -> Result<(u32, usize), u32> {
        if outside(3, self.kind) {
            return Err(16);
        }
        let q = prime(self.modulus)?;
        if outside(64, self.host) {
            return Err(12);
        }
        if outside(16384, self.rows) || outside(16384, self.columns) {
            return Err(2);
        }
        let count = (self.rows * self.columns) as usize;
        if count > MOST {
            return Err(6);
        }
        Ok((q, count))
    }

    /// The 16 bytes of a header.
    pub fn bytes(&self) -> [u8; HEADER] {
        let mut bytes = *b"MDO\x00\x01...........";
        bytes[5] = self.kind as u8;
        bytes[6] = self.modulus as u8;
        bytes[7] = self.host as u8;
        bytes[8..10].copy_from_slice(&(self.rows as u16).to_be_bytes());
        bytes[10..12].copy_from_slice(&(self.columns as u16).to_be_bytes());
        bytes[12..].copy_from_slice(&self.number.to_be_bytes());
        bytes
    }

    /// The fields in the 16 bytes of a header.
    fn of_bytes(bytes: &[u8; HEADER]) -> Header {
        let pair = |at: usize| u32::from(u16::from_be_bytes([bytes[at], bytes[at + 1]]));
        Header {
            kind: u32::from(bytes[5]),
            modulus: u32::from(bytes[6]),
            host: u32::from(bytes[7]),
            rows: pair(8),
            columns: pair(10),
            number: u32::from_be_bytes([bytes[12], bytes[13], bytes[14], bytes[15]]),
        }
    }
}

/// Writes a message with these fields and elements.
pub fn write_message(header: &Header, elements: &[u32], out: &mut [u8]) -> Result<(), u32> {
    let (q, count) = header.test()?;
    if elements.len() != count || out.len() != HEADER + 4 * count {
        return Err(13);
    }
    if !with_prime!(q, all_below(elements)) {
        return Err(14);
    }
    let (head, payload) = out.split_at_mut(HEADER);
    head.copy_from_slice(&header.bytes());
    for (four, element) in payload.chunks_exact_mut(4).zip(elements) {
        four.copy_from_slice(&element.to_be_bytes());
    }
    Ok(())
}

/// Looks a message over: its fields and the bytes of its elements.
pub fn examine(message: &[u8]) -> Result<(Header, &[u8]), u32> {
    let Some((head, payload)) = message.split_first_chunk::<HEADER>() else {
        return Err(17);
    };
    if !head.starts_with(b"MDO") {
        return Err(18);
    }
    if head[3..5] != [0, 1] {
        return Err(19);
    }
    let header = Header::of_bytes(head);
    let (q, count) = header.test()?;
    if payload.len() != 4 * count {
        return Err(20);
    }
    if !with_prime!(q, bytes_below(payload)) {
        return Err(14);
    }
    Ok((header, payload))
}

/// Whether all big-endian elements are below Q.
fn bytes_below<const Q: u32>(bytes: &[u8]) -> bool {
    big_endian(bytes).fold(true, |below, element| below & (element < Q))
}

/// Reads the elements of a payload.
pub fn read_elements(payload: &[u8], out: &mut [u32]) {
    for (slot, element) in out.iter_mut().zip(big_endian(payload)) {
        *slot = element;
    }
}

/// Whether the elements of a payload are those of a block.
pub fn same_elements(payload: &[u8], block: &[u32]) -> bool {
    let pairs = big_endian(payload).zip(block);
    pairs.fold(true, |same, (sent, &stored)| same & (sent == stored))
}

/// Reads a message: its fields, and its elements into the output.
pub fn read_message(message: &[u8], out: &mut [u32]) -> Result<Header, u32> {
    if out.len() < MOST {
        return Err(13);
    }
    let (header, payload) = examine(message)?;
    read_elements(payload, out);
    Ok(header)
}
