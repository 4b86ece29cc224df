//! A host's whole part: the messages of its two shares in, the message of its answer out. The tests of
//! both messages together have numbers from 1001 on.

use crate::field::{big_endian, prime, with_prime};
use crate::message::{examine, Header, HEADER};
use crate::product::write_product;
use crate::MOST;

/// Answers the messages of an A share and of a B share: the answer's message is written to the front of
/// the output. How many bytes it has.
pub fn answer(a: &[u8], b: &[u8], out: &mut [u8]) -> Result<usize, u32> {
    let (left, left_payload) = examine(a)?;
    let (right, right_payload) = examine(b)?;
    let header = answer_header(&left, &right)?;
    let count = (header.rows * header.columns) as usize;
    if count > MOST {
        return Err(6);
    }
    let length = HEADER + 4 * count;
    let message = out.get_mut(..length).ok_or(13_u32)?;
    let (head, payload) = message.split_at_mut(HEADER);
    let sizes = [left.rows, left.columns, right.columns];
    let a: Vec<u32> = big_endian(left_payload).collect();
    let b: Vec<u32> = big_endian(right_payload).collect();
    head.copy_from_slice(&header.bytes());
    with_prime!(prime(left.modulus)?, write_product(sizes, &a, &b, payload));
    Ok(length)
}

/// The header of the answer to two shares, if they belong together: the tests 1001 and 1003 to 1006.
fn answer_header(left: &Header, right: &Header) -> Result<Header, u32> {
    if left.kind != 1 || right.kind != 2 {
        return Err(1001);
    }
    if left.modulus != right.modulus {
        return Err(1003);
    }
    if left.host != right.host {
        return Err(1004);
    }
    if left.number != right.number {
        return Err(1005);
    }
    if left.columns != right.rows {
        return Err(1006);
    }
    Ok(Header {
        kind: 3,
        columns: right.columns,
        ..*left
    })
}
