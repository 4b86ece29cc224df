//! A host's whole part: the messages of its A share and of its B share in, the message of its answer out
//! (01, "Exponents" and "Message, version 1"). That the two belong together the sheet does not ask: those
//! tests have numbers from 1001 on.
//!
//!   Answering  a call that answers
//!   answer     the message of the answer, or the first refusal number that fits

use super::message::{message, read, Fields, Reading, HEADER};
use super::product::{product, Multiplying};

/// A call that answers the messages `a` and `b`; `room` is the length of the output in bytes, which may
/// be longer than the answer.
#[derive(Clone)]
pub struct Answering {
    pub a: Vec<u8>,
    pub b: Vec<u8>,
    pub room: usize,
}

/// The message of the answer, or the first refusal number that fits: those of A's message, those of B's,
/// those of both together.
pub fn answer(call: &Answering) -> Result<Vec<u8>, u32> {
    let [(of_a, a), (of_b, b)] = [share_in(&call.a)?, share_in(&call.b)?];
    let fields = answer_fields(&of_a, &of_b)?;
    let room = (fields.rows * fields.columns) as usize;
    if room > 4096 {
        return Err(6);
    }
    if call.room < HEADER + 4 * room {
        return Err(13);
    }
    let multiplying = Multiplying {
        modulus: of_a.modulus,
        rows: of_a.rows,
        inner: of_a.columns,
        columns: of_b.columns,
        a,
        b,
        room,
    };
    let elements = product(&multiplying).expect("two shares that belong together have a product");
    Ok(message(&fields, &elements))
}

/// The fields and elements of a message, or the first refusal number that fits the message.
fn share_in(bytes: &[u8]) -> Result<(Fields, Vec<u32>), u32> {
    let message = bytes.to_vec();
    let room = 4096;
    read(&Reading { message, room })
}

/// The fields of the answer to messages with these fields, or the first number from 1001 on that fits:
/// they are not those of an A share and a B share, or differ in modulus, in host or in job number, or
/// A's columns are not B's rows.
fn answer_fields(a: &Fields, b: &Fields) -> Result<Fields, u32> {
    if [a.kind, b.kind] != [1, 2] {
        return Err(1001);
    }
    if a.modulus != b.modulus {
        return Err(1003);
    }
    if a.host != b.host {
        return Err(1004);
    }
    if a.job_number != b.job_number {
        return Err(1005);
    }
    if a.columns != b.rows {
        return Err(1006);
    }
    Ok(Fields {
        kind: 3,
        columns: b.columns,
        ..*a
    })
}
