//! Arrivals of answers (01, "Arrivals" and "Arrival" among what is turned down; 02, U1 and U7).
//!
//!   Arrived  what becomes of an arrival that no refusal number fits
//!   arrive   what becomes of an arrival, or the first refusal number that fits
//!   after    the hosts heard and the store after any call

use super::job_call::{first_tests, Act, JobCall};
use super::message::{read, write, Fields, Reading, Writing, HEADER};

/// What becomes of an arrival that no refusal number fits: it is taken, and these are the hosts
/// heard and the store after it; or it is in already, and changes nothing.
#[derive(Debug, PartialEq, Eq)]
pub enum Arrived {
    Taken { heard: u64, store: Vec<u32> },
    AlreadyIn,
}

/// What becomes of an arrival, or the first refusal number that fits. Reading's own 13 is no test
/// of an arrival, so the message is read into an output that is long enough.
pub fn arrive(call: &JobCall) -> Result<Arrived, u32> {
    first_tests(call)?;
    let (fields, elements) = read(&Reading {
        message: call.message.clone(),
        room: 4096,
    })?;
    if fields != due_fields(call, fields.host) {
        return Err(22);
    }
    if fields.host > call.job.hosts {
        return Err(12);
    }
    if call.minute < call.job.opening || call.minute >= call.job.closing {
        return Err(30);
    }
    if call.is_heard(fields.host) {
        return match stored(call, fields.host) {
            Ok(first) if first == call.message => Ok(Arrived::AlreadyIn),
            _ => Err(23),
        };
    }
    let mut store = call.store.clone();
    store[call.block(fields.host)].copy_from_slice(&elements);
    let heard = call.heard | 1 << (fields.host - 1);
    Ok(Arrived::Taken { heard, store })
}

/// The hosts heard and the store after any call: an arrival that is taken changes them.
pub fn after(call: &JobCall) -> (u64, Vec<u32>) {
    match (call.act, arrive(call)) {
        (Act::Arrive, Ok(Arrived::Taken { heard, store })) => (heard, store),
        _ => (call.heard, call.store.clone()),
    }
}

/// The fields that a host's answer to this job must have.
fn due_fields(call: &JobCall, host: u32) -> Fields {
    Fields {
        kind: 3,
        modulus: call.job.modulus,
        host,
        rows: call.job.t / call.job.m,
        columns: call.job.r / call.job.n,
        job_number: call.job_number,
    }
}

/// What is stored for a host: the message that writing its block gives. A block with an element not
/// below q gives none.
fn stored(call: &JobCall, host: u32) -> Result<Vec<u8>, u32> {
    let elements = call.store[call.block(host)].to_vec();
    write(&Writing {
        fields: due_fields(call, host),
        room: HEADER + 4 * elements.len(),
        elements,
    })
}
