//! Arrivals: an answer's message is taken into the store, or is in already.

use crate::message::{examine, read_elements, same_elements, Header};
use crate::plan::{plan, Job, Plan};

/// Takes an answer's message at a minute: its elements go to its host's block of the store. One that is
/// in already changes nothing. The hosts heard then.
pub fn arrive(
    job: &Job,
    points: &[u32],
    heard: u64,
    store: &mut [u32],
    message: &[u8],
    minute: u32,
) -> Result<u64, u32> {
    let plan = plan(job, points)?;
    test_heard(job, heard)?;
    let size = plan.rows * plan.columns;
    if store.len() != job.hosts as usize * size {
        return Err(13);
    }
    let (header, payload) = examine(message)?;
    if foreign(job, &plan, &header) {
        return Err(22);
    }
    if header.host > job.hosts {
        return Err(12);
    }
    if !(job.opening..job.closing).contains(&minute) {
        return Err(30);
    }
    let place = header.host as usize - 1;
    let block = &mut store[place * size..][..size];
    if heard >> place & 1 == 0 {
        read_elements(payload, block);
        return Ok(heard | 1 << place);
    }
    if !same_elements(payload, block) {
        return Err(23);
    }
    Ok(heard)
}

/// The test 21: no host above N is heard.
pub fn test_heard(job: &Job, heard: u64) -> Result<(), u32> {
    if job.hosts < 64 && heard >> job.hosts != 0 {
        return Err(21);
    }
    Ok(())
}

/// Whether a message is not an answer of this job.
fn foreign(job: &Job, plan: &Plan, header: &Header) -> bool {
    header.kind != 3
        || header.number != job.number
        || header.modulus != job.modulus
        || header.rows as usize != plan.rows
        || header.columns as usize != plan.columns
}
