//! Calls on a job that is under way: what an arrival and a decoding are given (01, "Arrivals"), and
//! the tests that both make first.
//!
//!   Act          which call it is
//!   JobCall      a call with everything that it is given
//!   first_tests  the plan's tests, 21, and 13 for the store; the prime if none of them fits

use std::ops::Range;

use super::plan::{self, prime, Job};

/// Which call it is.
#[derive(Clone, Copy, PartialEq, Eq)]
pub enum Act {
    Arrive,
    Decode,
    Tell,
}

/// A call: the job's numbers and points, the hosts heard and the store; then the message of an
/// arrival and its minute, or the length of a decoding's table. A decoding has no minute. A call that
/// tells the store has the store alone.
#[derive(Clone)]
pub struct JobCall {
    pub act: Act,
    pub job: Job,
    pub job_number: u32,
    pub points: Vec<u32>,
    pub heard: u64,
    pub store: Vec<u32>,
    pub message: Vec<u8>,
    pub minute: u32,
    pub room: usize,
}

impl JobCall {
    /// A call that tells what the store holds.
    pub fn telling(store: Vec<u32>) -> JobCall {
        JobCall {
            act: Act::Tell,
            job: Job::of(&[0; 10], [0, 0]),
            job_number: 0,
            points: Vec::new(),
            heard: 0,
            store,
            message: Vec::new(),
            minute: 0,
            room: 0,
        }
    }

    /// Whether a host's bit is set; hosts are counted from 1 to 64.
    pub fn is_heard(&self, host: u32) -> bool {
        self.heard >> (host - 1) & 1 == 1
    }

    /// The hosts heard, lowest first.
    pub fn heard_hosts(&self) -> Vec<u32> {
        (1..=64).filter(|&host| self.is_heard(host)).collect()
    }

    /// Where a host's block lies in the store.
    pub fn block(&self, host: u32) -> Range<usize> {
        let length = answer_length(&self.job);
        let start = (host as usize - 1) * length;
        start..start + length
    }
}

/// How many elements the answers of an accepted job hold, t/m by r/n.
pub fn answer_length(job: &Job) -> usize {
    (job.t / job.m * (job.r / job.n)) as usize
}

/// The plan's tests, 21 for a heard bit above N, and 13 for the store; the prime if none of them
/// fits.
pub fn first_tests(call: &JobCall) -> Result<u32, u32> {
    if let Some(number) = plan::refusal(&call.job, &call.points) {
        return Err(number);
    }
    if call.heard_hosts().iter().any(|&host| host > call.job.hosts) {
        return Err(21);
    }
    if call.store.len() != call.job.hosts as usize * answer_length(&call.job) {
        return Err(13);
    }
    prime(call.job.modulus).ok_or(1)
}
