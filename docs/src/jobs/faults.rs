//! What cases of arrivals and of decodings have in common: a job to start from, its plan's faults,
//! jobs at the limits, numbers of hosts heard, and hosts heard with a message before.
//!
//!   SMALL         the job from which cases with faults start
//!   LARGE         the same job over the largest prime
//!   spoilt        calls on SMALL with faults put in, alone and in pairs
//!   spoilt_once   calls on LARGE with faults put in, each alone
//!   limits        calls on jobs at the limits of a plan
//!   HEARD         numbers of hosts heard
//!   heard_before  an arrival's host is heard, and its message is in the store
//!   last_of       the last element of a list

use super::format::BUFFER;
use crate::calls::messages::{sized, FIELDS};
use crate::cases::faults::{alone, alone_and_in_pairs, Expected, Fault};
use crate::cases::windows::WINDOWS;
use crate::sheet::job_call::{Act, JobCall};
use crate::sheet::message::{message, Fields, HEADER};
use crate::sheet::plan::{known_prime, Job, Line};

/// A job over q = 257: layout 1, K = 9 of 10 hosts, answers of 2 by 4 elements.
pub const SMALL: Line = [2, 4, 3, 8, 2, 1, 2, 2, 1, 10];

/// The same job over q = 2147483647.
pub const LARGE: Line = [4, 4, 3, 8, 2, 1, 2, 2, 1, 10];

/// The faults of the plan of `SMALL`, and of `LARGE`, in the order of the tests; those of number 1 and
/// the first of each other number are tried together with others.
const PLAN_FAULTS: [Fault<JobCall>; 34] = [
    (1, |call| call.job.modulus = 5),
    (1, |call| call.job.modulus = 0),
    (1, |call| call.job.modulus = 255),
    (1, |call| call.job.modulus = 256),
    (1, |call| call.job.modulus = u32::MAX),
    (2, |call| call.job.s = 16385),
    (2, |call| call.job.t = 0),
    (2, |call| call.job.r = u32::MAX),
    (3, |call| call.job.p = 9),
    (3, |call| call.job.m = 0),
    (3, |call| call.job.n = u32::MAX),
    (4, |call| call.job.x_a = 0),
    (4, |call| call.job.x_b = 17),
    (5, |call| call.job.r = 9),
    (5, |call| call.job.t = 5),
    (5, |call| call.job.p = 2),
    (6, |call| (call.job.t, call.job.r) = (130, 130)),
    (6, |call| call.job.t = 2732),
    (6, |call| call.job.r = 2732),
    (7, |call| with_hosts(call, 65)),
    (7, |call| call.job.hosts = 0),
    (8, |call| with_hosts(call, 8)),
    (8, |call| call.job.x_b = 2),
    (29, |call| call.job.closing = call.job.opening),
    (29, |call| call.job.opening = call.job.closing),
    (29, |call| call.job.closing = 0),
    (29, |call| {
        (call.job.opening, call.job.closing) = (call.job.closing, call.job.opening)
    }),
    (9, |call| call.points.truncate(9)),
    (9, |call| call.points.push(11)),
    (9, |call| call.points.clear()),
    (10, |call| call.points[7] = known_prime(call.job.modulus)),
    (10, |call| call.points[0] = 0),
    (11, |call| call.points[9] = 3),
    (11, |call| (call.points[3], call.points[7]) = (2, 0)),
];

/// Gives a call another number of hosts, with some of its points left out or more put in.
fn with_hosts(call: &mut JobCall, hosts: u32) {
    call.job.hosts = hosts;
    call.points.truncate(hosts as usize);
    call.points.extend(call.points.len() as u32 + 1..=hosts);
}

/// Calls on `SMALL` with points 1..10: faults of the plan alone, then all faults of its modulus number,
/// one of each other number and all faults of the call itself, alone and in pairs.
pub fn spoilt(base: &JobCall, own: &[Fault<JobCall>]) -> Expected<JobCall> {
    let mut calls = Vec::new();
    let mut paired: Vec<Fault<JobCall>> = Vec::new();
    for fault in PLAN_FAULTS {
        let is_first = paired.iter().all(|other| other.0 != fault.0);
        match is_first || fault.0 == 1 {
            true => paired.push(fault),
            false => calls.extend(alone(base, &[fault])),
        }
    }
    paired.extend(own);
    calls.extend(alone_and_in_pairs(base, &paired));
    calls
}

/// Calls on `LARGE` with points 1..10: each fault of the plan and of the call itself alone.
pub fn spoilt_once(base: &JobCall, own: &[Fault<JobCall>]) -> Expected<JobCall> {
    [alone(base, &PLAN_FAULTS), alone(base, own)].concat()
}

/// Jobs at the limits of a plan, points 1..N, with the number that is due; those that are fit have
/// answers of one element. The plan of the last four is accepted, but they need a longer store
/// than a case can give.
const LIMITS: [(Line, u32); 31] = [
    ([1, 1, 1, 1, 1, 1, 1, 1, 1, 12], 0),
    ([1, 1, 1, 1, 1, 1, 1, 1, 1, 13], 7),
    ([1, 1, 1, 1, 1, 1, 1, 1, 1, 3], 0),
    ([1, 1, 1, 1, 1, 1, 1, 1, 1, 2], 8),
    ([2, 1, 1, 1, 1, 1, 1, 1, 1, 64], 0),
    ([2, 1, 1, 1, 1, 1, 1, 1, 1, 65], 7),
    ([2, 4, 3, 4, 4, 3, 4, 2, 2, 64], 8),
    ([3, 3, 2, 2, 3, 2, 2, 7, 7, 38], 0),
    ([3, 3, 2, 2, 3, 2, 2, 7, 7, 37], 0),
    ([3, 3, 2, 2, 3, 2, 2, 7, 7, 36], 8),
    ([2, 2, 2, 2, 2, 2, 2, 5, 5, 25], 0),
    ([2, 2, 2, 2, 2, 2, 2, 5, 5, 24], 8),
    ([3, 65, 1, 64, 1, 1, 1, 1, 1, 3], 6),
    ([2, 4097, 1, 1, 1, 1, 1, 1, 1, 3], 6),
    ([2, 1, 1, 4097, 1, 1, 1, 1, 1, 3], 6),
    ([2, 1, 4097, 1, 1, 1, 1, 1, 1, 3], 6),
    ([2, 1, 16384, 1, 1, 4, 1, 1, 1, 9], 0),
    ([2, 1, 16385, 1, 1, 5, 1, 1, 1, 12], 2),
    ([3, 8, 8, 8, 8, 8, 8, 16, 16, 64], 8),
    ([3, 9, 8, 8, 9, 8, 8, 16, 16, 64], 3),
    ([3, 1, 1, 1, 1, 1, 1, 16, 17, 64], 4),
    ([4, 1, 1, 1, 1, 1, 1, 1, 1, 64], 0),
    ([4, 1, 1, 1, 1, 1, 1, 1, 1, 65], 7),
    ([4, 1, 1, 1, 1, 1, 1, 1, 1, 2], 8),
    ([4, 1, 16384, 1, 1, 4, 1, 1, 1, 9], 0),
    ([4, 1, 4097, 1, 1, 1, 1, 1, 1, 3], 6),
    ([5, 1, 1, 1, 1, 1, 1, 1, 1, 64], 1),
    ([3, 64, 64, 64, 1, 1, 1, 1, 1, 64], 13),
    ([3, 16384, 1, 1, 4, 1, 1, 1, 1, 9], 13),
    ([3, 1, 1, 16384, 1, 1, 4, 1, 1, 9], 13),
    ([2, 3073, 1, 1, 1, 1, 1, 1, 1, 4], 13),
];

/// Calls on the jobs at the limits, with windows in turn, nothing in the store and no host heard: an
/// arrival of host 1 at the last minute, which is fit if the job is, or a decoding, for which 24 is due
/// then.
pub fn limits(act: Act) -> Expected<JobCall> {
    let mut calls = Vec::new();
    for ((line, due), &window) in LIMITS.into_iter().zip(WINDOWS.iter().cycle()) {
        let job = Job::of(&line, window);
        let length = (job.t / job.m * (job.r / job.n) * job.hosts) as usize;
        let fields = Fields {
            modulus: job.modulus,
            host: 1,
            ..sized(1, 1)
        };
        let mut call = JobCall {
            act,
            job,
            job_number: FIELDS.job_number,
            points: (1..=job.hosts).collect(),
            ..JobCall::telling(vec![0; if length <= BUFFER { length } else { 0 }])
        };
        match act {
            Act::Arrive => (call.message, call.minute) = (message(&fields, &[0]), job.closing - 1),
            _ => call.room = (job.t * job.r).min(4096) as usize,
        }
        let due = match act {
            Act::Decode if due == 0 => 24,
            _ => due,
        };
        calls.push((call, due));
    }
    calls
}

/// For a number of hosts: hosts heard, and whether one of them is above N.
pub const HEARD: [(u32, u64, bool); 20] = [
    (3, 0b111, false),
    (3, 0b1000, true),
    (3, 0b1111, true),
    (3, 1 << 32, true),
    (3, 1 << 63, true),
    (3, u64::MAX, true),
    (31, 1 << 31, true),
    (31, (1 << 31) - 1, false),
    (32, 1 << 31, false),
    (32, 1 << 32, true),
    (32, (1 << 32) - 1, false),
    (33, 1 << 32, false),
    (33, 1 << 33, true),
    (63, (1 << 63) - 1, false),
    (63, 1 << 63, true),
    (63, u64::MAX, true),
    (64, u64::MAX, false),
    (64, 1 << 63, false),
    (64, 7 << 61, false),
    (64, 0, false),
];

/// An arrival's host is heard before, and its block holds the elements of the message.
pub fn heard_before(call: &mut JobCall) {
    let host = u32::from(call.message[7]);
    let fours = call.message[HEADER..].chunks_exact(4);
    let elements = fours.map(|four| four.iter().fold(0, |x, &byte| x << 8 | u32::from(byte)));
    let elements: Vec<u32> = elements.collect();
    let block = call.block(host);
    call.store[block].copy_from_slice(&elements);
    call.heard |= 1 << (host - 1);
}

/// The last element of a list.
pub fn last_of(elements: &mut [u32]) -> &mut u32 {
    elements.last_mut().expect("an element")
}
