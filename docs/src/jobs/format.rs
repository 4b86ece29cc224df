//! The file format of calls on whole jobs and of their outcomes. A word is 4 bytes, big-endian.
//!
//! A case is 22 words, two lists of words, and a list of bytes:
//!
//!   0       the call: 1 arrival, 2 decoding, 3 tell the store
//!   1..=13  the job: modulus number, t, s, r, m, p, n, X_A, X_B, N, job number, opening, closing
//!   14, 15  the hosts heard that the call is given, the high word and the low one
//!   16      length of list 1: the points
//!   17      the length of the store that the call is given, in elements
//!   18      1 if the store's elements are given as list 2, of the length in word 17; 0 if list 2
//!           is empty and the store is as the call before left it
//!   19      length of the list of bytes: the message of an arrival
//!   20      the minute of an arrival
//!   21      the length of the table that a decoding is given, in elements
//!
//! The store is the front of a buffer of 12,288 elements, which keeps all that it holds from case
//! to case; list 2 replaces the front of it before the call. No case that leaves the store as it was
//! takes more of it than the last list 2 gave. There are at most 128 points, 12,288 elements in the
//! store, 4096 in the table, and 20,000 bytes of message. Words that a call has no use for are 0.
//!
//! The outcome of an arrival is a word, 0 for one that was taken, 100 for one that is in already,
//! else the refusal number; and two words with the hosts heard after it. The outcome of a decoding
//! is the refusal number, 0 for one that was done, and the table after the call, told as in
//! calls/format.rs: before the call every byte of it is A5 hex, and the part up to the last element
//! that is not A5A5A5A5 hex is told, a word with its length and then its elements. The outcome of a
//! call that tells the store is its elements.
//!
//!   BUFFER      the length of the buffer that the store is the front of
//!   ALREADY_IN  the word for an arrival that is in already
//!   word        what becomes of a call, as a word
//!   Files       cases and outcomes as they are written one after another

use std::collections::BTreeMap;

use crate::calls::format::{elements_told, words};
use crate::sheet::arrival::{after, arrive, Arrived};
use crate::sheet::decode::decode;
use crate::sheet::job_call::{Act, JobCall};

/// The length of the buffer that the store is the front of: three blocks of 4096.
pub const BUFFER: usize = 12_288;

/// The most elements of a table.
const MOST_TABLE: usize = 4096;

/// The word for an arrival that is in already; no refusal has this number.
pub const ALREADY_IN: u32 = 100;

/// What becomes of a call: the refusal number, 0 if it is done, `ALREADY_IN` if it is in already.
pub fn word(call: &JobCall) -> u32 {
    match call.act {
        Act::Arrive => match arrive(call) {
            Ok(Arrived::Taken { .. }) => 0,
            Ok(Arrived::AlreadyIn) => ALREADY_IN,
            Err(number) => number,
        },
        Act::Decode => decode(call).err().unwrap_or(0),
        Act::Tell => 0,
    }
}

/// Cases and outcomes so far, how many there are of each call and of what becomes of it, what the
/// buffer then holds, how much of it the last list of elements gave, and whether an arrival was made
/// since the store was last told.
pub struct Files {
    pub cases: Vec<u8>,
    pub outcomes: Vec<u8>,
    pub counts: BTreeMap<(&'static str, u32), u32>,
    buffer: Vec<u32>,
    given: usize,
    untold: bool,
}

impl Files {
    /// Files with no case.
    pub fn new() -> Files {
        Files {
            cases: Vec::new(),
            outcomes: Vec::new(),
            counts: BTreeMap::new(),
            buffer: vec![0; BUFFER],
            given: 0,
            untold: false,
        }
    }

    /// Writes a call and its outcome. The store's elements are given where the call is to have
    /// others than the buffer holds; what arrivals left there is told before.
    pub fn add(&mut self, call: &JobCall) {
        let length = call.store.len();
        let replaced = length > self.given || self.buffer[..length] != call.store;
        assert!(call.act != Act::Tell || !replaced);
        if replaced {
            self.tell();
            self.buffer[..length].copy_from_slice(&call.store);
            self.given = length;
        }
        self.put(call, replaced);
    }

    /// Tells what the store holds, if an arrival was made since it was last told.
    pub fn tell(&mut self) {
        if self.untold {
            self.put(&JobCall::telling(self.buffer[..self.given].to_vec()), false);
        }
    }

    /// Writes a call on the store that is there, and its outcome; an arrival that is taken changes
    /// the store.
    fn put(&mut self, call: &JobCall, replaced: bool) {
        self.cases.extend(case(call, replaced));
        self.outcomes.extend(outcome(call));
        *self.counts.entry((name(call), word(call))).or_default() += 1;
        self.untold = match call.act {
            Act::Arrive => true,
            Act::Decode => self.untold,
            Act::Tell => self.untold && call.store.len() < self.given,
        };
        let (_, store) = after(call);
        self.buffer[..store.len()].copy_from_slice(&store);
    }
}

/// The bytes of a case; panics if it is over the limits that the program on the other side has.
fn case(call: &JobCall, replaced: bool) -> Vec<u8> {
    assert!(call.points.len() <= 128 && call.message.len() <= 20_000);
    assert!(call.store.len() <= BUFFER && call.room <= MOST_TABLE);
    let mut head = vec![match call.act {
        Act::Arrive => 1,
        Act::Decode => 2,
        Act::Tell => 3,
    }];
    head.extend(call.job.numbers(call.job_number));
    head.extend(halves(call.heard));
    head.extend([call.points.len() as u32, call.store.len() as u32]);
    head.extend([u32::from(replaced), call.message.len() as u32]);
    head.extend([call.minute, call.room as u32]);
    let mut bytes = words(&head);
    bytes.extend(words(&call.points));
    if replaced {
        bytes.extend(words(&call.store));
    }
    bytes.extend(&call.message);
    bytes
}

/// The high and the low word of the hosts heard.
fn halves(heard: u64) -> [u32; 2] {
    [(heard >> 32) as u32, heard as u32]
}

/// The bytes of a call's outcome.
fn outcome(call: &JobCall) -> Vec<u8> {
    match call.act {
        Act::Arrive => {
            let [high, low] = halves(after(call).0);
            words(&[word(call), high, low])
        }
        Act::Decode => {
            let mut bytes = words(&[word(call)]);
            bytes.extend(elements_told(&decode(call).unwrap_or_default(), call.room));
            bytes
        }
        Act::Tell => words(&call.store),
    }
}

/// A call's name.
fn name(call: &JobCall) -> &'static str {
    match call.act {
        Act::Arrive => "arrival",
        Act::Decode => "decoding",
        Act::Tell => "store told",
    }
}
