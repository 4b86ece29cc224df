//! The subcommand `jobs`: gathers the cases of arrivals and decodings, alone and in whole jobs,
//! checks them, writes them with their outcomes.
//!
//!   story      calls on one job, one after another
//!   stories    cases of whole jobs
//!   faults     what cases of arrivals and of decodings have in common
//!   arrivals   cases of arrivals by themselves
//!   repeats    cases of messages that come again, by themselves and in whole jobs
//!   decodings  cases of decodings by themselves
//!   depths     cases over the largest prime, by themselves and in whole jobs
//!   windows    cases of windows, by themselves and in whole jobs
//!   format     the file format of cases and outcomes

mod arrivals;
mod decodings;
pub mod depths;
pub mod faults;
mod format;
mod repeats;
pub mod stories;
mod story;
mod windows;

use crate::cases::counts::{hold, Floors};
use crate::cases::faults::Expected;
use crate::cases::save;
use crate::sheet::job_call::JobCall;
use crate::sheet::plan_check;
use crate::sheet::random::Random;
use crate::sheet::sums_check;
use crate::sheet::window_check;
use format::{word, Files, ALREADY_IN};

/// What can become of each call, with the least count of cases.
#[rustfmt::skip]
const FLOORS: &Floors = &[
    ("arrival", &[
        (0, 5765), (1, 343), (2, 128), (3, 51), (4, 48), (5, 48), (6, 112), (7, 47), (8, 49),
        (9, 43), (10, 40), (11, 39), (12, 294), (13, 255), (14, 134), (16, 74), (17, 213), (18, 70),
        (19, 89), (20, 193), (21, 165), (22, 581), (23, 1232), (29, 166), (30, 1912),
        (ALREADY_IN, 715),
    ]),
    ("decoding", &[
        (0, 2048), (1, 141), (2, 32), (3, 31), (4, 28), (5, 28), (6, 32), (7, 27), (8, 29), (9, 23),
        (10, 20), (11, 19), (13, 410), (14, 104), (21, 99), (24, 1408), (29, 66),
    ]),
    ("store told", &[(0, 2786)]),
];

/// Checks the program, then writes the cases to one file and their outcomes to the other.
pub fn write_files(stdin_file: &str, stdout_file: &str) {
    plan_check::run();
    sums_check::run();
    window_check::run();
    let mut files = Files::new();
    gathered().iter().for_each(|call| files.add(call));
    files.tell();
    hold(&files.counts, FLOORS);
    assert!(files.cases.len() < 5_000_000 && files.outcomes.len() < 1_400_000);
    save(stdin_file, &files.cases);
    save(stdout_file, &files.outcomes);
}

/// All calls. The first stories and the windows have generators of their own: no other call changes
/// with them.
fn gathered() -> Vec<JobCall> {
    let mut calls = stories::told(&mut Random::new(2034));
    let random = &mut Random::new(0x21eb_020a_0a63_69db);
    calls.extend(expected(arrivals::expected(random)));
    calls.extend(expected(decodings::expected(random)));
    calls.extend(repeats::told(random));
    calls.extend(expected(repeats::expected(random)));
    calls.extend(depths::told(random));
    calls.extend(expected(depths::expected(random)));
    let random = &mut Random::new(2035);
    calls.extend(windows::told(random));
    calls.extend(expected(windows::expected(random)));
    calls
}

/// The calls of a list; panics if something else becomes of one than it was made for.
fn expected(list: Expected<JobCall>) -> Vec<JobCall> {
    let mut calls = Vec::new();
    for (call, due) in list {
        assert_eq!(word(&call), due, "{:?}", call.job.line());
        calls.push(call);
    }
    calls
}
