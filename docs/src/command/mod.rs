//! The subcommand `command`: random jobs for the command `mukerihe`, as files, with what is due.
//!
//!   matrix  matrices of whole numbers with names, and tables as text
//!   case    a job with its tables, options and random words, and what is due
//!
//! Each job has a folder NNN: `job`, `a` and `b`, the files that `share` reads; `words`, random words;
//! `share`, its options, and `decode`, those of `decode`, a word a line; `needed`, K; `send`, the messages
//! that are due; `table`, the table that is due; and `page`, its page, where no entry is below 0.

mod case;
mod matrix;

use std::collections::BTreeMap;

use crate::sheet::page_check;
use crate::sheet::plan_check;
use crate::sheet::random::Random;
use case::Case;

/// How many jobs there are.
const JOBS: u32 = 66;

/// The kinds of jobs, each with the least count of its jobs.
#[rustfmt::skip]
const KINDS: [(&str, u32); 19] = [
    ("entries as remainders", 36), ("entries as they are", 30), ("hosts", 12), ("layout 1", 24),
    ("layout 2", 24), ("layout 3", 18), ("names_a both", 21), ("names_a columns", 13),
    ("names_a none", 13), ("names_a rows", 19), ("names_b both", 24), ("names_b columns", 15),
    ("names_b none", 10), ("names_b rows", 17), ("no window", 35), ("page", 51), ("signed", 15),
    ("transposed", 21), ("window", 31),
];

/// Checks the program, then writes all jobs to a folder. Panics unless there are so many of each kind.
pub fn write_folder(folder: &str) {
    plan_check::run();
    page_check::run();
    let random = &mut Random::new(2037);
    let mut counts: BTreeMap<String, u32> = BTreeMap::new();
    for round in 0..JOBS {
        let case = Case::drawn(random, round);
        case.write(random, &format!("{folder}/{round:03}"));
        for kind in case.kinds() {
            *counts.entry(kind).or_default() += 1;
        }
    }
    for (kind, count) in &counts {
        println!("{kind}: {count}");
    }
    let names = KINDS.iter().map(|(kind, _)| kind);
    assert!(counts.keys().eq(names), "other kinds");
    for (kind, least) in KINDS {
        assert!(counts[kind] >= least, "{kind}: not {least} jobs");
    }
}
