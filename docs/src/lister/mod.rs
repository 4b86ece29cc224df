//! The subcommand `lister`: gathers the lister's cases, checks them, writes them with the replies.
//!
//!   plans      lines of ten numbers: accepted plans and near misses
//!   layouts    lines about the choice of a layout
//!   malformed  inputs that are no such line
//!   format     the file format of cases and replies

mod format;
mod layouts;
pub mod malformed;
pub mod plans;

use crate::cases::counts::{hold, Counts, Floors};
use crate::cases::save;
use crate::sheet::listing::{parse, refused, reply, text};
use crate::sheet::plan_check;
use crate::sheet::random::Random;
use format::{distinct, framed};

/// The reply to the sheet's example, as the sheet has it.
const EXAMPLE_REPLY: &str = "MODULUS 257\nLAYOUT 1\nHOSTS 20\nNEEDED 17\n\
    A 0 1 6 7 | 10 11\nB 1 3 0 2 | 4 5\nC 1 3 7 9\n";

/// The reply to 02's case in layout 3, with 25 hosts.
const LAYOUT_3_REPLY: &str = "MODULUS 257\nLAYOUT 3\nHOSTS 25\nNEEDED 25\n\
    A 0 1 4 5 | 8 9 10 11 12\nB 1 3 0 2 | 8 9 10 11 12\nC 1 3 5 7\n";

/// The numbers that the lister can give, with the least count of cases.
#[rustfmt::skip]
const FLOORS: &Floors = &[
    ("layout 1", &[(0, 259)]),
    ("layout 2", &[(0, 134)]),
    ("layout 3", &[(0, 545)]),
    ("refused", &[
        (1, 67), (2, 50), (3, 50), (4, 35), (5, 50), (6, 36), (7, 42), (8, 301), (26, 194),
    ]),
];

/// The replies that the papers have: the sheet's example, also with the modulus number of 02, U4, and
/// 02's case in layout 3.
fn told_replies() {
    assert_eq!(reply(b"2 4 4 4 2 2 2 2 2 20\n"), EXAMPLE_REPLY);
    let large = EXAMPLE_REPLY.replace("MODULUS 257\n", "MODULUS 2147483647\n");
    assert_eq!(reply(b"4 4 4 4 2 2 2 2 2 20\n"), large);
    assert_eq!(reply(b"5 4 4 4 2 2 2 2 2 20\n"), refused(1));
    assert_eq!(reply(b"2 4 4 4 2 2 2 5 5 25\n"), LAYOUT_3_REPLY);
    assert_eq!(reply(b"2 4 4 4 2 2 2 5 5 24\n"), refused(8));
}

/// Checks the program, then writes the cases to one file and the replies to the other.
pub fn write_files(stdin_file: &str, stdout_file: &str) {
    plan_check::run();
    told_replies();
    let inputs = gathered();
    let replies: Vec<String> = inputs.iter().map(|input| reply(input)).collect();
    inputs.iter().for_each(|input| reads_back(input));
    let file = framed(&inputs);
    assert!(file.len() < 60_000 && inputs.iter().all(|input| input.len() < 200));
    hold(&counted(&replies), FLOORS);
    save(stdin_file, &file);
    save(stdout_file, replies.concat().as_bytes());
}

/// All inputs, each once.
fn gathered() -> Vec<Vec<u8>> {
    let mut random = Random::new(2026);
    let mut inputs: Vec<Vec<u8>> = expected_plans(&mut random);
    inputs.extend(plans::computed(&mut random).iter().map(text));
    assert!(inputs.iter().all(|input| reply(input) != refused(26)));
    let damaged = malformed::damaged(&mut random, &inputs);
    inputs.extend(malformed_texts(&mut random));
    inputs.extend(damaged);
    distinct(inputs)
}

/// The plans that are made to get a certain refusal number or to be accepted; panics if one
/// gets another reply.
fn expected_plans(random: &mut Random) -> Vec<Vec<u8>> {
    let mut inputs = Vec::new();
    let cases = [plans::expected(random), layouts::expected(random)].concat();
    for (line, number) in cases {
        let input = text(&line);
        assert_eq!(kind(&reply(&input)).1, number, "{line:?}");
        inputs.push(input);
    }
    inputs
}

/// The malformed inputs; panics if one of them gets another reply than 26.
fn malformed_texts(random: &mut Random) -> Vec<Vec<u8>> {
    let inputs = malformed::malformed(random);
    for input in &inputs {
        assert_eq!(reply(input), refused(26), "{input:?}");
    }
    inputs
}

/// Panics unless the numbers that were read, written again, are the input byte for byte.
fn reads_back(input: &[u8]) {
    if let Some(line) = parse(input) {
        assert_eq!(text(&line), input);
        assert!(line.iter().all(|&number| number <= 99999));
    }
}

/// The kind of a reply: its layout and 0, or its refusal number.
fn kind(reply: &str) -> (&'static str, u32) {
    let value = |label: &str| {
        let line = reply.lines().find_map(|line| line.strip_prefix(label));
        line.map_or(0, |digits| digits.parse().expect("a reply's number"))
    };
    match value("LAYOUT ") {
        1 => ("layout 1", 0),
        2 => ("layout 2", 0),
        3 => ("layout 3", 0),
        _ => ("refused", value("REFUSED ")),
    }
}

/// How many cases there are of each kind of reply.
fn counted(replies: &[String]) -> Counts {
    let mut counts = Counts::new();
    for reply in replies {
        *counts.entry(kind(reply)).or_default() += 1;
    }
    counts
}
