//! Cases of decodings by themselves, each from hosts heard and a store of its own.
//!
//!   expected  all of them
//!   drawn     a decoding in which nothing is wrong

use super::faults::{last_of, limits, spoilt, spoilt_once, HEARD, LARGE, SMALL};
use crate::calls::shares::distinct_points;
use crate::cases::draw::{draw_in_layout, in_each_modulus, turn};
use crate::cases::faults::{border_elements, Expected, Fault};
use crate::sheet::decode::decode;
use crate::sheet::job_call::{Act, JobCall};
use crate::sheet::plan::{choose, known_prime, moduli, primes, Job, Line};
use crate::sheet::random::Random;
use crate::sheet::whole_job::WholeJob;

/// All cases with the refusal numbers that are due.
pub fn expected(random: &mut Random) -> Expected<JobCall> {
    let groups = [
        fault_pairs(random),
        lengths(random),
        elements(random),
        heard_numbers(random),
        limits(Act::Decode),
        every_group(random),
        any_answers(random),
        every_number(random),
        every_fit_group(random),
    ];
    groups.concat()
}

/// A decoding of a job with points 1..N, all hosts heard, with their true products in the store.
pub fn drawn(random: &mut Random, line: Line) -> JobCall {
    let whole = WholeJob::drawn(random, line, (1..=line[9]).collect());
    let mut call = whole.call(Act::Decode);
    call.heard = u64::MAX >> (64 - line[9]);
    call.store = whole.products.concat();
    assert_eq!(decode(&call), Ok(whole.table));
    call
}

/// The faults of a decoding of `SMALL` or `LARGE` with all ten heard that are no faults of its plan, in
/// the order of the tests. Nine are needed, so host 10 is heard and not used; hosts 1 and 10 are still
/// heard where too few are.
const FAULTS: [Fault<JobCall>; 15] = [
    (21, |call| call.heard |= 1 << 10),
    (21, |call| call.heard |= 1 << 63),
    (13, |call| call.store.truncate(79)),
    (13, |call| call.store.truncate(72)),
    (13, |call| call.store.push(0)),
    (13, |call| call.room -= 1),
    (13, |call| call.room += 1),
    (13, |call| call.room = 8),
    (24, |call| call.heard &= !0b11000),
    (24, |call| call.heard = 0b1000000001),
    (24, |call| call.heard = 0),
    (14, |call| call.store[0] = known_prime(call.job.modulus)),
    (14, |call| *last_of(&mut call.store[..72]) = u32::MAX),
    (14, |call| call.store[72] = known_prime(call.job.modulus)),
    (14, |call| {
        *last_of(&mut call.store[..80]) = known_prime(call.job.modulus)
    }),
];

/// Each fault alone and in pairs at `SMALL`, and alone at `LARGE`.
fn fault_pairs(random: &mut Random) -> Expected<JobCall> {
    let bases = [SMALL, LARGE].map(|line| drawn(random, line));
    let mut calls = spoilt(&bases[0], &FAULTS);
    calls.extend(spoilt_once(&bases[1], &FAULTS));
    calls.extend(bases.map(|base| (base, 0)));
    calls
}

/// Stores and tables of wrong lengths, with all heard and with none.
fn lengths(random: &mut Random) -> Expected<JobCall> {
    let mut calls = Vec::new();
    for line in [SMALL, [3, 6, 2, 2, 2, 1, 1, 1, 2, 7]] {
        let base = drawn(random, line);
        let (length, room) = (base.store.len(), base.room);
        let block = length / line[9] as usize;
        for wrong in [
            0,
            1,
            block,
            length - block,
            length - 1,
            length + 1,
            length + block,
        ] {
            let mut call = base.clone();
            call.store.resize(wrong, 0);
            calls.push((call.clone(), 13));
            call.heard = 0;
            calls.push((call, 13));
        }
        for wrong in [0, 1, block, room - 1, room + 1, 2 * room, length, 4096] {
            let mut call = base.clone();
            call.room = wrong;
            calls.push((call.clone(), 13));
            call.heard = 0;
            calls.push((call, 13));
        }
    }
    calls
}

/// Elements at the border of the field, for all moduli: in the block of a host that is used, of
/// one that is heard and not used, and of one that is not heard.
fn elements(random: &mut Random) -> Expected<JobCall> {
    let mut calls = Vec::new();
    for (modulus, q) in primes() {
        let line = [modulus, 4, 3, 1, 2, 1, 1, 1, 2, 10];
        let base = drawn(random, line);
        assert_eq!(choose(&base.job).needed, 6);
        for host in [1, 6, 7, 8, 9, 10] {
            let block = base.block(host);
            for (elements, due) in border_elements(&base.store[block.clone()], q, 14) {
                let mut call = base.clone();
                call.heard = 0b01_0111_1111;
                call.store[block.clone()].copy_from_slice(&elements);
                let looked_at = call.is_heard(host);
                calls.push((call, if looked_at { due } else { 0 }));
            }
        }
    }
    calls
}

/// Numbers of hosts heard at and beyond N; three answers are needed.
fn heard_numbers(random: &mut Random) -> Expected<JobCall> {
    let call = |(hosts, heard, above): (u32, u64, bool)| {
        let mut call = drawn(random, [2, 1, 1, 1, 1, 1, 1, 1, 1, hosts]);
        call.heard = heard;
        let due = match call.heard_hosts().len() {
            _ if above => 21,
            0..=2 => 24,
            _ => 0,
        };
        (call, due)
    };
    HEARD.map(call).to_vec()
}

/// A decoding of the true products of some hosts, with anything in the blocks of the others: the table
/// is A times B if at least K are heard, else 24 is due.
fn heard_truly(random: &mut Random, whole: &WholeJob, heard: u64) -> (JobCall, u32) {
    let mut call = whole.call(Act::Decode);
    call.heard = heard;
    call.store = random.words(call.store.len());
    for host in call.heard_hosts() {
        let block = call.block(host);
        call.store[block].copy_from_slice(&whole.products[host as usize - 1]);
    }
    if call.heard_hosts().len() < whole.needed {
        return (call, 24);
    }
    assert_eq!(decode(&call).as_ref(), Ok(&whole.table));
    (call, 0)
}

/// A job with random contents and points.
fn draw_whole(random: &mut Random, line: Line) -> WholeJob {
    let q = known_prime(line[0]);
    let points = distinct_points(random, line[9], q);
    WholeJob::drawn(random, line, points)
}

/// Every group out of five hosts, three being needed.
fn every_group(random: &mut Random) -> Expected<JobCall> {
    let mut calls = Vec::new();
    for modulus in moduli() {
        let whole = draw_whole(random, [modulus, 1, 2, 2, 1, 1, 1, 1, 1, 5]);
        assert_eq!(whole.needed, 3);
        calls.extend((0..32).map(|heard| heard_truly(random, &whole, heard)));
    }
    calls
}

/// Jobs in layout 3 over all primes but 13, X_A equal to X_B, above it and below it: every number of
/// hosts is heard, from none to all.
fn every_number(random: &mut Random) -> Expected<JobCall> {
    let lines = [
        [2, 4, 4, 4, 2, 2, 2, 5, 5, 26],
        [2, 4, 2, 2, 2, 2, 2, 6, 5, 28],
        [2, 2, 2, 4, 2, 2, 2, 5, 7, 28],
        [2, 3, 2, 2, 3, 2, 2, 7, 7, 38],
    ];
    let lines = lines.into_iter().flat_map(in_each_modulus);
    let mut calls = Vec::new();
    for line in lines.filter(|line| line[0] != 1) {
        let whole = draw_whole(random, line);
        assert_eq!(choose(&whole.job).number, 3);
        for count in 0..=line[9] as usize {
            let hosts = &random.order(line[9])[..count];
            let heard = hosts.iter().map(|host| 1 << (host - 1)).sum();
            calls.push(heard_truly(random, &whole, heard));
        }
    }
    calls
}

/// All hosts, and all but one or two of them.
fn all_but_two(hosts: u32) -> impl Iterator<Item = u64> {
    let all = u64::MAX >> (64 - hosts);
    let pairs = (0..hosts).flat_map(move |one| (one..hosts).map(move |other| (one, other)));
    [all]
        .into_iter()
        .chain(pairs.map(move |(one, other)| all & !(1 << one) & !(1 << other)))
}

/// Every group of at least K hosts, for jobs in layout 3 with one host more than K, and with two more
/// for the smallest K that layout 3 has, 13.
fn every_fit_group(random: &mut Random) -> Expected<JobCall> {
    let lines = [
        [2, 2, 1, 2, 2, 1, 2, 3, 3, 15],
        [3, 2, 1, 2, 2, 1, 2, 3, 3, 15],
        [2, 2, 2, 4, 2, 2, 2, 5, 5, 26],
        [3, 2, 4, 2, 2, 2, 2, 5, 5, 26],
        [2, 4, 2, 2, 2, 2, 2, 6, 5, 27],
        [3, 2, 2, 2, 2, 2, 2, 5, 6, 27],
        [3, 2, 3, 2, 2, 3, 2, 8, 7, 39],
        [4, 2, 1, 2, 2, 1, 2, 3, 3, 15],
        [4, 2, 2, 2, 2, 2, 2, 6, 5, 27],
    ];
    let mut calls = Vec::new();
    for line in lines {
        let whole = draw_whole(random, line);
        assert_eq!(choose(&whole.job).number, 3);
        let enough = |heard: &u64| heard.count_ones() as usize >= whole.needed;
        let groups = all_but_two(line[9]).filter(enough);
        calls.extend(groups.map(|heard| heard_truly(random, &whole, heard)));
    }
    calls
}

/// Random jobs with any hosts heard, any elements as answers, and anything in the other blocks.
fn any_answers(random: &mut Random) -> Expected<JobCall> {
    (0..165).map(|round| any_answer(random, round)).collect()
}

/// One of these; the round decides on layout and modulus.
fn any_answer(random: &mut Random, round: u32) -> (JobCall, u32) {
    let (modulus, number) = turn(round);
    let most = match (modulus, number) {
        (1, _) => 12,
        (_, 3) => 32,
        _ => 20,
    };
    let mut line = draw_in_layout(random, number, |needed| needed <= most);
    let needed = choose(&Job::of_line(&line)).needed;
    line[0] = modulus;
    line[1] *= random.within(1, 2);
    line[3] *= random.within(1, 2);
    line[9] = random.within(needed, most.min(needed + 6));
    let whole = draw_whole(random, line);
    let mut call = whole.call(Act::Decode);
    call.heard = u64::MAX >> (64 - line[9]);
    for host in &random.order(line[9])[needed as usize..] {
        call.heard ^= u64::from(random.within(0, 2) > 0) << (host - 1);
    }
    call.store = random.words(call.store.len());
    for host in call.heard_hosts() {
        let block = call.block(host);
        let elements = random.elements(block.len(), whole.q);
        call.store[block].copy_from_slice(&elements);
    }
    (call, 0)
}
