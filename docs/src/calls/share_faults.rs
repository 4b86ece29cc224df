//! Cases of the two share calls that are refused, and fit ones beside them.
//!
//!   expected        all of them
//!   plan_faults     the faults of a share's plan
//!   of_short_window
//!                   a call from which cases with faults start
//!   of_other_plans  plans like `SMALL`
//!   point_lists     points at the border of a field

use super::shares::{by_hand, drawn, EXAMPLE, LAYOUT_3, SIDES, SMALL};
use crate::cases::draw::in_each_modulus;
use crate::cases::faults::{
    alone, alone_and_in_pairs, border_elements, wrong_lengths, Expected, Fault,
};
use crate::cases::windows::of_plans;
use crate::sheet::plan::{known_prime, primes, Job, Line};
use crate::sheet::random::Random;
use crate::sheet::share::{Sharing, Side};

/// All cases; the refusal number is known from the way they are made.
pub fn expected(random: &mut Random) -> Expected<Sharing> {
    let groups = [
        fault_pairs(random),
        faults_alone(random),
        lengths(random),
        elements(random),
        points(random),
        large_plans(random),
        windows(&mut random.clock()),
    ];
    groups.concat()
}

/// The faults of a share of `SMALL`, or of its sizes with more hosts or over another prime, in the order
/// of the tests.
const FAULTS: [Fault<Sharing>; 43] = [
    (1, |call| call.job.modulus = 0),
    (1, |call| call.job.modulus = 5),
    (1, |call| call.job.modulus = 255),
    (1, |call| call.job.modulus = 256),
    (1, |call| call.job.modulus = u32::MAX),
    (2, |call| call.job.t = 0),
    (2, |call| call.job.s = 16385),
    (2, |call| call.job.r = u32::MAX),
    (3, |call| call.job.m = 0),
    (3, |call| call.job.p = 9),
    (3, |call| call.job.n = u32::MAX),
    (4, |call| call.job.x_a = 0),
    (4, |call| call.job.x_b = 17),
    (5, |call| call.job.t = 5),
    (5, |call| call.job.p = 2),
    (5, |call| call.job.r = 3),
    (6, |call| call.job.t = 2732),
    (6, |call| call.job.r = 2732),
    (6, |call| (call.job.t, call.job.r) = (130, 130)),
    (7, |call| call.job.hosts = 0),
    (7, |call| with_hosts(call, 65)),
    (8, |call| call.job.hosts = 8),
    (8, |call| with_hosts(call, 8)),
    (29, |call| call.job.closing = call.job.opening),
    (29, |call| call.job.opening = u32::MAX),
    (29, |call| call.job.closing = 0),
    (29, |call| {
        (call.job.opening, call.job.closing) = (call.job.closing, call.job.opening)
    }),
    (9, |call| call.points.clear()),
    (9, |call| call.points.truncate(9)),
    (9, |call| call.points.push(11)),
    (10, |call| call.points[0] = 0),
    (10, |call| call.points[7] = known_prime(call.job.modulus)),
    (11, |call| call.points[7] = 3),
    (12, |call| call.host = 0),
    (12, |call| call.host = call.job.hosts + 1),
    (12, |call| call.host = u32::MAX),
    (13, |call| call.matrix.truncate(5)),
    (13, |call| call.masks.push(0)),
    (13, |call| call.room += 1),
    (14, |call| call.matrix[0] = known_prime(call.job.modulus)),
    (14, |call| *last(&mut call.matrix) = u32::MAX),
    (15, |call| call.masks[0] = known_prime(call.job.modulus)),
    (15, |call| *last(&mut call.masks) = u32::MAX),
];

/// The faults of a share's plan among these.
pub fn plan_faults() -> Vec<Fault<Sharing>> {
    let is_plan = |number: u32| number <= 11 || number == 29;
    let faults = FAULTS.into_iter();
    faults.filter(|fault| is_plan(fault.0)).collect()
}

/// Gives a call another number of hosts, with some of its points left out or more put in.
fn with_hosts(call: &mut Sharing, hosts: u32) {
    call.job.hosts = hosts;
    call.points.truncate(hosts as usize);
    call.points.extend(call.points.len() as u32 + 1..=hosts);
}

/// The last element of a list.
fn last(elements: &mut [u32]) -> &mut u32 {
    elements.last_mut().expect("an element")
}

/// A call of `SMALL`, or of its sizes with more hosts or over another prime, with a short window.
pub fn of_short_window(random: &mut Random, side: Side, line: Line) -> Sharing {
    let mut call = drawn(random, side, line, 2);
    (call.job.opening, call.job.closing) = (43200, 43230);
    call
}

/// Each fault alone and in pairs, for both sides.
fn fault_pairs(random: &mut Random) -> Expected<Sharing> {
    let bases = SIDES.map(|side| of_short_window(random, side, SMALL));
    bases
        .iter()
        .flat_map(|base| alone_and_in_pairs(base, &FAULTS))
        .collect()
}

/// A job in layout 3 with the sizes of `SMALL`, K = 13 of 13 hosts, and `SMALL` over the other primes.
pub fn of_other_plans() -> Vec<Line> {
    let mut lines: Vec<Line> = vec![[2, 4, 3, 2, 2, 1, 2, 3, 3, 13]];
    lines.extend(in_each_modulus(SMALL).filter(|&line| line != SMALL));
    lines
}

/// Each fault alone, for both sides of these jobs.
fn faults_alone(random: &mut Random) -> Expected<Sharing> {
    let mut calls = Vec::new();
    for line in of_other_plans() {
        for side in SIDES {
            calls.extend(alone(&of_short_window(random, side, line), &FAULTS));
        }
    }
    calls
}

/// Matrix, masks and output of wrong lengths.
fn lengths(random: &mut Random) -> Expected<Sharing> {
    let mut calls = Vec::new();
    for [side, other] in [[Side::A, Side::B], [Side::B, Side::A]] {
        for line in [SMALL, EXAMPLE, LAYOUT_3] {
            let base = drawn(random, side, line, line[9]);
            let foreign = drawn(random, other, line, line[9]);
            calls.extend(wrong_lists(&base, &foreign));
            for room in [0, base.room - 1, base.room + 1, foreign.room, 4096, 8192] {
                let call = base.clone();
                calls.push((Sharing { room, ..call }, 13));
            }
        }
    }
    calls
}

/// A call with matrix or masks of wrong lengths, among them those of the other side.
fn wrong_lists(base: &Sharing, foreign: &Sharing) -> Expected<Sharing> {
    let mut calls = Vec::new();
    for matrix in [wrong_lengths(&base.matrix), vec![foreign.matrix.clone()]].concat() {
        let call = base.clone();
        calls.push((Sharing { matrix, ..call }, 13));
    }
    for masks in [wrong_lengths(&base.masks), vec![foreign.masks.clone()]].concat() {
        let call = base.clone();
        calls.push((Sharing { masks, ..call }, 13));
    }
    calls
}

/// Elements at the border of the field, for all moduli.
fn elements(random: &mut Random) -> Expected<Sharing> {
    let mut calls = Vec::new();
    for (modulus, q) in primes() {
        for side in SIDES {
            let mut line = SMALL;
            line[0] = modulus;
            let base = drawn(random, side, line, 5);
            for (matrix, number) in border_elements(&base.matrix, q, 14) {
                let call = base.clone();
                calls.push((Sharing { matrix, ..call }, number));
            }
            for (masks, number) in border_elements(&base.masks, q, 15) {
                let call = base.clone();
                calls.push((Sharing { masks, ..call }, number));
            }
        }
    }
    calls
}

/// Points at the border of each field, repeated ones, and which of two bad points decides.
fn points(random: &mut Random) -> Expected<Sharing> {
    let mut calls = Vec::new();
    for (modulus, q) in primes() {
        for (list, number) in point_lists(q) {
            for side in SIDES {
                let [element, mask] = [12; 2].map(|most| random.within(0, most));
                let mut call = by_hand(side, element, mask, random.within(1, 3));
                call.job.modulus = modulus;
                call.points = list.clone();
                calls.push((call, number));
            }
        }
    }
    calls
}

/// Lists of points for three hosts with the number that is due.
pub fn point_lists(q: u32) -> Expected<Vec<u32>> {
    let lists: [(&[u32], u32); 15] = [
        (&[q - 1, 1, 7], 0),
        (&[2, q - 2, q - 1], 0),
        (&[1, 2], 9),
        (&[1, 2, 3, 4], 9),
        (&[0, 0], 9),
        (&[0, 1, 2], 10),
        (&[1, 2, 0], 10),
        (&[1, q, 1], 10),
        (&[1, 2, u32::MAX], 10),
        (&[1, q + 1, 2], 10),
        (&[q - 1, 1 << 31, q - 1], 10),
        (&[5, 0, 5], 10),
        (&[5, 5, 0], 11),
        (&[7, 5, 7], 11),
        (&[q - 1, q - 1, q], 11),
    ];
    lists.map(|(list, number)| (list.to_vec(), number)).to_vec()
}

/// Plans whose other side or answer is too large, all lengths being right for the side that is
/// shared, and plans at the limits of sizes, hosts and K.
fn large_plans(random: &mut Random) -> Expected<Sharing> {
    let lines = [
        (Side::B, [2, 4097, 1, 1, 1, 1, 1, 1, 1, 3], 6),
        (Side::A, [2, 1, 1, 4097, 1, 1, 1, 1, 1, 3], 6),
        (Side::A, [3, 65, 1, 64, 1, 1, 1, 1, 1, 3], 6),
        (Side::B, [3, 65, 1, 64, 1, 1, 1, 1, 1, 3], 6),
        (Side::B, [3, 16384, 1, 1, 4, 1, 1, 1, 1, 9], 0),
        (Side::A, [3, 1, 1, 16384, 1, 1, 4, 1, 1, 9], 0),
        (Side::A, [1, 1, 1, 1, 1, 1, 1, 1, 1, 12], 0),
        (Side::B, [1, 1, 1, 1, 1, 1, 1, 1, 1, 13], 7),
        (Side::A, [1, 1, 1, 1, 1, 1, 1, 1, 1, 2], 8),
        (Side::B, [2, 1, 1, 1, 1, 1, 1, 1, 1, 64], 0),
        (Side::A, [2, 1, 1, 1, 1, 1, 1, 1, 1, 65], 7),
        (Side::B, [2, 4, 3, 4, 4, 3, 4, 2, 2, 64], 8),
        (Side::A, [3, 3, 2, 2, 3, 2, 2, 7, 7, 38], 0),
        (Side::A, [3, 3, 2, 2, 3, 2, 2, 7, 7, 37], 0),
        (Side::B, [3, 3, 2, 2, 3, 2, 2, 7, 7, 37], 0),
        (Side::B, [3, 3, 2, 2, 3, 2, 2, 7, 7, 36], 8),
        (Side::A, [2, 4, 4, 4, 2, 2, 2, 5, 5, 24], 8),
        (Side::A, [2, 4, 4, 16386, 2, 2, 2, 5, 5, 25], 2),
        (Side::B, [2, 16386, 4, 4, 2, 2, 2, 5, 5, 25], 2),
        (Side::A, [4, 1, 1, 1, 1, 1, 1, 1, 1, 64], 0),
        (Side::B, [4, 1, 1, 1, 1, 1, 1, 1, 1, 65], 7),
        (Side::A, [4, 1, 1, 1, 1, 1, 1, 1, 1, 2], 8),
        (Side::B, [4, 4097, 1, 1, 1, 1, 1, 1, 1, 3], 6),
        (Side::A, [4, 3, 2, 2, 3, 2, 2, 7, 7, 37], 0),
        (Side::B, [4, 3, 2, 2, 3, 2, 2, 7, 7, 36], 8),
    ];
    lines
        .into_iter()
        .map(|(side, line, number)| (drawn(random, side, line, line[9]), number))
        .collect()
}

/// A job in each layout with all windows and with those that are none, one side of each.
fn windows(random: &mut Random) -> Expected<Sharing> {
    let mut calls = Vec::new();
    for (side, line) in [(Side::A, SMALL), (Side::B, EXAMPLE), (Side::A, LAYOUT_3)] {
        let base = drawn(random, side, line, line[9]);
        for (window, due) in of_plans() {
            let job = Job::of(&line, window);
            let call = base.clone();
            calls.push((Sharing { job, ..call }, due));
        }
    }
    calls
}
