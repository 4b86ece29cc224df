//! Cases of the two share calls that are fit, of every shape, and such with a number changed.
//!
//!   SIDES            the two sides
//!   SMALL, EXAMPLE, LAYOUT_3
//!                    a job in each layout
//!   expected         all fit cases
//!   computed         fit calls with a number changed
//!   by_hand          a call of the smallest job
//!   drawn            a call with random contents
//!   draw_fit         a random call that is fit
//!   distinct_points  random points

use crate::cases::draw::{draw_in_layout, nudged, turn};
use crate::cases::faults::Expected;
use crate::sheet::plan::{choose, known_prime, moduli, Job, Line};
use crate::sheet::random::Random;
use crate::sheet::share::{Shape, Sharing, Side};

/// The two sides.
pub const SIDES: [Side; 2] = [Side::A, Side::B];

/// A job with few hosts whose sizes all differ: layout 1, K = 9, blocks of A 2 by 3, of B 3 by 1.
pub const SMALL: Line = [2, 4, 3, 2, 2, 1, 2, 2, 1, 10];

/// The cuts of document 000's worked example: layout 2, K = 24.
pub const EXAMPLE: Line = [3, 4, 3, 2, 2, 3, 2, 2, 3, 25];

/// A job in layout 3 whose sizes all differ: K = 26, blocks of A 1 by 2, of B 2 by 3.
pub const LAYOUT_3: Line = [2, 2, 4, 6, 2, 2, 2, 5, 6, 27];

/// All fit cases, with 0 as the number that is due.
pub fn expected(random: &mut Random) -> Expected<Sharing> {
    let groups = [
        checked_by_hand(),
        fillings(random),
        cuts_of_one_element(random),
        large_blocks(random),
        every_host(random),
        hosts_and_points(random),
        random_fit(random),
    ];
    groups.concat()
}

/// A call of the smallest job over q = 13, points 1, 2, 3.
pub fn by_hand(side: Side, element: u32, mask: u32, host: u32) -> Sharing {
    Sharing {
        side,
        job: Job::of(&[1, 1, 1, 1, 1, 1, 1, 1, 1, 3], [host, 60]),
        job_number: 0,
        host,
        points: vec![1, 2, 3],
        matrix: vec![element],
        masks: vec![mask],
        room: 1,
    }
}

/// 01, "Checked by hand": A = 5 with mask 7, B = 4 with mask 9, and A = 6 with mask 0; all are
/// made for each of the three hosts.
fn checked_by_hand() -> Expected<Sharing> {
    let lines = [(Side::A, 5, 7), (Side::B, 4, 9), (Side::A, 6, 0)];
    let calls = lines.iter().flat_map(|&(side, element, mask)| {
        [1, 2, 3].map(|host| by_hand(side, element, mask, host))
    });
    calls.map(done).collect()
}

/// A call that must be done.
fn done(call: Sharing) -> (Sharing, u32) {
    (call, 0)
}

/// A call with points 1..N, exact lengths, and matrix, masks and window drawn at random.
pub fn drawn(random: &mut Random, side: Side, line: Line, host: u32) -> Sharing {
    let job = Job::of(&line, random.window());
    let q = known_prime(job.modulus);
    let shape = Shape::of(side, &job);
    Sharing {
        side,
        job,
        job_number: random.word(),
        host,
        points: (1..=job.hosts).collect(),
        matrix: random.elements(shape.matrix_length(), q),
        masks: random.elements(shape.masks_length(), q),
        room: shape.block_length(),
    }
}

/// Matrix and masks each all 0, all q - 1 or random, for all moduli.
fn fillings(random: &mut Random) -> Expected<Sharing> {
    let mut calls = Vec::new();
    for modulus in moduli() {
        for i in 0..9 {
            for side in SIDES {
                let mut line = SMALL;
                line[0] = modulus;
                let mut call = drawn(random, side, line, 1 + i);
                let q = known_prime(line[0]);
                fill(&mut call.matrix, q, i / 3);
                fill(&mut call.masks, q, i % 3);
                calls.push(done(call));
            }
        }
    }
    calls
}

/// Makes all elements 0 (way 0) or q - 1 (way 1), or leaves them (any other way).
fn fill(elements: &mut [u32], q: u32, way: u32) {
    match way {
        0 => elements.fill(0),
        1 => elements.fill(q - 1),
        _ => {}
    }
}

/// Blocks of one element: m p n = 8, cuts of 8, the largest groups, layout 3 with K from 13 to 64, and
/// ties, with just K hosts; the first host and the last.
fn cuts_of_one_element(random: &mut Random) -> Expected<Sharing> {
    #[rustfmt::skip]
    let cuts = [
        [2, 2, 2, 1, 1], [8, 1, 1, 1, 1], [1, 8, 1, 1, 1], [1, 1, 8, 1, 1], [4, 2, 1, 1, 2],
        [4, 1, 2, 2, 1], [2, 4, 1, 3, 1], [2, 1, 4, 1, 3], [1, 4, 2, 2, 2], [1, 2, 4, 1, 1],
        [8, 6, 1, 1, 1], [6, 1, 8, 1, 1], [8, 4, 1, 1, 2], [1, 4, 8, 2, 1], [1, 1, 1, 16, 16],
        [1, 1, 1, 16, 1], [1, 1, 1, 1, 16], [2, 2, 3, 2, 2], [2, 2, 3, 5, 5], [3, 2, 2, 7, 7],
        [2, 1, 2, 3, 1], [2, 1, 2, 3, 3], [2, 2, 2, 5, 5], [2, 3, 2, 7, 7], [2, 1, 8, 3, 16],
        [8, 1, 2, 16, 3], [2, 5, 2, 11, 14], [2, 2, 5, 14, 11], [2, 2, 2, 4, 4], [3, 1, 2, 3, 3],
    ];
    let mut calls = Vec::new();
    for [m, p, n, x_a, x_b] in cuts {
        let mut line = [3, m, p, n, m, p, n, x_a, x_b, 64];
        line[9] = choose(&Job::of_line(&line)).needed;
        for side in SIDES {
            calls.push(done(drawn(random, side, line, 1)));
            calls.push(done(drawn(random, side, line, line[9])));
        }
    }
    calls
}

/// Blocks of 4096 elements: square, one row, one column, and two and four of them; some calls have
/// nothing but q - 1 in matrix and masks.
fn large_blocks(random: &mut Random) -> Expected<Sharing> {
    let lines = [
        (Side::A, [3, 64, 64, 64, 1, 1, 1, 1, 1, 3], true),
        (Side::B, [3, 64, 64, 64, 1, 1, 1, 1, 1, 3], true),
        (Side::B, [1, 64, 64, 64, 1, 1, 1, 1, 1, 12], false),
        (Side::A, [3, 1, 4096, 1, 1, 1, 1, 1, 1, 3], false),
        (Side::B, [2, 1, 4096, 1, 1, 1, 1, 1, 1, 3], false),
        (Side::A, [2, 4096, 1, 1, 1, 1, 1, 1, 1, 3], false),
        (Side::B, [3, 1, 1, 4096, 1, 1, 1, 1, 1, 3], false),
        (Side::A, [2, 128, 64, 1, 2, 1, 1, 1, 1, 13], false),
        (Side::B, [3, 1, 8192, 2, 1, 2, 2, 1, 1, 13], false),
        (Side::A, [4, 64, 64, 64, 1, 1, 1, 1, 1, 3], true),
    ];
    let mut calls = Vec::new();
    for (side, line, greatest) in lines {
        let mut call = drawn(random, side, line, line[9]);
        if greatest {
            let q = known_prime(line[0]);
            call.matrix.fill(q - 1);
            call.masks.fill(q - 1);
        }
        calls.push(done(call));
    }
    calls
}

/// Both shares of every host of jobs in layout 3: the case of 02, U2, X_A above X_B, and X_B above X_A.
fn every_host(random: &mut Random) -> Expected<Sharing> {
    let lines = [
        [2, 4, 4, 4, 2, 2, 2, 5, 5, 25],
        [3, 2, 6, 4, 2, 3, 2, 8, 7, 38],
        [3, 4, 2, 6, 2, 2, 2, 5, 8, 28],
        [2, 6, 2, 2, 3, 2, 2, 9, 5, 38],
        [4, 2, 4, 2, 2, 2, 2, 6, 5, 27],
    ];
    let mut calls = Vec::new();
    for line in lines {
        assert_eq!(choose(&Job::of_line(&line)).number, 3);
        for side in SIDES {
            let mut call = drawn(random, side, line, 1);
            call.points = distinct_points(random, line[9], known_prime(line[0]));
            let of_host = |host| Sharing {
                host,
                ..call.clone()
            };
            calls.extend((1..=line[9]).map(of_host).map(done));
        }
    }
    calls
}

/// The first host and the last, with points 1..N, the highest points downwards, and random ones;
/// job numbers 0 and 2^32 - 1.
fn hosts_and_points(random: &mut Random) -> Expected<Sharing> {
    let mut calls = Vec::new();
    for side in SIDES {
        for line in [
            SMALL,
            EXAMPLE,
            LAYOUT_3,
            [1, 2, 2, 2, 1, 1, 2, 1, 1, 12],
            [4, 2, 3, 2, 2, 3, 1, 1, 2, 64],
        ] {
            for host in [1, line[9]] {
                let mut call = drawn(random, side, line, host);
                let q = known_prime(line[0]);
                call.job_number = if host == 1 { 0 } else { u32::MAX };
                calls.push(done(call.clone()));
                call.points = (q - line[9]..q).rev().collect();
                calls.push(done(call.clone()));
                call.points = distinct_points(random, line[9], q);
                calls.push(done(call));
            }
        }
    }
    calls
}

/// Random points: distinct, not 0, below q.
pub fn distinct_points(random: &mut Random, count: u32, q: u32) -> Vec<u32> {
    let mut points = Vec::new();
    while points.len() < count as usize {
        let point = random.within(1, q - 1);
        if !points.contains(&point) {
            points.push(point);
        }
    }
    points
}

/// Random jobs, the moduli, the layouts and the sides in turn.
fn random_fit(random: &mut Random) -> Expected<Sharing> {
    (0..264)
        .map(|round| done(draw_fit(random, round)))
        .collect()
}

/// A random call that is fit; the round decides on side, layout and modulus.
pub fn draw_fit(random: &mut Random, round: u32) -> Sharing {
    let side = SIDES[round as usize % 2];
    let (modulus, number) = turn(round / 2);
    let most = if modulus == 1 { 12 } else { 40 };
    let mut line = draw_in_layout(random, number, |needed| needed <= most);
    let needed = choose(&Job::of_line(&line)).needed;
    line[0] = modulus;
    line[1..4]
        .iter_mut()
        .for_each(|size| *size *= random.within(1, 3));
    line[9] = random.within(needed, most.min(needed + 4));
    let host = random.within(1, line[9]);
    let mut call = drawn(random, side, line, host);
    call.points = distinct_points(random, line[9], known_prime(line[0]));
    call
}

/// All cases whose outcome is only computed: fit calls with a number of the job, or the host,
/// changed a little.
pub fn computed(random: &mut Random) -> Vec<Sharing> {
    (0..80)
        .map(|round| {
            let mut call = draw_fit(random, round);
            let line = nudged(random, call.job.line());
            call.job = Job::of(&line, call.job.window());
            call.host = random.within(call.host - 1, call.host + 1);
            call
        })
        .collect()
}
