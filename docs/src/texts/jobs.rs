//! Texts of jobs that are carried out: all moduli, all layouts, sizes at the program's limits, and
//! answers in any order, some of them late, repeated, outside the window or from hosts that the job has
//! not.
//!
//!   IN_EACH_LAYOUT  a plan in each layout
//!   jobs            all of them
//!   drawn           a job with random contents

use super::job_text::{Answer, JobText};
use crate::cases::draw::turns;
use crate::cases::folder::Case;
use crate::jobs::faults::SMALL;
use crate::jobs::stories::{draw_points, small_line};
use crate::sheet::plan::{choose, known_prime, primes, Job, Line, Window};
use crate::sheet::random::Random;
use crate::sheet::whole_job::Contents;

/// A plan in each layout, layout 1 first: K is 9, 24 and 37.
pub const IN_EACH_LAYOUT: [Line; 3] = [
    SMALL,
    [3, 4, 3, 2, 2, 3, 2, 2, 3, 25],
    [3, 3, 4, 4, 3, 2, 2, 7, 7, 38],
];

/// All texts of jobs that are carried out.
pub fn jobs(random: &mut Random) -> Vec<Case> {
    let groups = [
        checked_by_hand(),
        signed_ends(),
        small_jobs(random),
        large_groups(random),
        fillings(random),
        orders(random),
        large_blocks(random),
    ];
    groups.concat()
}

/// The sheet's smallest job with some answers, and all that is printed for it, as told by hand.
const BY_HAND: &str = "JOB 1 1 1 1 1 1 1 1 1 3 7 2 9\nPOINTS 1 2 3\nA 5\nB 4\n\
    MASKS_A 7\nMASKS_B 9\nANSWERS 2 1 2 8 2 2 2 9 0 9 4 2 3 2 1 0 1 5 1 9\n";
const BY_HAND_DUE: &str = "MODULUS 13\nLAYOUT 1\nHOSTS 3\nNEEDED 3\nA 0 | 1\nB 0 | 1\nC 0\n\
    host 2 refused 30\nhost 2 taken, heard 1\nhost 2 already in, heard 1\nhost 2 refused 30\n\
    host 0 refused 12\nhost 4 refused 12\nhost 3 taken, heard 2\nhost 1 refused 30\n\
    host 1 taken, heard 3\nhost 1 late, heard 3\nHEARD 1 2 3\n\
    TABLE\n7\nSIGNED READING\n-6\nPAGE\n               1\n    1          7\n";

/// The sheet's smallest job: as told by hand, in all orders, and with too few answers.
fn checked_by_hand() -> Vec<Case> {
    let order = [2, 1, 2, 8, 2, 2, 2, 9, 0, 9, 4, 2, 3, 2, 1, 0, 1, 5, 1, 9];
    let by_hand = JobText {
        order: order.chunks(2).map(|pair| [pair[0], pair[1]]).collect(),
        ..JobText::by_hand()
    };
    assert_eq!(by_hand.case(), (BY_HAND.into(), BY_HAND_DUE.into()));
    let orders: [&[u32]; 16] = [
        &[2, 2, 0, 4, 3, 1, 1],
        &[1, 2, 3],
        &[1, 3, 2],
        &[2, 1, 3],
        &[2, 3, 1],
        &[3, 1, 2],
        &[3, 2, 1],
        &[],
        &[2],
        &[1, 3],
        &[3, 2],
        &[1, 1, 1],
        &[3, 2, 3, 2, 3, 2],
        &[0, 4, u32::MAX],
        &[3, 2, 1, 0, 4, u32::MAX],
        &[1, 0, 0, 2, 64, 65, 3],
    ];
    let cases = orders.map(|hosts| by_hand.answered(hosts).case());
    [&[by_hand.case()], &cases[..]].concat()
}

/// A table of 0, (q - 1)/2, (q + 1)/2 and q - 1, in a column and in a row.
fn signed_ends() -> Vec<Case> {
    let mut cases = Vec::new();
    for (modulus, q) in primes() {
        let half = (q - 1) / 2;
        for upright in [true, false] {
            let long = Contents {
                matrix: vec![0, half, half + 1, q - 1],
                masks: vec![1, q - 1, half, 0],
            };
            let short = Contents {
                matrix: vec![1],
                masks: vec![half],
            };
            let [t, r] = if upright { [4, 1] } else { [1, 4] };
            let job = JobText {
                line: [modulus, t, 1, r, 1, 1, 1, 1, 1, 3],
                sides: if upright {
                    [long, short]
                } else {
                    [short, long]
                },
                ..JobText::by_hand()
            };
            let gap = if upright { "\n" } else { "\t" };
            let signed = format!("0{gap}{half}{gap}-{half}{gap}-1\n");
            let signed = format!("\nSIGNED READING\n{signed}PAGE\n");
            assert!(job.due().contains(&signed));
            cases.push(job.case());
        }
    }
    cases
}

/// Jobs with few hosts, the moduli and the layouts in turn, every other text strewn; in each
/// fifth the order is cut short.
fn small_jobs(random: &mut Random) -> Vec<Case> {
    let mut cases = Vec::new();
    for round in 0..220 {
        let line = small_line(random, round);
        let cycle = round / turns();
        let mut job = drawn(random, line, cycle);
        job.order = disturbed(random, line[9], job.window);
        if round % 5 == 3 {
            job.order.truncate(random.index(job.order.len()));
        }
        let text = match cycle % 2 {
            0 => job.text(),
            _ => job.strewn_text(random),
        };
        cases.push((text, job.due()));
    }
    cases
}

/// A job with random matrices and masks, and points of some kind.
pub fn drawn(random: &mut Random, line: Line, kind: u32) -> JobText {
    let points = draw_points(random, line, kind);
    let q = known_prime(line[0]);
    JobText::drawn(random, line, points, q)
}

/// All hosts in random order, inside the window; here and there one once more, one outside the
/// window, or a number that is no host's at any minute.
fn disturbed(random: &mut Random, hosts: u32, window: Window) -> Vec<Answer> {
    let mut order: Vec<Answer> = Vec::new();
    for host in random.order(hosts) {
        order.push([host, random.inside(window)]);
        let any = random.any_minute(window);
        match random.within(0, 11) {
            0 => order.push([0, any]),
            1 => order.push([hosts + 1, any]),
            2 => order.push([random.within(65, u32::MAX), any]),
            3..=5 => order.push(order[random.index(order.len())]),
            _ => {}
        }
        if random.clock().within(0, 4) == 0 {
            let other = random.clock().within(1, hosts);
            order.push([other, random.outside(window)]);
        }
    }
    order
}

/// The sheet's example, document 000's worked example in layout 2, the case of 02, U2, in layout 3 and
/// others with X_A above X_B and below it, the largest groups kept ignorant, and jobs that need up to
/// 64 answers.
fn large_groups(random: &mut Random) -> Vec<Case> {
    let lines = [
        [2, 4, 4, 4, 2, 2, 2, 2, 2, 20],
        [3, 2, 2, 8, 1, 2, 8, 1, 1, 27],
        [3, 4, 3, 2, 2, 3, 2, 2, 3, 25],
        [2, 2, 3, 1, 1, 1, 1, 16, 16, 40],
        [3, 3, 2, 2, 3, 2, 2, 7, 7, 38],
        [2, 2, 2, 3, 2, 2, 3, 2, 2, 63],
        [3, 1, 1, 2, 1, 1, 1, 1, 1, 64],
        [2, 8, 6, 1, 8, 6, 1, 1, 1, 64],
        [3, 14, 2, 21, 7, 1, 7, 1, 1, 63],
        [2, 14, 2, 21, 7, 1, 7, 1, 2, 64],
        [2, 4, 4, 4, 2, 2, 2, 5, 5, 25],
        [3, 2, 6, 4, 2, 2, 2, 7, 5, 29],
        [2, 4, 4, 6, 2, 2, 2, 5, 6, 28],
        [3, 4, 6, 4, 2, 3, 2, 7, 8, 38],
        [2, 2, 5, 4, 2, 5, 2, 14, 11, 64],
        [3, 2, 2, 5, 2, 2, 5, 11, 14, 64],
        [4, 4, 4, 4, 2, 2, 2, 2, 2, 20],
        [4, 2, 3, 1, 1, 1, 1, 16, 16, 40],
        [4, 2, 4, 8, 1, 2, 8, 1, 1, 27],
        [4, 6, 4, 4, 3, 2, 2, 7, 7, 38],
        [4, 14, 2, 21, 7, 1, 7, 1, 1, 63],
        [4, 2, 5, 4, 2, 5, 2, 14, 11, 64],
    ];
    let mut cases = Vec::new();
    for (kind, line) in (0..).zip(lines) {
        let mut job = drawn(random, line, kind);
        job.order = disturbed(random, line[9], job.window);
        cases.push(job.case());
    }
    cases
}

/// Matrices and masks each all 0 or all q - 1, for all moduli, with job numbers at the ends of
/// their range; every point of q = 13 is used.
fn fillings(random: &mut Random) -> Vec<Case> {
    let mut cases = Vec::new();
    for (modulus, q) in primes() {
        for (round, job_number) in (0..).zip([0, 1, 1 << 31, u32::MAX]) {
            let mut job = drawn(random, [modulus, 4, 2, 3, 2, 1, 1, 1, 2, 12], 3);
            let [element, mask] = [round / 2, round % 2].map(|way| way * (q - 1));
            for side in &mut job.sides {
                side.matrix.fill(element);
                side.masks.fill(mask);
            }
            cases.push(JobText { job_number, ..job }.case());
        }
    }
    cases
}

/// `SMALL`, which needs 9 of 10 hosts, with answers in certain orders.
fn orders(random: &mut Random) -> Vec<Case> {
    let job = drawn(random, SMALL, 3);
    assert_eq!(choose(&Job::of_line(&SMALL)).needed, 9);
    let rising = || 1..=10;
    let orders: Vec<Vec<u32>> = vec![
        rising().collect(),
        rising().rev().collect(),
        (1..=9).collect(),
        (2..=10).rev().collect(),
        (1..=8).collect(),
        (3..=10).chain(3..=10).collect(),
        rising().chain(rising()).collect(),
        rising().flat_map(|host| [host, host]).collect(),
        rising().flat_map(|host| [host, host + 10]).collect(),
        rising().flat_map(|host| [0, host, host + 64]).collect(),
        rising().map(|host| host * 7 % 11).collect(),
        rising().chain([0, 11, 64, 65, u32::MAX]).collect(),
        vec![10; 12],
        vec![11, 64, 65, 255, 256, 257, 65537, 1 << 31, u32::MAX],
    ];
    let cases = orders.iter().map(|hosts| job.answered(hosts).case());
    cases.collect()
}

/// Jobs with as many elements as the program has room for: answers, A blocks, B blocks or all of them
/// 32,768 for all hosts, or one fewer; the longest column, row and inner side that a text has room
/// for. Where it says so, elements and masks have one digit. The window is short, and the first host
/// answers twice.
fn large_blocks(random: &mut Random) -> Vec<Case> {
    let lines = [
        ([1, 64, 1, 64, 1, 1, 1, 1, 1, 8], false),
        ([3, 64, 1, 64, 1, 1, 1, 1, 1, 8], false),
        ([3, 64, 64, 1, 1, 1, 1, 1, 1, 8], false),
        ([2, 1, 64, 64, 1, 1, 1, 1, 1, 8], false),
        ([1, 64, 64, 64, 1, 1, 1, 1, 1, 8], false),
        ([2, 64, 64, 64, 1, 1, 1, 1, 1, 8], false),
        ([3, 64, 64, 64, 1, 1, 1, 1, 1, 8], true),
        ([2, 7, 1, 151, 1, 1, 1, 1, 1, 31], false),
        ([3, 16, 2, 32, 1, 1, 1, 1, 1, 64], false),
        ([3, 56, 2, 56, 7, 1, 7, 1, 1, 64], false),
        ([2, 64, 2, 64, 2, 2, 2, 5, 6, 32], false),
        ([2, 15416, 1, 1, 8, 1, 1, 1, 1, 17], false),
        ([2, 1, 1, 15416, 1, 1, 8, 1, 1, 17], false),
        ([2, 1, 8000, 1, 1, 8, 1, 1, 1, 17], false),
        ([3, 1, 14464, 1, 1, 8, 1, 1, 1, 17], true),
        ([4, 64, 1, 32, 1, 1, 1, 1, 1, 16], false),
        ([4, 32, 32, 32, 1, 1, 1, 1, 1, 32], false),
        ([4, 64, 64, 64, 1, 1, 1, 1, 1, 8], true),
        ([4, 1, 14464, 1, 1, 8, 1, 1, 1, 17], true),
    ];
    let mut cases = Vec::new();
    for (line, one_digit) in lines {
        let points = draw_points(random, line, 3);
        let q = known_prime(line[0]);
        let below = if one_digit { 10 } else { q };
        let mut job = JobText::drawn(random, line, points, below);
        job.window = [2, 9];
        let mut hosts: Vec<u32> = job.order.iter().map(|answer| answer[0]).collect();
        hosts.insert(1, hosts[0]);
        cases.push(job.answered(&hosts).case());
    }
    cases
}
