//! Cases over the largest prime (02, U4): tables from each number of answers with nothing but q - 1, and
//! depth jobs, whose sums of products are below q or just above it.
//!
//!   expected  decodings by themselves
//!   told      stories of whole jobs
//!   masked    matrices with random masks

use std::collections::BTreeMap;

use super::stories::draw_points;
use super::story::Story;
use crate::calls::depths::edge_points;
use crate::cases::faults::Expected;
use crate::sheet::decode::decode;
use crate::sheet::job_call::{Act, JobCall};
use crate::sheet::plan::{choose, known_prime, Job, Line, Window};
use crate::sheet::plan_check::all_cuts;
use crate::sheet::random::Random;
use crate::sheet::share::{Shape, Side};
use crate::sheet::whole_job::{exact, Contents, WholeJob};

/// For each K from 3 to 64 decodings of a job that needs K answers, with points at both ends of the
/// field and with a run of points up to q - 1.
pub fn expected(random: &mut Random) -> Expected<JobCall> {
    let mut calls = Vec::new();
    for line in each_threshold(random) {
        let q = known_prime(line[0]);
        let at_ends = edge_points(random, line[9], q);
        for points in [at_ends, draw_points(random, line, 1)] {
            let window = random.window();
            calls.extend(all_largest(line, window, points, q).map(|call| (call, 0)));
        }
    }
    calls
}

/// For each K from 3 to 64 a job over the largest prime with K hosts that needs all of them, the layouts
/// in turn where they go with K; every block holds one element.
fn each_threshold(random: &mut Random) -> Vec<Line> {
    let mut cuts: BTreeMap<(u32, u32), Vec<Job>> = BTreeMap::new();
    for job in all_cuts() {
        let layout = choose(&job);
        let key = (layout.needed, layout.number);
        cuts.entry(key).or_default().push(job);
    }
    let line = |needed: u32| {
        let by_layout = (1..=3).filter_map(|number| cuts.get(&(needed, number)));
        let fit: Vec<&Vec<Job>> = by_layout.collect();
        let jobs = fit[needed as usize % fit.len()];
        let mut line = jobs[random.index(jobs.len())].line();
        (line[0], line[9]) = (4, needed);
        line
    };
    (3..=64).map(line).collect()
}

/// Decodings of a job with all hosts heard: of the true products of matrices and masks that are nothing
/// but q - 1, so that the table is nothing but s, and of answers that are nothing but q - 1.
fn all_largest(line: Line, window: Window, points: Vec<u32>, q: u32) -> [JobCall; 2] {
    let job = Job::of(&line, window);
    let sides = [Side::A, Side::B].map(|side| {
        let shape = Shape::of(side, &job);
        Contents {
            matrix: vec![q - 1; shape.matrix_length()],
            masks: vec![q - 1; shape.masks_length()],
        }
    });
    let whole = WholeJob::of(job, u32::MAX, points, sides);
    let mut call = whole.call(Act::Decode);
    call.heard = u64::MAX >> (64 - line[9]);
    call.store = whole.products.concat();
    assert_eq!(decode(&call), Ok(vec![job.s; whole.table.len()]));
    let store = vec![q - 1; call.store.len()];
    [call.clone(), JobCall { store, ..call }]
}

/// Stories of depth jobs.
pub fn told(random: &mut Random) -> Vec<JobCall> {
    [equal_counts(random), random_counts(random)].concat()
}

/// An element all over A and one all over B, and the sum of 16384 of their products mod q. The first and
/// the third are the largest sums of counts up to 362, and of counts up to 65535 and up to 2.
const SUMS: [(u32, u32, u32); 5] = [
    (362, 362, 2147024896),
    (363, 363, 11419649),
    (65535, 2, 2147450880),
    (2, 65536, 1),
    (2147483646, 2147483646, 16384),
];

/// Sums of 16384 equal products.
fn equal_counts(random: &mut Random) -> Vec<JobCall> {
    let line = [4, 1, 16384, 1, 1, 4, 1, 1, 1, 10];
    let mut calls = Vec::new();
    for (a, b, sum) in SUMS {
        let matrices = [a, b].map(|element| vec![element; 16384]);
        let sides = masked(random, line, matrices, 2147483647);
        let points = draw_points(random, line, 3);
        let job = Job::of(&line, random.window());
        let whole = WholeJob::of(job, random.word(), points, sides);
        assert_eq!(whole.table, [sum]);
        calls.extend(answered(random, &whole));
    }
    calls
}

/// Sums of 16384 products of random counts: up to 362, and up to 65535 and up to 2. The table is A
/// times B in whole numbers.
fn random_counts(random: &mut Random) -> Vec<JobCall> {
    let line = [4, 2, 16384, 2, 1, 8, 1, 1, 1, 18];
    let mut calls = Vec::new();
    for below in [[363, 363], [65536, 3], [3, 65536]] {
        let matrices = below.map(|below| random.elements(32768, below));
        let sides = masked(random, line, matrices, 2147483647);
        let job = Job::of(&line, random.window());
        let sums = exact(&job, &sides);
        let points = draw_points(random, line, 3);
        let whole = WholeJob::of(job, random.word(), points, sides);
        assert!(whole.table.iter().copied().map(u128::from).eq(sums));
        calls.extend(answered(random, &whole));
    }
    calls
}

/// The matrices A and B of a job with random masks below a number.
pub fn masked(
    random: &mut Random,
    line: Line,
    matrices: [Vec<u32>; 2],
    below: u32,
) -> [Contents; 2] {
    let job = Job::of_line(&line);
    let [a, b] = matrices;
    [(Side::A, a), (Side::B, b)].map(|(side, matrix)| {
        let masks = random.elements(Shape::of(side, &job).masks_length(), below);
        Contents { matrix, masks }
    })
}

/// The story of a job whose hosts all answer in random order; decoding is tried one answer before the
/// last that is needed, and at the end.
fn answered(random: &mut Random, whole: &WholeJob) -> Vec<JobCall> {
    let mut story = Story::begun(random, whole);
    for host in random.order(whole.job.hosts) {
        story.answers_truly(host);
        if story.arrived.len() + 1 == whole.needed {
            story.decodes();
        }
    }
    story.ends();
    story.calls
}
