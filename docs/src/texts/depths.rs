//! Texts of jobs with read depths, over the largest prime (02, U4).
//!
//!   depths  all of them

use super::job_text::JobText;
use super::jobs::{drawn, IN_EACH_LAYOUT};
use crate::cases::folder::Case;
use crate::jobs::depths::masked;
use crate::sheet::plan::{Job, Line};
use crate::sheet::random::Random;
use crate::sheet::whole_job::exact;

/// The largest prime.
const Q: u32 = 2147483647;

/// All texts of jobs with read depths.
pub fn depths(random: &mut Random) -> Vec<Case> {
    let groups = [
        borders(random),
        equal_counts(random),
        random_counts(random),
        near_largest(random),
    ];
    groups.concat()
}

/// A job with these matrices, and with masks below a number and points by chance.
fn of(random: &mut Random, line: Line, matrices: [Vec<u32>; 2], below: u32) -> JobText {
    JobText {
        sides: masked(random, line, matrices, below),
        ..drawn(random, line, 3)
    }
}

/// The case of a job whose table has these rows; panics where others are due.
fn told(job: &JobText, rows: &str) -> Case {
    let table = format!("\nTABLE\n{rows}\nSIGNED READING\n");
    assert!(job.due().contains(&table));
    job.case()
}

/// Sums of 5, 64 and 1024 products that are q - 2, q - 1, q and q + 1: all products but the last are
/// squares of a count. The table tells the four sums, modulo q, and beside each its last product.
fn borders(random: &mut Random) -> Vec<Case> {
    let lines = [
        ([4, 4, 5, 2, 2, 1, 2, 1, 1, 9], 23170),
        ([4, 4, 64, 2, 1, 4, 2, 1, 2, 17], 5838),
        ([4, 4, 1024, 2, 2, 8, 1, 1, 1, 30], 1448),
    ];
    let mut cases = Vec::new();
    for (line, count) in lines {
        let others = line[2] - 1;
        let last = [Q - 2, Q - 1, Q, Q + 1].map(|sum| sum - others * count * count);
        let a = last.map(|last| [vec![count; others as usize], vec![last]].concat());
        let b = [[count, 0].repeat(others as usize), vec![1, 1]];
        let job = of(random, line, [a.concat(), b.concat()], Q);
        let [u, v, w, x] = last;
        let rows = format!("2147483645\t{u}\n2147483646\t{v}\n0\t{w}\n1\t{x}");
        cases.push(told(&job, &rows));
    }
    cases
}

/// Sums of so many equal products, with masks below a number: nearly as many as a text has room for of
/// the counts 362, and of 65535 and 2; sums just below q and just above it; and sums of squares of q - 1,
/// each of which is 1 mod q.
fn equal_counts(random: &mut Random) -> Vec<Case> {
    let sums = [
        (7520, [362, 362], 10, 985450880),
        (7520, [65535, 2], 10, 985646400),
        (7520, [2, 65535], 10, 985646400),
        (4096, [724, 724], Q, 2147024896),
        (4096, [725, 725], Q, 5476353),
        (2048, [1024, 1024], Q, 1),
        (2048, [Q - 1, Q - 1], Q, 2048),
        (5, [Q - 1, Q - 1], Q, 5),
        (1, [Q - 1, Q - 1], Q, 1),
    ];
    let mut cases = Vec::new();
    for (s, counts, below, sum) in sums {
        let line = [4, 1, s, 1, 1, if s < 8 { 1 } else { 8 }, 1, 1, 1, 18];
        let matrices = counts.map(|count| vec![count; s as usize]);
        let job = of(random, line, matrices, below);
        cases.push(told(&job, &format!("{sum}")));
    }
    cases
}

/// Tables of random counts in each layout: counts up to 362, and up to 65535 and up to 2. The table is A
/// times B in whole numbers.
fn random_counts(random: &mut Random) -> Vec<Case> {
    let lines = [
        [4, 4, 400, 3, 2, 2, 3, 2, 2, 24],
        [4, 4, 300, 4, 2, 3, 2, 2, 3, 25],
        [4, 4, 300, 4, 2, 2, 2, 5, 5, 26],
    ];
    let mut cases = Vec::new();
    for line in lines {
        let [_, t, s, r, ..] = line;
        for [a, b] in [[363, 363], [65536, 3], [3, 65536]] {
            let lengths = [(t * s, a), (s * r, b)];
            let matrices = lengths.map(|(length, below)| random.elements(length as usize, below));
            let job = of(random, line, matrices, Q);
            let sums = exact(&Job::of_line(&line), &job.sides);
            let rows: Vec<String> = sums.chunks(r as usize).map(tabbed).collect();
            cases.push(told(&job, &rows.join("\n")));
        }
    }
    cases
}

/// Numbers with a tab between two.
fn tabbed(numbers: &[u128]) -> String {
    let words: Vec<String> = numbers.iter().map(u128::to_string).collect();
    words.join("\t")
}

/// A job in each layout with elements, masks and points near q - 1.
fn near_largest(random: &mut Random) -> Vec<Case> {
    let mut cases = Vec::new();
    for mut line in IN_EACH_LAYOUT {
        line[0] = 4;
        let mut job = drawn(random, line, 1);
        for side in &mut job.sides {
            let elements = side.matrix.iter_mut().chain(&mut side.masks);
            elements.for_each(|element| *element = random.within(Q - 9, Q - 1));
        }
        cases.push(job.case());
    }
    cases
}
