//! Lister cases about the choice of a layout (02, U2), most of them with as many hosts as are needed
//! and with one fewer.
//!
//!   expected  all of them

use std::collections::BTreeMap;

use super::plans::{at_threshold, Expected};
use crate::cases::draw::draw_cut;
use crate::sheet::plan::{choose, thresholds, Job};
use crate::sheet::plan_check::{all_cuts, cut, TABLE_IV};
use crate::sheet::random::Random;

/// All cases.
pub fn expected(random: &mut Random) -> Vec<Expected> {
    let cuts = in_layout_3();
    let groups = [
        told(),
        table_iv(),
        borders(),
        equal_groups(&cuts),
        unequal_groups(&cuts),
        ties_and_margins(random),
    ];
    groups.concat()
}

/// The cases of 02, U2, and of its ties: layouts 2 and 3, and all three. The smallest K of layout 3 is
/// 13, too many for q = 13.
fn told() -> Vec<Expected> {
    vec![
        ([2, 4, 4, 4, 2, 2, 2, 5, 5, 24], 8),
        ([2, 4, 4, 4, 2, 2, 2, 5, 5, 25], 0),
        ([2, 4, 4, 4, 2, 2, 2, 5, 5, 26], 0),
        ([3, 3, 1, 2, 3, 1, 2, 3, 3, 16], 8),
        ([3, 3, 1, 2, 3, 1, 2, 3, 3, 17], 0),
        ([2, 2, 2, 2, 2, 2, 2, 4, 4, 22], 8),
        ([2, 2, 2, 2, 2, 2, 2, 4, 4, 23], 0),
        ([1, 2, 1, 2, 2, 1, 2, 3, 3, 12], 8),
        ([1, 2, 1, 2, 2, 1, 2, 3, 3, 13], 7),
        ([2, 2, 1, 2, 2, 1, 2, 3, 3, 12], 8),
        ([2, 2, 1, 2, 2, 1, 2, 3, 3, 13], 0),
    ]
}

/// The rows of document 004, table IV.
fn table_iv() -> Vec<Expected> {
    let cuts = TABLE_IV.map(|[p, m, n, x, _]| cut(m, p, n, x, x));
    cuts.iter()
        .flat_map(|job| at_threshold(job.line()))
        .collect()
}

/// Around the place where layout 3 begins to win, wherever 64 hosts are enough: with X_A = mp and
/// X_B = np all three tie, with one of them larger by 1 layout 3 ties with one other, and with both
/// larger by 1 it wins.
fn borders() -> Vec<Expected> {
    let cuts = all_cuts().filter(|job| {
        let [a, b] = [job.m * job.p, job.n * job.p];
        let near = [a, a + 1].contains(&job.x_a) && [b, b + 1].contains(&job.x_b);
        near && job.m > 1 && job.n > 1 && choose(job).needed <= 64
    });
    cuts.flat_map(|job| at_threshold(job.line())).collect()
}

/// The cuts in layout 3 for which 64 hosts are enough.
fn in_layout_3() -> Vec<Job> {
    let cuts = all_cuts().filter(|job| {
        let layout = choose(job);
        layout.number == 3 && layout.needed <= 64
    });
    cuts.collect()
}

/// A cut with as many hosts as it needs.
fn accepted(job: &Job) -> Expected {
    at_threshold(job.line())[0]
}

/// All cuts in layout 3 with groups of one size.
fn equal_groups(cuts: &[Job]) -> Vec<Expected> {
    let cuts = cuts.iter().filter(|job| job.x_a == job.x_b);
    cuts.map(accepted).collect()
}

/// For each m, p, n the cuts in layout 3 in which X_A is above X_B by the most, and below it.
fn unequal_groups(cuts: &[Job]) -> Vec<Expected> {
    let mut by_cut: BTreeMap<[u32; 3], Vec<&Job>> = BTreeMap::new();
    for job in cuts {
        by_cut.entry([job.m, job.p, job.n]).or_default().push(job);
    }
    let lead = |job: &&&Job| i64::from(job.x_a) - i64::from(job.x_b);
    let ends = |jobs: &Vec<&Job>| {
        let [most, least] = [jobs.iter().max_by_key(lead), jobs.iter().min_by_key(lead)];
        [most, least].map(|job| accepted(job.expect("a cut")))
    };
    by_cut.values().flat_map(ends).collect()
}

/// How the three thresholds can stand: the ties, and each layout better than both others by just 1.
const RELATIONS: [fn([u32; 3]) -> bool; 8] = [
    |[one, two, three]| one == three && one < two,
    |[one, two, three]| two == three && two < one,
    |[one, two, three]| one == two && two == three,
    |[one, two, three]| one == two && one < three,
    |[one, two, three]| one == two && three < one,
    |[one, two, three]| one + 1 == two.min(three),
    |[one, two, three]| two + 1 == one.min(three),
    |[one, two, three]| three + 1 == one.min(two),
];

/// Random cuts with each tie and each margin of 1, for which 64 hosts are enough.
fn ties_and_margins(random: &mut Random) -> Vec<Expected> {
    let mut cases = Vec::new();
    for relation in RELATIONS {
        for _ in 0..7 {
            let line = draw_cut(random, |job| {
                let needed = thresholds(job);
                relation(needed) && needed.iter().any(|&needed| needed <= 64)
            });
            cases.extend(at_threshold(line));
        }
    }
    cases
}
