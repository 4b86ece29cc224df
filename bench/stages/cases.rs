//! What is timed: every stage at each modulus, and how the stages grow.

use crate::random::Random;
use crate::stage::Stage;
use crate::work::{Shape, Work};

/// A job of a modulus number and a shape, whose blocks have these rows, inner sizes and columns.
#[derive(Clone, Copy)]
pub struct Case {
    pub modulus: u32,
    pub shape: Shape,
    pub block: [u32; 3],
}

/// A stage of some jobs of one modulus.
pub struct Row {
    pub stage: Stage,
    pub cases: Vec<Case>,
}

/// A table: what its columns are, and its rows, with a case for each column.
pub struct Table {
    pub title: &'static str,
    pub columns: Vec<String>,
    pub rows: Vec<Row>,
}

/// All stages, as they come in a job, and a whole job.
const STAGES: [Stage; 10] = [
    Stage::Plan,
    Stage::Share,
    Stage::Product,
    Stage::Answer,
    Stage::Write,
    Stage::Read,
    Stage::Arrival,
    Stage::Repeated,
    Stage::Decoding,
    Stage::Whole,
];

/// A shape with groups of one size.
fn shape(cuts: [u32; 3], group: u32, hosts: u32) -> Shape {
    let groups = [group; 2];
    Shape {
        cuts,
        groups,
        hosts,
    }
}

/// How many answers a job of a shape needs.
fn needed(shape: Shape) -> usize {
    let work = Work::new(&mut Random::new(1), 2, shape, [1; 3]);
    work.expect("the job is planned").answering.len()
}

/// Every stage of a 64 by 64 job: 20 hosts and 17 needed. With 13 there are at most 12 hosts, so there
/// the matrices are cut so that 11 are needed.
pub fn every_stage() -> Vec<Row> {
    let mut rows = Vec::new();
    for stage in STAGES {
        for modulus in 1..=4 {
            let (shape, inner) = match modulus {
                1 => (shape([2, 1, 2], 2, 12), 64),
                _ => (shape([2, 2, 2], 2, 20), 32),
            };
            let inner = match stage {
                Stage::Product => 32,
                _ => inner,
            };
            let case = Case {
                modulus,
                shape,
                block: [32, inner, 32],
            };
            rows.push(Row {
                stage,
                cases: vec![case],
            });
        }
    }
    rows
}

/// Every stage of a 64 by 64 job in layout 3: groups of 5, 28 hosts and 25 needed.
pub fn every_stage_in_layout_3() -> Vec<Row> {
    let shape = shape([2, 2, 2], 5, 28);
    assert_eq!(needed(shape), 25);
    rows(&STAGES, &[(shape, 32)])
}

/// The tables of how the stages grow.
pub fn growth() -> Vec<Table> {
    vec![by_block(), by_cuts(), by_needed(), by_hosts()]
}

/// Rows of some stages modulo 257, 65537 and 2147483647, over some jobs.
fn rows(stages: &[Stage], jobs: &[(Shape, u32)]) -> Vec<Row> {
    let mut rows = Vec::new();
    for &stage in stages {
        for modulus in [2, 3, 4] {
            let case = |&(shape, side)| Case {
                modulus,
                shape,
                block: [side; 3],
            };
            let cases = jobs.iter().map(case).collect();
            rows.push(Row { stage, cases });
        }
    }
    rows
}

/// Stages over growing blocks.
fn by_block() -> Table {
    let stages = [
        Stage::Share,
        Stage::Product,
        Stage::Answer,
        Stage::Arrival,
        Stage::Repeated,
        Stage::Decoding,
        Stage::Whole,
    ];
    let sides = [8, 16, 32, 64];
    Table {
        title: "By the side of a block: m, p, n 2, groups of 2, 20 hosts",
        columns: sides.map(|side| side.to_string()).to_vec(),
        rows: rows(&stages, &sides.map(|side| (shape([2, 2, 2], 2, 20), side))),
    }
}

/// Stages over the number of blocks.
fn by_cuts() -> Table {
    let cuts = [[1, 1, 1], [2, 1, 1], [2, 1, 2], [2, 2, 2], [3, 2, 2]];
    Table {
        title: "By m·p·n: blocks of 32 by 32, groups of 2, 24 hosts",
        columns: cuts.map(|[m, p, n]| format!("{m}·{p}·{n}")).to_vec(),
        rows: rows(
            &[Stage::Share, Stage::Decoding],
            &cuts.map(|cuts| (shape(cuts, 2, 24), 32)),
        ),
    }
}

/// Decoding over K: the groups grow from 1 to 8. Groups from 5 on have layout 3.
fn by_needed() -> Table {
    let shapes = [1, 2, 3, 4, 5, 6, 7, 8].map(|group| shape([2, 2, 2], group, 40));
    Table {
        title: "By K: blocks of 16 by 16, m, p, n 2, groups of 1 to 8, 40 hosts",
        columns: shapes.map(|shape| needed(shape).to_string()).to_vec(),
        rows: rows(&[Stage::Decoding], &shapes.map(|shape| (shape, 16))),
    }
}

/// Planning over N.
fn by_hosts() -> Table {
    let hosts = [10, 20, 40, 64];
    Table {
        title: "By N: blocks of 16 by 16, m, p, n 1, groups of 1",
        columns: hosts.map(|hosts| hosts.to_string()).to_vec(),
        rows: rows(
            &[Stage::Plan],
            &hosts.map(|hosts| (shape([1, 1, 1], 1, hosts), 16)),
        ),
    }
}
