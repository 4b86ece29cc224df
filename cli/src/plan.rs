//! mukerihe plan JOB: what a job needs.
//!
//!   run            the command
//!   message_bytes  how many bytes a message has
//!   plan_line      the layout and how many answers suffice, in a line

use crate::arguments::{self, Usage};
use crate::fault::Done;
use crate::job::{self, Job, Plan};
use crate::primes;
use crate::text::{joined, shown};
use crate::told::Told;
use std::ffi::OsString;
use std::path::Path;

/// How it is used.
const USAGE: Usage = Usage {
    text: "mukerihe plan JOB",
    flags: &[],
    valued: &[],
};

/// How many bytes a message has, with a block of so many rows and columns.
pub fn message_bytes(rows: u32, columns: u32) -> usize {
    let elements = job::count([rows, columns]);
    elements.saturating_mul(4).saturating_add(16)
}

/// The layout and how many answers suffice, in a line.
pub fn plan_line(job: &Job, plan: &Plan) -> String {
    let (layout, needed, hosts) = (plan.layout, plan.needed, job.hosts);
    format!("layout {layout}: any {needed} of {hosts} answers suffice")
}

/// What a job is.
fn job_lines(job: &Job) -> [String; 4] {
    let [t, s, r] = job.sizes;
    let [m, p, n] = job.cuts;
    let prime = primes::prime_of(job.modulus).unwrap_or_default();
    [
        format!("prime {prime} (modulus number {})", job.modulus),
        format!("A is {t} by {s}, B is {s} by {r}, the table is {t} by {r}"),
        format!("A is cut into {m} by {p} blocks, B into {p} by {n}"),
        format!("points {}", joined(&job.points)),
    ]
}

/// What a job needs.
fn need_lines(job: &Job, plan: &Plan) -> [String; 4] {
    let (rows, inner, columns) = (plan.rows, plan.inner, plan.columns);
    let a_bytes = message_bytes(rows, inner);
    let b_bytes = message_bytes(inner, columns);
    let answer_bytes = message_bytes(rows, columns);
    let prime = primes::prime_of(job.modulus).unwrap_or_default();
    let (most, half) = (primes::whole(prime, false), primes::whole(prime, true));
    [
        plan_line(job, plan),
        format!("blocks: A {rows} by {inner}, B {inner} by {columns}, answer {rows} by {columns}"),
        format!("each host gets {a_bytes} + {b_bytes} bytes and sends back {answer_bytes}"),
        format!("entries up to {most} come back whole; with --signed from -{half} to {half}"),
    ]
}

/// What a job keeps secret, and its window.
fn promise_lines(job: &Job) -> [String; 3] {
    let [xa, xb] = job.groups;
    let both = xa.min(xb);
    let window = match job.window {
        None => "no window".to_string(),
        Some([opening, closing]) => {
            let last = closing.saturating_sub(1);
            format!("answers are taken from minute {opening} to {last}")
        }
    };
    [
        format!("groups of up to {xa} hosts learn nothing of A, of up to {xb} nothing of B"),
        format!(
            "neither table is shown to groups of up to {both} (it matters where B is A transposed)"
        ),
        window,
    ]
}

/// Tells what a job needs.
pub fn run(arguments: Vec<OsString>) -> Done<()> {
    let [path] = arguments::exactly(arguments::operands(arguments, &USAGE)?, &USAGE)?;
    let path = Path::new(&path);
    let job = job::read(path)?.job;
    let plan = job.plan(&shown(path))?;
    let mut told = Told::default();
    job_lines(&job).iter().for_each(|line| told.line(line));
    need_lines(&job, &plan)
        .iter()
        .for_each(|line| told.line(line));
    promise_lines(&job).iter().for_each(|line| told.line(line));
    told.send()
}
