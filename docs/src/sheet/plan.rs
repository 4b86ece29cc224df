//! The plan of a job (01, "The job", "Exponents" and "What is turned down"; 02, U2, U4 and U7).
//!
//!   Line         a job's numbers as the lister reads them
//!   Window       an opening and a closing minute
//!   Job          the numbers that the plan's tests look at
//!   prime        the modulus q of a modulus number
//!   known_prime  the same where there is one for certain
//!   primes       the modulus numbers, each with its prime
//!   moduli       the modulus numbers
//!   refusal      the first of the numbers 1 to 11 and 29 that fits a job and its evaluation points
//!   Planning     a call that plans a job
//!   plan         what it gives, or the first refusal number that fits
//!   Layout       the exponents of blocks and masks, the places of C, the recovery threshold K
//!   layouts      the three layouts, by number
//!   thresholds   the recovery thresholds of the three
//!   choose       the layout that is used

use std::ops::RangeInclusive;

/// The ten numbers that the lister reads: modulus number, t, s, r, m, p, n, X_A, X_B, N.
pub type Line = [u32; 10];

/// An opening and a closing minute.
pub type Window = [u32; 2];

/// A job's public numbers, in the order in which the lister reads them, and its opening and closing
/// minute. The job number is kept apart: no test of a plan looks at it.
#[derive(Clone, Copy)]
pub struct Job {
    pub modulus: u32,
    pub t: u32,
    pub s: u32,
    pub r: u32,
    pub m: u32,
    pub p: u32,
    pub n: u32,
    pub x_a: u32,
    pub x_b: u32,
    pub hosts: u32,
    pub opening: u32,
    pub closing: u32,
}

impl Job {
    /// The job whose numbers stand in a line of ten. The lister knows no window, so it is one that no
    /// test of a plan sees: the first minute.
    pub fn of_line(line: &Line) -> Job {
        Job::of(line, [0, 1])
    }

    /// The job whose numbers stand in a line of ten, with a window.
    pub fn of(line: &Line, [opening, closing]: Window) -> Job {
        let [modulus, t, s, r, m, p, n, x_a, x_b, hosts] = *line;
        Job {
            modulus,
            t,
            s,
            r,
            m,
            p,
            n,
            x_a,
            x_b,
            hosts,
            opening,
            closing,
        }
    }

    /// The job's numbers as a line of ten, without its window.
    pub fn line(&self) -> Line {
        let Job {
            modulus,
            t,
            s,
            r,
            m,
            p,
            n,
            x_a,
            x_b,
            hosts,
            ..
        } = *self;
        [modulus, t, s, r, m, p, n, x_a, x_b, hosts]
    }

    /// The job's window.
    pub fn window(&self) -> Window {
        [self.opening, self.closing]
    }

    /// The thirteen numbers of the job with this job number: the line of ten, the job number, the
    /// window.
    pub fn numbers(&self, job_number: u32) -> Vec<u32> {
        [&self.line()[..], &[job_number], &self.window()].concat()
    }
}

/// The prime q that a modulus number stands for; there is none for any other number. This is the one
/// table of them.
pub fn prime(modulus: u32) -> Option<u32> {
    match modulus {
        1 => Some(13),
        2 => Some(257),
        3 => Some(65537),
        4 => Some(2147483647),
        _ => None,
    }
}

/// The prime of a modulus number; panics where there is none.
pub fn known_prime(modulus: u32) -> u32 {
    prime(modulus).expect("a modulus number")
}

/// The modulus numbers, each with its prime.
pub fn primes() -> impl Iterator<Item = (u32, u32)> {
    (1..).map_while(|modulus| Some((modulus, prime(modulus)?)))
}

/// The modulus numbers: from 1 to as many as there are.
pub fn moduli() -> RangeInclusive<u32> {
    1..=primes().count() as u32
}

/// The first refusal number that fits the plan, in the sheet's order; none if it is accepted.
pub fn refusal(job: &Job, points: &[u32]) -> Option<u32> {
    number_refusal(job).or_else(|| point_refusal(job, points))
}

/// The tests 1 to 8 and then 29, on the numbers alone.
fn number_refusal(job: &Job) -> Option<u32> {
    let Some(q) = prime(job.modulus) else {
        return Some(1);
    };
    if !all_within(&[job.t, job.s, job.r], 1, 16384) {
        return Some(2);
    }
    if !all_within(&[job.m, job.p, job.n], 1, 8) {
        return Some(3);
    }
    if !all_within(&[job.x_a, job.x_b], 1, 16) {
        return Some(4);
    }
    if job.t % job.m != 0 || job.s % job.p != 0 || job.r % job.n != 0 {
        return Some(5);
    }
    if block_sizes(job).iter().any(|&size| size > 4096) {
        return Some(6);
    }
    if !all_within(&[job.hosts], 1, 64) || job.hosts > q - 1 {
        return Some(7);
    }
    if choose(job).needed > job.hosts {
        return Some(8);
    }
    if job.closing <= job.opening {
        return Some(29);
    }
    None
}

/// The tests 9 to 11, on the evaluation points of a job that passed those on its numbers. Test 9 is
/// on the whole list; 10 and 11 go point by point, so the first bad point decides.
fn point_refusal(job: &Job, points: &[u32]) -> Option<u32> {
    let q = prime(job.modulus)?;
    if points.len() != job.hosts as usize {
        return Some(9);
    }
    for (i, point) in points.iter().enumerate() {
        if *point == 0 || *point >= q {
            return Some(10);
        }
        if points[..i].contains(point) {
            return Some(11);
        }
    }
    None
}

/// A call that plans a job.
#[derive(Clone)]
pub struct Planning {
    pub job: Job,
    pub job_number: u32,
    pub points: Vec<u32>,
}

/// The number of the layout that is used, its K, and the rows, inner side and columns of the blocks;
/// or the first refusal number that fits.
pub fn plan(call: &Planning) -> Result<[u32; 5], u32> {
    let job = &call.job;
    if let Some(number) = refusal(job, &call.points) {
        return Err(number);
    }
    let (layout, [rows, inner, columns]) = (choose(job), block_sides(job));
    Ok([layout.number, layout.needed, rows, inner, columns])
}

/// Whether each number lies in low..high, both included.
pub fn all_within(numbers: &[u32], low: u32, high: u32) -> bool {
    numbers.iter().all(|number| (low..=high).contains(number))
}

/// The rows of A blocks, their columns, which are the rows of B blocks, and the columns of B blocks.
fn block_sides(job: &Job) -> [u32; 3] {
    [job.t / job.m, job.s / job.p, job.r / job.n]
}

/// How many elements an A block, a B block and an answer block hold.
fn block_sizes(job: &Job) -> [u32; 3] {
    let [rows, inner, columns] = block_sides(job);
    [rows * inner, inner * columns, rows * columns]
}

/// A layout: exponents row by row, places of the table blocks row by row, and the recovery
/// threshold K.
pub struct Layout {
    pub number: u32,
    pub a_blocks: Vec<u32>,
    pub a_masks: Vec<u32>,
    pub b_blocks: Vec<u32>,
    pub b_masks: Vec<u32>,
    pub places: Vec<u32>,
    pub needed: u32,
}

/// Layout 1: document 000, equations 16 (A), 17 (B), 18 (the degree K - 1) and 20 (places of C).
fn layout_one(job: &Job) -> Layout {
    let Job {
        m, p, n, x_a, x_b, ..
    } = *job;
    let d = n * p + x_b;
    Layout {
        number: 1,
        a_blocks: grid(m, p, |k, l| (k - 1) * d + l - 1),
        a_masks: series(x_a, |x| (m - 1) * d + n * p + x - 1),
        b_blocks: grid(p, n, |l, j| (j - 1) * p + p - l),
        b_masks: series(x_b, |x| n * p + x - 1),
        places: grid(m, n, |k, j| (k - 1) * d + j * p - 1),
        needed: (m + 1) * d + x_a - x_b - 1,
    }
}

/// Layout 2: document 000, equations 21 (A) and 22 (B) and the threshold given below them; the
/// places of C are the sheet's.
fn layout_two(job: &Job) -> Layout {
    let Job {
        m, p, n, x_a, x_b, ..
    } = *job;
    let e = m * p + x_a;
    Layout {
        number: 2,
        a_blocks: grid(m, p, |k, l| (k - 1) * p + l - 1),
        a_masks: series(x_a, |x| m * p + x - 1),
        b_blocks: grid(p, n, |l, j| (j - 1) * e + p - l),
        b_masks: series(x_b, |x| (n - 1) * e + m * p + x - 1),
        places: grid(m, n, |k, j| (j - 1) * e + k * p - 1),
        needed: (n + 1) * e + x_b - x_a - 1,
    }
}

/// Layout 3: 02, U2. Document 001, corollary 1, has its threshold for groups of one size, and lemma
/// 2 there the exponents.
fn layout_three(job: &Job) -> Layout {
    let Job {
        m, p, n, x_a, x_b, ..
    } = *job;
    Layout {
        number: 3,
        a_blocks: grid(m, p, |k, l| (k - 1) * n * p + l - 1),
        a_masks: series(x_a, |x| m * p * n + x - 1),
        b_blocks: grid(p, n, |l, j| (j - 1) * p + p - l),
        b_masks: series(x_b, |x| m * p * n + x - 1),
        places: grid(m, n, |k, j| (k - 1) * n * p + j * p - 1),
        needed: 2 * m * p * n + x_a + x_b - 1,
    }
}

/// The three layouts, by number.
pub fn layouts(job: &Job) -> [Layout; 3] {
    [layout_one(job), layout_two(job), layout_three(job)]
}

/// The recovery thresholds of the three layouts, by number.
pub fn thresholds(job: &Job) -> [u32; 3] {
    layouts(job).map(|layout| layout.needed)
}

/// The layout with the smallest recovery threshold, at a tie the lowest number.
pub fn choose(job: &Job) -> Layout {
    let [mut chosen, two, three] = layouts(job);
    for other in [two, three] {
        if other.needed < chosen.needed {
            chosen = other;
        }
    }
    chosen
}

/// The values of a formula over a grid of blocks, row by row, both indices from 1.
fn grid(rows: u32, columns: u32, formula: impl Fn(u32, u32) -> u32) -> Vec<u32> {
    let cells = (0..rows * columns).map(|i| (i / columns + 1, i % columns + 1));
    cells.map(|(row, column)| formula(row, column)).collect()
}

/// The values of a formula over the masks, which are counted from 1.
fn series(count: u32, formula: impl Fn(u32) -> u32) -> Vec<u32> {
    (1..=count).map(formula).collect()
}
