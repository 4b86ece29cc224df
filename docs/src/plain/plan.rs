//! Planning: the tests 1 to 11 and 29 of a job's numbers and points, the layout and K.

use crate::field::prime;
use crate::MOST;

/// A job's public numbers and its window: answers are taken from the minute opening on and up to the one
/// before the minute closing.
#[derive(Clone, Copy)]
pub struct Job {
    pub modulus: u32,
    pub t: u32,
    pub s: u32,
    pub r: u32,
    pub m: u32,
    pub p: u32,
    pub n: u32,
    pub xa: u32,
    pub xb: u32,
    pub hosts: u32,
    pub number: u32,
    pub opening: u32,
    pub closing: u32,
}

/// The exponents of a layout: A(k,l) has k · stride_a + l, B(l,j) has j · stride_b + p − 1 − l, C(k,j)
/// has k · stride_a + j · stride_b + p − 1, counted from 0. Masks follow one another.
pub struct Layout {
    pub number: u32,
    pub stride_a: u32,
    pub mask_a: u32,
    pub stride_b: u32,
    pub mask_b: u32,
    pub needed: u32,
}

/// What an accepted job has: its prime, its layout, and the sizes of its blocks (an A block is rows by
/// inner, a B block inner by columns, an answer rows by columns).
pub struct Plan {
    pub q: u32,
    pub layout: Layout,
    pub rows: usize,
    pub inner: usize,
    pub columns: usize,
}

impl Layout {
    /// Layout 1 of a job.
    fn first(job: &Job) -> Layout {
        let blocks = job.n * job.p;
        let stride = blocks + job.xb;
        Layout {
            number: 1,
            stride_a: stride,
            mask_a: (job.m - 1) * stride + blocks,
            stride_b: job.p,
            mask_b: blocks,
            needed: (job.m + 1) * stride + job.xa - job.xb - 1,
        }
    }

    /// Layout 2 of a job.
    fn second(job: &Job) -> Layout {
        let blocks = job.m * job.p;
        let stride = blocks + job.xa;
        Layout {
            number: 2,
            stride_a: job.p,
            mask_a: blocks,
            stride_b: stride,
            mask_b: (job.n - 1) * stride + blocks,
            needed: (job.n + 1) * stride + job.xb - job.xa - 1,
        }
    }

    /// Layout 3 of a job.
    fn third(job: &Job) -> Layout {
        let stride = job.n * job.p;
        let blocks = job.m * stride;
        Layout {
            number: 3,
            stride_a: stride,
            mask_a: blocks,
            stride_b: job.p,
            mask_b: blocks,
            needed: 2 * blocks + job.xa + job.xb - 1,
        }
    }

    /// The layout that needs the fewest answers, at a tie the one with the lower number.
    fn choose(job: &Job) -> Layout {
        let (first, second) = (Layout::first(job), Layout::second(job));
        let third = Layout::third(job);
        if first.needed <= second.needed && first.needed <= third.needed {
            first
        } else if second.needed <= third.needed {
            second
        } else {
            third
        }
    }
}

/// Whether a number is not 1..most.
pub fn outside(most: u32, number: u32) -> bool {
    !(1..=most).contains(&number)
}

/// Plans a job, or tells the number of the first test that fits.
pub fn plan(job: &Job, points: &[u32]) -> Result<Plan, u32> {
    let q = prime(job.modulus)?;
    let (sizes, cuts) = ([job.t, job.s, job.r], [job.m, job.p, job.n]);
    if sizes.iter().any(|&size| outside(16384, size)) {
        return Err(2);
    }
    if cuts.iter().any(|&cut| outside(8, cut)) {
        return Err(3);
    }
    if outside(16, job.xa) || outside(16, job.xb) {
        return Err(4);
    }
    if sizes.iter().zip(cuts).any(|(size, cut)| size % cut != 0) {
        return Err(5);
    }
    let [rows, inner, columns] = [0, 1, 2].map(|i| (sizes[i] / cuts[i]) as usize);
    if rows * inner > MOST || inner * columns > MOST || rows * columns > MOST {
        return Err(6);
    }
    if outside(64, job.hosts) || job.hosts >= q {
        return Err(7);
    }
    let layout = Layout::choose(job);
    if layout.needed > job.hosts {
        return Err(8);
    }
    if job.closing <= job.opening {
        return Err(29);
    }
    test_points(q, job.hosts, points)?;
    Ok(Plan {
        q,
        layout,
        rows,
        inner,
        columns,
    })
}

/// The tests 9 to 11, point by point.
fn test_points(q: u32, hosts: u32, points: &[u32]) -> Result<(), u32> {
    if points.len() != hosts as usize {
        return Err(9);
    }
    for (i, &x) in points.iter().enumerate() {
        if x == 0 || x >= q {
            return Err(10);
        }
        if points[..i].contains(&x) {
            return Err(11);
        }
    }
    Ok(())
}
