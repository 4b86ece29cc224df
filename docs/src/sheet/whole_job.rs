//! A whole job: matrices, masks and points, the hosts' true products, and the table that is due.
//!
//!   Contents   a matrix with its masks
//!   WholeJob   a job that the plan accepts, with all that comes of it
//!   written    the message of given fields and elements
//!   sharing    the call that makes a host's share
//!   exact      A times B in whole numbers
//!   plain      A times B over the field

use super::job_call::{answer_length, Act, JobCall};
use super::message::{write, Fields, Writing, HEADER};
use super::plan::{choose, known_prime, Job, Line};
use super::product::{product, Multiplying};
use super::random::Random;
use super::share::{share, Shape, Sharing, Side};

/// A matrix with its masks.
#[derive(Clone)]
pub struct Contents {
    pub matrix: Vec<u32>,
    pub masks: Vec<u32>,
}

impl Contents {
    /// Random contents of a side, all below q.
    pub fn drawn(random: &mut Random, side: Side, job: &Job, q: u32) -> Contents {
        let shape = Shape::of(side, job);
        Contents {
            matrix: random.elements(shape.matrix_length(), q),
            masks: random.elements(shape.masks_length(), q),
        }
    }
}

/// A job with its points, each host's true product, the table A times B, q and K.
pub struct WholeJob {
    pub job: Job,
    pub job_number: u32,
    pub points: Vec<u32>,
    pub products: Vec<Vec<u32>>,
    pub table: Vec<u32>,
    pub q: u32,
    pub needed: usize,
}

impl WholeJob {
    /// The job with these numbers, points and contents of A and B.
    pub fn of(job: Job, job_number: u32, points: Vec<u32>, sides: [Contents; 2]) -> WholeJob {
        let q = known_prime(job.modulus);
        let hosts = 1..=job.hosts;
        WholeJob {
            job,
            job_number,
            products: hosts.map(|i| answer(&job, &points, &sides, i)).collect(),
            points,
            table: plain(&job, &sides, q),
            q,
            needed: choose(&job).needed as usize,
        }
    }

    /// A job with random matrices, masks, job number and window.
    pub fn drawn(random: &mut Random, line: Line, points: Vec<u32>) -> WholeJob {
        let job = Job::of(&line, random.window());
        let q = known_prime(job.modulus);
        let sides = [Side::A, Side::B].map(|side| Contents::drawn(random, side, &job, q));
        WholeJob::of(job, random.word(), points, sides)
    }

    /// The fields of a host's answer.
    pub fn fields(&self, host: u32) -> Fields {
        Fields {
            kind: 3,
            modulus: self.job.modulus,
            host,
            rows: self.job.t / self.job.m,
            columns: self.job.r / self.job.n,
            job_number: self.job_number,
        }
    }

    /// The message with a host's true product.
    pub fn message(&self, host: u32) -> Vec<u8> {
        written(&self.fields(host), &self.products[host as usize - 1])
    }

    /// How many elements the store of all answers holds.
    pub fn store_length(&self) -> usize {
        self.products.len() * answer_length(&self.job)
    }

    /// A call with everything in it that the job says: no host is heard, the store is all 0, the table
    /// has exact length, and an arrival comes at the opening minute. Its message is still to be put in.
    pub fn call(&self, act: Act) -> JobCall {
        JobCall {
            act,
            job: self.job,
            job_number: self.job_number,
            points: self.points.clone(),
            heard: 0,
            store: vec![0; self.store_length()],
            message: Vec::new(),
            minute: match act {
                Act::Arrive => self.job.opening,
                _ => 0,
            },
            room: match act {
                Act::Decode => self.table.len(),
                _ => 0,
            },
        }
    }
}

/// The message that writing these fields and elements gives.
pub fn written(fields: &Fields, elements: &[u32]) -> Vec<u8> {
    let writing = Writing {
        fields: *fields,
        elements: elements.to_vec(),
        room: HEADER + 4 * elements.len(),
    };
    write(&writing).expect("a fit message")
}

/// The call that makes a host's share of a side with these contents.
pub fn sharing(job: &Job, points: &[u32], side: Side, contents: &Contents, host: u32) -> Sharing {
    Sharing {
        side,
        job: *job,
        job_number: 0,
        host,
        points: points.to_vec(),
        matrix: contents.matrix.clone(),
        masks: contents.masks.clone(),
        room: Shape::of(side, job).block_length(),
    }
}

/// A host's true product: its A share times its B share.
fn answer(job: &Job, points: &[u32], sides: &[Contents; 2], host: u32) -> Vec<u32> {
    let [a, b] = [(Side::A, &sides[0]), (Side::B, &sides[1])].map(|(side, contents)| {
        share(&sharing(job, points, side, contents, host)).expect("a fit share")
    });
    let multiplying = Multiplying {
        modulus: job.modulus,
        rows: job.t / job.m,
        inner: job.s / job.p,
        columns: job.r / job.n,
        a,
        b,
        room: answer_length(job),
    };
    product(&multiplying).expect("a fit product")
}

/// A times B in whole numbers, straight from the matrices. A sum is made in 128 bits: at most 16384
/// products, each below 2^64.
pub fn exact(job: &Job, sides: &[Contents; 2]) -> Vec<u128> {
    let [t, s, r] = [job.t, job.s, job.r].map(|size| size as usize);
    let [a, b] = [&sides[0].matrix, &sides[1].matrix];
    let entry = |row: usize, column: usize| {
        let products = (0..s).map(|i| u128::from(a[row * s + i]) * u128::from(b[i * r + column]));
        products.sum()
    };
    let cells = (0..t).flat_map(|row| (0..r).map(move |column| (row, column)));
    cells.map(|(row, column)| entry(row, column)).collect()
}

/// A times B over the field.
pub fn plain(job: &Job, sides: &[Contents; 2], q: u32) -> Vec<u32> {
    let sums = exact(job, sides).into_iter();
    sums.map(|sum| (sum % u128::from(q)) as u32).collect()
}
