//! A job with its matrices and masks, and how it goes from the plan to the table.

use crate::calls::Calls;
use crate::random::Random;
use plain::message::Header;
use plain::plan::{plan, Job};
use plain::share::Matrix;

/// The most elements of a block: what reading a message wants room for.
const MOST: usize = 4096;

/// The cuts m, p, n of a job, the sizes of its groups, X_A and X_B, and how many hosts it has.
#[derive(Clone, Copy)]
pub struct Shape {
    pub cuts: [u32; 3],
    pub groups: [u32; 2],
    pub hosts: u32,
}

/// A job: its numbers, points and layout, its matrices and masks, the hosts that answer, as many as are
/// needed, the minute of their answers, inside the window, and the sizes of blocks: rows, inner, columns.
#[derive(Clone)]
pub struct Work {
    pub job: Job,
    pub points: Vec<u32>,
    pub layout: u32,
    pub a: Vec<u32>,
    pub b: Vec<u32>,
    pub a_masks: Vec<u32>,
    pub b_masks: Vec<u32>,
    pub answering: Vec<u32>,
    pub minute: u32,
    pub block: [u32; 3],
}

/// The prime of a modulus number.
pub fn prime(modulus: u32) -> u32 {
    [13, 257, 65537, 2147483647][modulus as usize - 1]
}

/// Random elements below a prime.
fn elements(random: &mut Random, q: u32, count: usize) -> Vec<u32> {
    (0..count).map(|_| random.within(0, q - 1)).collect()
}

/// Different points from 1 to q − 1, in any order.
fn points(random: &mut Random, q: u32, hosts: u32) -> Vec<u32> {
    let mut points = Vec::new();
    while points.len() < hosts as usize {
        let x = random.within(1, q - 1);
        if !points.contains(&x) {
            points.push(x);
        }
    }
    points
}

impl Work {
    /// A job of a modulus and a shape, whose blocks have these rows, inner sizes and columns; none where
    /// planning refuses it.
    pub fn new(random: &mut Random, modulus: u32, shape: Shape, block: [u32; 3]) -> Option<Work> {
        let q = prime(modulus);
        let ([m, p, n], [xa, xb]) = (shape.cuts, shape.groups);
        let [rows, inner, columns] = block;
        let minute = random.within(0, u32::MAX - 1);
        let job = Job {
            modulus,
            t: m * rows,
            s: p * inner,
            r: n * columns,
            m,
            p,
            n,
            xa,
            xb,
            hosts: shape.hosts,
            number: random.word(),
            opening: random.within(0, minute),
            closing: random.within(minute + 1, u32::MAX),
        };
        let points = points(random, q, shape.hosts);
        let layout = plan(&job, &points).ok()?.layout;
        let mut hosts: Vec<u32> = (1..=shape.hosts).collect();
        while hosts.len() > layout.needed as usize {
            hosts.remove(random.index(hosts.len()));
        }
        Some(Work {
            job,
            points,
            layout: layout.number,
            a: elements(random, q, (job.t * job.s) as usize),
            b: elements(random, q, (job.s * job.r) as usize),
            a_masks: elements(random, q, (xa * rows * inner) as usize),
            b_masks: elements(random, q, (xb * inner * columns) as usize),
            answering: hosts,
            minute,
            block,
        })
    }

    /// Sets all elements of the matrices and masks to the greatest one.
    pub fn fill_with_greatest(&mut self) {
        let greatest = prime(self.job.modulus) - 1;
        self.a.fill(greatest);
        self.b.fill(greatest);
        self.a_masks.fill(greatest);
        self.b_masks.fill(greatest);
    }

    /// The elements of an A block, of a B block and of an answer.
    pub fn counts(&self) -> [usize; 3] {
        let [rows, inner, columns] = self.block.map(|size| size as usize);
        [rows * inner, inner * columns, rows * columns]
    }

    /// A times B, worked out from the matrices.
    pub fn true_table(&self) -> Vec<u32> {
        let [s, r] = [self.job.s as usize, self.job.r as usize];
        let q = u128::from(prime(self.job.modulus));
        let mut table = Vec::new();
        for row in self.a.chunks_exact(s) {
            table.extend((0..r).map(|j| {
                let terms = row.iter().zip(self.b[j..].iter().step_by(r));
                let sum: u128 = terms.map(|(&x, &y)| u128::from(x) * u128::from(y)).sum();
                (sum % q) as u32
            }));
        }
        table
    }
}

/// The buffers of a job that is run: a share, a message and a read block of each matrix; an answer, its
/// bytes and its message; the store and the table; and the hosts heard.
#[derive(Clone, PartialEq)]
pub struct Room {
    pub shares: [Vec<u32>; 2],
    pub messages: [Vec<u8>; 2],
    pub blocks: [Vec<u32>; 2],
    pub answer: Vec<u32>,
    pub answer_bytes: Vec<u8>,
    pub answer_message: Vec<u8>,
    pub store: Vec<u32>,
    pub table: Vec<u32>,
    pub heard: u64,
}

impl Room {
    /// The buffers of a job.
    pub fn new(work: &Work) -> Room {
        let [a, b, answer] = work.counts();
        Room {
            shares: [a, b].map(|count| vec![0; count]),
            messages: [a, b].map(|count| vec![0; 16 + 4 * count]),
            blocks: [a, b].map(|_| vec![0; MOST]),
            answer: vec![0; answer],
            answer_bytes: vec![0; 4 * answer],
            answer_message: vec![0; 16 + 4 * answer],
            store: vec![0; work.job.hosts as usize * answer],
            table: vec![0; (work.job.t * work.job.r) as usize],
            heard: 0,
        }
    }
}

/// The header of a message of a job.
pub fn header(job: &Job, kind: u32, host: u32, rows: u32, columns: u32) -> Header {
    Header {
        kind,
        modulus: job.modulus,
        host,
        rows,
        columns,
        number: job.number,
    }
}

/// Makes both shares of a host and their messages.
fn send(calls: &impl Calls, work: &Work, host: u32, room: &mut Room) -> Result<(), u32> {
    let job = &work.job;
    let [rows, inner, columns] = work.block;
    let [a, b] = &mut room.shares;
    calls.share(
        Matrix::A,
        job,
        &work.points,
        host,
        &work.a,
        &work.a_masks,
        a,
    )?;
    calls.share(
        Matrix::B,
        job,
        &work.points,
        host,
        &work.b,
        &work.b_masks,
        b,
    )?;
    let [a_message, b_message] = &mut room.messages;
    calls.write(&header(job, 1, host, rows, inner), a, a_message)?;
    calls.write(&header(job, 2, host, inner, columns), b, b_message)
}

/// What a host does: reads both messages, multiplies, and writes its answer.
fn serve(calls: &impl Calls, work: &Work, host: u32, room: &mut Room) -> Result<(), u32> {
    let [a_count, b_count, _] = work.counts();
    let [rows, _, columns] = work.block;
    let job = &work.job;
    let [a, b] = &mut room.blocks;
    calls.read(&room.messages[0], a)?;
    calls.read(&room.messages[1], b)?;
    calls.product(
        job.modulus,
        work.block,
        &a[..a_count],
        &b[..b_count],
        &mut room.answer,
    )?;
    let header = header(job, 3, host, rows, columns);
    calls.write(&header, &room.answer, &mut room.answer_message)
}

/// Takes the answer of a host, or has it in already.
pub fn take(calls: &impl Calls, work: &Work, room: &mut Room) -> Result<(), u32> {
    room.heard = calls.arrive(
        &work.job,
        &work.points,
        room.heard,
        &mut room.store,
        &room.answer_message,
        work.minute,
    )?;
    Ok(())
}

/// Runs a whole job: the plan, every host's shares, messages and product, the arrivals of those that
/// answer, and the decoding.
pub fn run(calls: &impl Calls, work: &Work, room: &mut Room) -> Result<(), u32> {
    calls.plan(&work.job, &work.points)?;
    room.heard = 0;
    for host in 1..=work.job.hosts {
        send(calls, work, host, room)?;
        serve(calls, work, host, room)?;
        if work.answering.contains(&host) {
            take(calls, work, room)?;
        }
    }
    calls.decode(
        &work.job,
        &work.points,
        room.heard,
        &room.store,
        &mut room.table,
    )
}
