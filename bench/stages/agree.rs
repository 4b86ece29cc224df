//! The library and plain Rust give the same outcomes: random jobs, whole and with a fault put in, masks
//! drawn from random words, pages of random tables, and a host's whole part on random messages.

use crate::calls::{Calls, Plain};
use crate::drawing::lowest_skipped;
use crate::library::Library;
use crate::random::Random;
use crate::work::{header, prime, run, take, Room, Shape, Work};
use plain::message::Header;
use plain::page::page_length;
use plain::plan::Job;
use plain::share::Matrix;

/// How many jobs are run, and how many faults are put into each.
const JOBS: u32 = 300;
const FAULTS: u32 = 20;

/// How many drawings are made.
const DRAWINGS: u32 = 5000;

/// How many pages are written.
const PAGES: u32 = 5000;

/// How many pairs of messages are answered, and the numbers that they get.
const ANSWERS: u32 = 20_000;
const ANSWER_NUMBERS: [u32; 17] = [
    0, 1, 2, 6, 12, 13, 14, 16, 17, 18, 19, 20, 1001, 1003, 1004, 1005, 1006,
];

/// Runs random jobs by both, the layouts in turn and every fifth with the greatest elements, and calls with
/// faults; then draws masks, writes pages and answers messages. Stops where two outcomes differ.
pub fn check() {
    let mut random = Random::new(1);
    for i in 0..JOBS {
        let mut work = draw(&mut random, i % 3 + 1);
        if i % 5 == 0 {
            work.fill_with_greatest();
        }
        let room = whole(&work);
        for _ in 0..FAULTS {
            let (mut work, mut room) = (work.clone(), room.clone());
            spoil(&mut random, &mut work, &mut room);
            same_calls(&mut random, &work, &room);
        }
    }
    let drawings = (0..DRAWINGS).map(|_| same_drawing(&mut random));
    assert_eq!(
        each_once(drawings),
        [0, 1, 27],
        "drawings have other outcomes"
    );
    let pages = (0..PAGES).map(|_| same_page(&mut random));
    assert_eq!(
        each_once(pages),
        [0, 1, 2, 13, 14, 28],
        "pages have other outcomes"
    );
    let answers = (0..ANSWERS).map(|_| same_answer(&mut random));
    assert_eq!(
        each_once(answers),
        ANSWER_NUMBERS,
        "answers have other outcomes"
    );
}

/// The numbers that there are, each once, the smallest first.
fn each_once(numbers: impl Iterator<Item = u32>) -> Vec<u32> {
    let mut numbers: Vec<u32> = numbers.collect();
    numbers.sort_unstable();
    numbers.dedup();
    numbers
}

/// A random job in a layout. Layout 3 needs at least 13 answers, more than there are hosts with 13.
fn draw(random: &mut Random, layout: u32) -> Work {
    loop {
        let modulus = random.within(1, 4);
        let shape = Shape {
            cuts: [0; 3].map(|_| random.within(1, 3)),
            groups: [0; 2].map(|_| random.within(1, 8)),
            hosts: random.within(3, prime(modulus).min(65) - 1),
        };
        let block = [0; 3].map(|_| random.within(1, 9));
        match Work::new(random, modulus, shape, block) {
            Some(work) if work.layout == layout => return work,
            _ => {}
        }
    }
}

/// Runs a whole job by both: both have its table. Then both take the last host's answer, which may be in
/// already, and once more.
fn whole(work: &Work) -> Room {
    let (mut room, mut other) = (Room::new(work), Room::new(work));
    assert_eq!(run(&Library, work, &mut room), Ok(()));
    assert_eq!(run(&Plain, work, &mut other), Ok(()));
    assert!(room == other, "two whole jobs differ");
    assert!(
        room.table == work.true_table(),
        "the table is not A times B"
    );
    for _ in 0..2 {
        assert_eq!(take(&Library, work, &mut room), Ok(()));
        assert_eq!(take(&Plain, work, &mut other), Ok(()));
        assert!(room == other, "two arrivals differ");
    }
    room
}

/// Puts one fault into a job or its buffers.
fn spoil(random: &mut Random, work: &mut Work, room: &mut Room) {
    let q = prime(work.job.modulus);
    let message = &mut room.answer_message;
    match random.index(11) {
        0 => spoil_number(random, &mut work.job),
        1 => {
            let at = random.index(work.points.len());
            work.points[at] = [0, q, 1, 2][random.index(4)];
        }
        2 => work.points.push(random.within(1, q)),
        3 => room.heard = random.draw() >> random.index(64),
        4 => spoil_list(random, q, &mut work.a),
        5 => spoil_list(random, q, &mut work.a_masks),
        6 => spoil_list(random, q, &mut room.store),
        7 => spoil_list(random, q, &mut room.shares[0]),
        8 => message.truncate(random.index(message.len())),
        9 => work.minute = about_the_ends(random, &work.job),
        _ => {
            let at = [random.index(16), random.index(message.len())][random.index(2)];
            message[at] = random.byte() % 8;
        }
    }
}

/// A minute at an end of a job's window, just inside or just outside, or any minute.
fn about_the_ends(random: &mut Random, job: &Job) -> u32 {
    let end = [job.opening, job.closing, random.word()][random.index(3)];
    end.wrapping_sub(random.within(0, 1))
}

/// Sets one of a job's numbers anew.
fn spoil_number(random: &mut Random, job: &mut Job) {
    let value = [random.within(0, 20), random.word()][random.index(2)];
    let numbers = [
        &mut job.modulus,
        &mut job.t,
        &mut job.s,
        &mut job.r,
        &mut job.m,
        &mut job.p,
        &mut job.n,
        &mut job.xa,
        &mut job.xb,
        &mut job.hosts,
        &mut job.number,
        &mut job.opening,
        &mut job.closing,
    ];
    let at = random.index(numbers.len());
    *numbers.into_iter().nth(at).expect("a number") = value;
}

/// Sets an element of a list to the prime.
fn spoil_list(random: &mut Random, q: u32, elements: &mut [u32]) {
    elements[random.index(elements.len())] = q;
}

/// Makes a call by both on a copy of its output; both have the same outcome and output.
fn same<T: PartialEq, O: PartialEq + Clone>(
    name: &str,
    output: &O,
    call: impl Fn(&dyn Calls, &mut O) -> T,
) {
    let (mut first, mut second) = (output.clone(), output.clone());
    let outcomes = (call(&Library, &mut first), call(&Plain, &mut second));
    assert!(
        outcomes.0 == outcomes.1 && first == second,
        "{name}: two outcomes differ"
    );
}

/// Makes every call by both.
fn same_calls(random: &mut Random, work: &Work, room: &Room) {
    let Work { job, points, .. } = work;
    let host = random.within(0, job.hosts.min(70) + 1);
    let sizes = work.block;
    same("plan", &(), |calls, _| calls.plan(job, points));
    same("share of A", &room.shares[0], |calls, out| {
        calls.share(Matrix::A, job, points, host, &work.a, &work.a_masks, out)
    });
    same("share of B", &room.shares[1], |calls, out| {
        calls.share(Matrix::B, job, points, host, &work.b, &work.b_masks, out)
    });
    same("product", &room.answer, |calls, out| {
        calls.product(job.modulus, sizes, &room.shares[0], &room.shares[1], out)
    });
    same("product of bytes", &room.answer_bytes, |calls, out| {
        let [a, b] = [0, 1].map(|i| &room.messages[i][16..]);
        calls.product_of_bytes(job.modulus, sizes, a, b, out)
    });
    same("answer", &room.answer_message, |calls, out| {
        calls.answer(&room.messages[0], &room.messages[1], out)
    });
    let fields = header(job, random.within(0, 4), host, sizes[0], sizes[1]);
    same("write", &room.messages[0], |calls, out| {
        calls.write(&fields, &room.shares[0], out)
    });
    same("read", &room.blocks[0], |calls, out| {
        calls.read(&room.answer_message, out)
    });
    let heard = [room.heard, 0][random.index(2)];
    same("arrival", &room.store, |calls, store| {
        calls.arrive(job, points, heard, store, &room.answer_message, work.minute)
    });
    same("decoding", &room.table, |calls, table| {
        calls.decode(job, points, room.heard, &room.store, table)
    });
}

/// Draws masks by both, from words many of which are about the limit; the number of the refusal, or 0. A
/// refused drawing leaves the masks as they were.
fn same_drawing(random: &mut Random) -> u32 {
    let modulus = random.within(0, 5);
    let known = modulus.clamp(1, 4);
    let lowest = lowest_skipped(known);
    let word = |random: &mut Random| match random.index(3) {
        0 => random.word(),
        1 => random.within(lowest - 2, u32::MAX),
        _ => random.within(0, 2) + prime(known) - 1,
    };
    let words: Vec<u32> = (0..random.index(40)).map(|_| word(random)).collect();
    let count = random.index(words.len() + 2);
    let masks = random.words(count);
    same("masks drawn", &masks, |calls, out| {
        let used = calls.draw(modulus, &words, out);
        assert!(used.is_ok() || *out == masks, "a refused drawing writes");
        used
    });
    let outcome = Plain.draw(modulus, &words, &mut masks.clone());
    outcome.err().unwrap_or(0)
}

/// Writes a page by both, some with up to two faults; the number of the refusal, or 0. A refused call leaves
/// the bytes as they were.
fn same_page(random: &mut Random) -> u32 {
    let modulus = random.within(0, 5);
    let q = prime(modulus.clamp(1, 4));
    let [mut t, r] = [0; 2].map(|_| random.within(1, 20));
    let mut table = random.elements((t * r) as usize, q);
    let mut bytes = vec![random.byte(); page_length(t as usize, r as usize)];
    for _ in 0..random.index(3) {
        match random.index(4) {
            0 => t = [0, 16384, 16385, random.word()][random.index(4)],
            1 => table.resize(random.within(1, 400) as usize, 0),
            2 => bytes.resize(random.index(2 * bytes.len() + 1), 0),
            _ => spoil_list(random, q, &mut table),
        }
    }
    same("page", &bytes, |calls, out| {
        let outcome = calls.page(modulus, t, r, &table, out);
        assert!(
            outcome.is_ok() || *out == bytes,
            "a refused page is written"
        );
        outcome
    });
    let outcome = Plain.page(modulus, t, r, &table, &mut bytes);
    outcome.err().unwrap_or(0)
}

/// Answers a pair of messages by both, some with up to three faults; the number of the refusal, or 0. A
/// refused call leaves the bytes as they were.
fn same_answer(random: &mut Random) -> u32 {
    let (mut messages, sizes) = pair(random);
    for _ in 0..random.index(2) * random.index(4) {
        let which = random.index(2);
        spoil_message(random, &mut messages[which]);
    }
    let right = 16 + 4 * (sizes[0] * sizes[2]).min(4096) as usize;
    let room = [right, right, right + 5, right - 1, random.index(right)][random.index(5)];
    let bytes = vec![random.byte(); room];
    let [a, b] = &messages;
    same("answer", &bytes, |calls, out| {
        let outcome = calls.answer(a, b, out);
        assert!(
            outcome.is_ok() || *out == bytes,
            "a refused answer is written"
        );
        outcome
    });
    let outcome = Plain.answer(a, b, &mut bytes.clone());
    outcome.err().unwrap_or(0)
}

/// The messages of a host's shares, at times of two jobs, hosts, moduli or sizes, or of other kinds; and
/// the rows, inner size and columns.
fn pair(random: &mut Random) -> ([Vec<u8>; 2], [u32; 3]) {
    let [rows, columns] = match random.index(20) {
        0 => [0; 2].map(|_| random.within(65, 99)),
        _ => [0; 2].map(|_| random.within(1, 9)),
    };
    let inner = random.within(1, 9);
    let first = Header {
        kind: 1,
        modulus: random.within(1, 4),
        host: random.within(1, 64),
        rows,
        columns: inner,
        number: random.word(),
    };
    let mut second = Header {
        kind: 2,
        rows: inner,
        columns,
        ..first
    };
    match random.index(20) {
        0 => second.kind = random.within(1, 3),
        1 => second.modulus = random.within(1, 4),
        2 => second.host = random.within(1, 64),
        3 => second.number = random.word(),
        4 => second.rows = random.within(1, 9),
        _ => {}
    }
    let messages = [first, second].map(|fields| message(random, &fields));
    (messages, [rows, inner, columns])
}

/// A message with these fields and random elements.
fn message(random: &mut Random, fields: &Header) -> Vec<u8> {
    let count = (fields.rows * fields.columns) as usize;
    let elements = random.elements(count, prime(fields.modulus));
    let mut message = vec![0; 16 + 4 * count];
    assert_eq!(Plain.write(fields, &elements, &mut message), Ok(()));
    message
}

/// Puts one fault into a message; some leave it fit.
fn spoil_message(random: &mut Random, message: &mut Vec<u8>) {
    let length = message.len();
    match random.index(5) {
        0 => message.truncate(random.index(length + 1)),
        1 => message.push(0),
        2 if length >= 16 => message[random.index(5)] ^= 1,
        3 if length >= 16 => message[random.within(5, 15) as usize] = random.byte() % 68,
        _ if length > 16 => message[random.within(16, length as u32 - 1) as usize] = random.byte(),
        _ => {}
    }
}
