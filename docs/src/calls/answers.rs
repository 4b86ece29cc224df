//! Cases of a host's whole part with two messages that belong together: answers of every shape, into
//! outputs just as long and longer; and outputs or blocks that the answer does not fit.
//!
//!   LONGEST   the longest output, in bytes
//!   pair      two messages that belong together, with these elements
//!   drawn     the same with random elements
//!   expected  all cases

use super::messages::sized;
use crate::cases::draw::modulus_in_turn;
use crate::cases::faults::Expected;
use crate::sheet::answer::Answering;
use crate::sheet::message::{message, Fields, HEADER};
use crate::sheet::plan::{known_prime, moduli, primes};
use crate::sheet::random::Random;

/// The longest output, in bytes.
pub const LONGEST: usize = 40_000;

/// All cases with the refusal numbers that are due.
pub fn expected(random: &mut Random) -> Expected<Answering> {
    let groups = [
        checked_by_hand(),
        field_ends(random),
        random_fit(random),
        fillings(),
        like_the_filling(),
        large_blocks(random),
        long_blocks(random),
        rooms(random),
        answer_limits(random),
        answer_rooms(random),
        block_limits(random),
    ];
    groups.concat()
}

/// Two messages of a host with these elements, A's of so many columns, whose answer has these fields; the
/// output is just as long as the answer.
pub fn pair(fields: Fields, inner: u32, a: &[u32], b: &[u32]) -> Answering {
    let of_a = Fields {
        kind: 1,
        columns: inner,
        ..fields
    };
    let of_b = Fields {
        kind: 2,
        rows: inner,
        ..fields
    };
    Answering {
        a: message(&of_a, a),
        b: message(&of_b, b),
        room: HEADER + 4 * (fields.rows * fields.columns) as usize,
    }
}

/// Two such messages with random elements.
pub fn drawn(random: &mut Random, fields: Fields, inner: u32) -> Answering {
    let q = known_prime(fields.modulus);
    let a = random.elements((fields.rows * inner) as usize, q);
    let b = random.elements((inner * fields.columns) as usize, q);
    pair(fields, inner, &a, &b)
}

/// Two such messages with one element all over A, and one all over B.
fn uniform(modulus: u32, [rows, inner, columns]: [u32; 3], a: u32, b: u32) -> Answering {
    let fields = sized(rows, columns);
    let [a, b] =
        [(a, rows), (b, columns)].map(|(element, side)| vec![element; (side * inner) as usize]);
    pair(Fields { modulus, ..fields }, inner, &a, &b)
}

/// Two such messages of these sizes, rows by inner and inner by columns, with random elements.
fn block(random: &mut Random, modulus: u32, [rows, inner, columns]: [u32; 3]) -> Answering {
    let fields = sized(rows, columns);
    drawn(random, Fields { modulus, ..fields }, inner)
}

/// A case with another length of the output.
fn into(call: &Answering, room: usize) -> Answering {
    Answering {
        room,
        ..call.clone()
    }
}

/// 01, "Checked by hand": the shares of the three hosts; and the ends of the field.
fn checked_by_hand() -> Expected<Answering> {
    let shares = [(1, 12, 0), (2, 6, 9), (3, 0, 5), (4, 12, 12), (5, 1, 12)];
    let call = |(host, a, b)| {
        let fields = Fields {
            modulus: 1,
            host,
            ..sized(1, 1)
        };
        (pair(fields, 1, &[a], &[b]), 0)
    };
    shares.map(call).to_vec()
}

/// Every modulus, with host and job number at both ends of their ranges.
fn field_ends(random: &mut Random) -> Expected<Answering> {
    let mut calls = Vec::new();
    for modulus in moduli() {
        for (host, job_number) in [(1, 0), (64, u32::MAX), (1, u32::MAX), (64, 0)] {
            let [rows, inner, columns] = [(); 3].map(|_| random.within(1, 3));
            let fields = Fields {
                modulus,
                host,
                job_number,
                ..sized(rows, columns)
            };
            calls.push((drawn(random, fields, inner), 0));
        }
    }
    calls
}

/// Random answers, the moduli in turn: most are small; some outputs are longer than the answer.
fn random_fit(random: &mut Random) -> Expected<Answering> {
    let mut calls = Vec::new();
    for round in 0..40 {
        let most = if round % 9 == 0 { 17 } else { 6 };
        let [rows, inner, columns] = [most; 3].map(|most| random.within(1, most));
        let fields = Fields {
            modulus: modulus_in_turn(round),
            host: random.within(1, 64),
            job_number: random.word(),
            ..sized(rows, columns)
        };
        let mut call = drawn(random, fields, inner);
        call.room += [0, 1, 0, 4, 0, 16, 4096][round as usize % 7];
        calls.push((call, 0));
    }
    calls
}

/// Shares with nothing but 0, 1 or q - 1, for all moduli; sums of few products and of 64.
fn fillings() -> Expected<Answering> {
    let mut calls = Vec::new();
    for (modulus, q) in primes() {
        let few = |(a, b)| (uniform(modulus, [2, 3, 4], a, b), 0);
        let many = |inner| (uniform(modulus, [3, inner, 2], q - 1, q - 1), 0);
        calls.extend([(0, 0), (q - 1, 0), (1, q - 1)].map(few));
        calls.extend([1, 4, 5, 64].map(many));
    }
    calls
}

/// Answers that end in the byte that fills an output before a call; the output is just as long, and
/// longer.
fn like_the_filling() -> Expected<Answering> {
    let mut calls = Vec::new();
    for (modulus, element) in [(2, 0xA5), (3, 0xA5A5), (4, 0x25A5_A5A5)] {
        for more in [0, 1, 100] {
            let mut call = uniform(modulus, [2, 1, 3], 1, element);
            call.room += more;
            calls.push((call, 0));
        }
    }
    calls
}

/// Blocks of 4096 elements and the longest sums, for all moduli; with nothing but q - 1 for two.
fn large_blocks(random: &mut Random) -> Expected<Answering> {
    let shapes = [
        [64, 64, 64],
        [1, 4096, 1],
        [4096, 1, 1],
        [1, 1, 4096],
        [64, 1, 64],
    ];
    let mut calls = Vec::new();
    for (modulus, q) in primes() {
        calls.extend(shapes.map(|sizes| (block(random, modulus, sizes), 0)));
        if modulus > 2 {
            let longest = [shapes[0], shapes[1]];
            calls.extend(longest.map(|sizes| (uniform(modulus, sizes, q - 1, q - 1), 0)));
        }
    }
    calls
}

/// Long and short blocks of about 4096 elements, the moduli in turn, into the longest output.
fn long_blocks(random: &mut Random) -> Expected<Answering> {
    let shapes = [
        [1, 4095, 1],
        [3, 1365, 3],
        [1365, 3, 3],
        [63, 65, 63],
        [2, 2048, 1],
        [2048, 2, 1],
        [1, 2, 2048],
        [1, 2048, 2],
    ];
    let call = |(round, sizes)| {
        let call = block(random, modulus_in_turn(round), sizes);
        (into(&call, LONGEST), 0)
    };
    (0..).zip(shapes).map(call).collect()
}

/// Outputs longer than the answer, just as long, and shorter.
fn rooms(random: &mut Random) -> Expected<Answering> {
    let mut calls = Vec::new();
    for sizes in [[1, 1, 1], [2, 3, 4], [64, 1, 64]] {
        let base = block(random, 3, sizes);
        let exact = base.room;
        let enough = [exact, exact + 1, exact + 4, 2 * exact, LONGEST];
        let short = [0, 1, 15, HEADER, exact - 4, exact - 1];
        calls.extend(enough.map(|room| (into(&base, room), 0)));
        calls.extend(short.map(|room| (into(&base, room), 13)));
    }
    calls
}

/// Shares whose answer has 4096 elements or just fewer, into the longest output; just more and many more.
fn answer_limits(random: &mut Random) -> Expected<Answering> {
    let lines = [
        ([64, 2, 64], 0),
        ([63, 1, 65], 0),
        ([2, 1, 2048], 0),
        ([2048, 1, 2], 0),
        ([64, 1, 65], 6),
        ([65, 1, 64], 6),
        ([17, 1, 241], 6),
        ([2, 1, 2049], 6),
        ([1366, 2, 3], 6),
        ([256, 1, 256], 6),
        ([4096, 1, 2], 6),
        ([16, 1, 4096], 6),
        ([4096, 1, 4096], 6),
    ];
    let call = |(sizes, number)| (into(&block(random, 4, sizes), LONGEST), number);
    lines.map(call).to_vec()
}

/// Shares whose answer has just more than 4096 elements, into outputs of all sorts of lengths.
fn answer_rooms(random: &mut Random) -> Expected<Answering> {
    let base = block(random, 2, [64, 1, 65]);
    let exact = base.room;
    let rooms = [0, 1, HEADER, HEADER + 4 * 4096, exact - 1, exact];
    rooms.map(|room| (into(&base, room), 6)).to_vec()
}

/// Messages of over 4096 elements whose length is right: A's, B's and both; the answer is small or not.
fn block_limits(random: &mut Random) -> Expected<Answering> {
    let shapes = [
        [65, 64, 1],
        [1, 64, 65],
        [4097, 1, 1],
        [1, 1, 4097],
        [1, 4097, 1],
    ];
    let call = |sizes| (into(&block(random, 1, sizes), LONGEST), 6);
    shapes.map(call).to_vec()
}
