//! Cases of the two message calls: messages to write, fit and refused, and fit ones to read.

use crate::cases::draw::modulus_in_turn;
use crate::cases::faults::{
    alone, alone_and_in_pairs, border_elements, wrong_lengths, Expected, Fault,
};
use crate::sheet::message::{message, Fields, Reading, Writing, HEADER};
use crate::sheet::plan::{known_prime, moduli, primes};
use crate::sheet::random::Random;

/// The fields from which other cases start.
pub const FIELDS: Fields = Fields {
    kind: 3,
    modulus: 2,
    host: 64,
    rows: 2,
    columns: 4,
    job_number: 0x0102_A5FE,
};

/// All messages to write, with the refusal numbers that are due.
pub fn expected(random: &mut Random) -> Expected<Writing> {
    let groups = [
        field_ends(random),
        random_fit(random),
        large_blocks(random),
        fault_pairs(random),
        field_limits(random),
        lengths(random),
        elements(random),
    ];
    groups.concat()
}

/// These fields with other sizes.
pub fn sized(rows: u32, columns: u32) -> Fields {
    Fields {
        rows,
        columns,
        ..FIELDS
    }
}

/// These fields with each other modulus number.
pub fn of_other_moduli() -> impl Iterator<Item = Fields> {
    let others = moduli().filter(|&modulus| modulus != FIELDS.modulus);
    others.map(|modulus| Fields { modulus, ..FIELDS })
}

/// A call with exact lengths and random elements.
fn drawn(random: &mut Random, fields: Fields) -> Writing {
    let q = known_prime(fields.modulus);
    let count = (fields.rows * fields.columns) as usize;
    Writing {
        fields,
        elements: random.elements(count, q),
        room: HEADER + 4 * count,
    }
}

/// Every kind with every modulus, the other fields at both ends of their ranges.
fn field_ends(random: &mut Random) -> Expected<Writing> {
    let mut calls = Vec::new();
    for kind in 1..=3 {
        for modulus in moduli() {
            for (host, job_number) in [(1, 0), (64, u32::MAX), (1, u32::MAX), (64, 0)] {
                let [rows, columns] = [(); 2].map(|_| random.within(1, 3));
                let fields = Fields {
                    kind,
                    modulus,
                    host,
                    rows,
                    columns,
                    job_number,
                };
                calls.push((drawn(random, fields), 0));
            }
        }
    }
    calls
}

/// Random fields, most with few elements; the round decides on the modulus.
fn random_fields(random: &mut Random, round: u32) -> Fields {
    let most = if random.within(0, 9) == 0 { 12 } else { 4 };
    Fields {
        kind: random.within(1, 3),
        modulus: modulus_in_turn(round),
        host: random.within(1, 64),
        rows: random.within(1, most),
        columns: random.within(1, most),
        job_number: random.word(),
    }
}

/// Random messages, and messages that end in the byte that fills an output before a call.
fn random_fit(random: &mut Random) -> Expected<Writing> {
    let mut calls = Vec::new();
    for round in 0..80 {
        let fields = random_fields(random, round);
        calls.push((drawn(random, fields), 0));
    }
    for (modulus, element) in [(3, 0xA5), (3, 0xA5A5), (4, 0x25A5_A5A5)] {
        let fields = Fields { modulus, ..FIELDS };
        let mut call = drawn(random, fields);
        call.elements.fill(element);
        calls.push((call, 0));
    }
    calls
}

/// Blocks of 4096 elements.
fn large_blocks(random: &mut Random) -> Expected<Writing> {
    let blocks = [(3, 64, 64), (3, 1, 4096), (3, 4096, 1), (4, 64, 64)];
    let call = |(modulus, rows, columns)| {
        let fields = sized(rows, columns);
        (drawn(random, Fields { modulus, ..fields }), 0)
    };
    blocks.map(call).to_vec()
}

/// The faults of a message of 2 by 4 elements, in the order of the tests.
const FAULTS: [Fault<Writing>; 27] = [
    (16, |call| call.fields.kind = 0),
    (16, |call| call.fields.kind = 4),
    (16, |call| call.fields.kind = 258),
    (1, |call| call.fields.modulus = 0),
    (1, |call| call.fields.modulus = 5),
    (1, |call| call.fields.modulus = 255),
    (1, |call| call.fields.modulus = 256),
    (1, |call| call.fields.modulus = 257),
    (1, |call| call.fields.modulus = 260),
    (1, |call| call.fields.modulus = u32::MAX),
    (12, |call| call.fields.host = 0),
    (12, |call| call.fields.host = 65),
    (12, |call| call.fields.host = u32::MAX),
    (2, |call| call.fields.rows = 0),
    (2, |call| call.fields.columns = 0),
    (2, |call| call.fields.rows = 16385),
    (2, |call| call.fields.columns = 65540),
    (6, |call| call.fields.rows = 1025),
    (6, |call| call.fields.columns = 2049),
    (6, |call| {
        (call.fields.rows, call.fields.columns) = (16384, 16384)
    }),
    (13, |call| call.elements.truncate(7)),
    (13, |call| call.elements.push(0)),
    (13, |call| call.room = 47),
    (13, |call| call.room = 49),
    (13, |call| call.room = 0),
    (14, |call| {
        call.elements[0] = known_prime(call.fields.modulus)
    }),
    (14, |call| call.elements[6] = u32::MAX),
];

/// Each fault alone and in pairs over q = 257, and each alone over the other primes.
fn fault_pairs(random: &mut Random) -> Expected<Writing> {
    let mut calls = alone_and_in_pairs(&drawn(random, FIELDS), &FAULTS);
    for fields in of_other_moduli() {
        calls.extend(alone(&drawn(random, fields), &FAULTS));
    }
    calls
}

/// Sizes at their limits, and one block of over 4096 elements with exact lengths.
fn field_limits(random: &mut Random) -> Expected<Writing> {
    let mut calls = Vec::new();
    for (rows, columns, number) in [
        (65, 64, 6),
        (16384, 1, 6),
        (1, 16384, 6),
        (4097, 1, 6),
        (1, 4097, 6),
        (16385, 1, 2),
        (1, 16385, 2),
        (65536, 65536, 2),
        (u32::MAX, u32::MAX, 2),
        (0, u32::MAX, 2),
        (0, 0, 2),
    ] {
        let fields = sized(rows, columns);
        let lent = if rows == 65 { fields } else { FIELDS };
        let call = drawn(random, lent);
        calls.push((Writing { fields, ..call }, number));
    }
    calls
}

/// Elements and output of wrong lengths.
fn lengths(random: &mut Random) -> Expected<Writing> {
    let mut calls = Vec::new();
    for (rows, columns) in [(1, 1), (3, 2)] {
        let base = drawn(random, sized(rows, columns));
        for elements in wrong_lengths(&base.elements) {
            let call = base.clone();
            calls.push((Writing { elements, ..call }, 13));
        }
        let exact = base.room;
        for room in [0, 1, 16, exact - 4, exact - 1, exact + 1, exact + 4, 20_000] {
            let call = base.clone();
            calls.push((Writing { room, ..call }, 13));
        }
    }
    calls
}

/// Elements at the border of the field, for all moduli.
fn elements(random: &mut Random) -> Expected<Writing> {
    let mut calls = Vec::new();
    for (modulus, q) in primes() {
        let base = drawn(random, Fields { modulus, ..FIELDS });
        for (elements, number) in border_elements(&base.elements, q, 14) {
            let call = base.clone();
            calls.push((Writing { elements, ..call }, number));
        }
    }
    calls
}

/// Messages to read that are fit: all those that writing gives here, small ones into an output of
/// more than 4096 elements too.
pub fn fit_readings(random: &mut Random) -> Expected<Reading> {
    let written = [field_ends(random), random_fit(random), large_blocks(random)].concat();
    let mut calls = Vec::new();
    for (i, (call, _)) in written.iter().enumerate() {
        let room = [4096, 4096, 4097, 5000, 8192][i % 5];
        let message = message(&call.fields, &call.elements);
        calls.push((Reading { message, room }, 0));
    }
    calls
}
