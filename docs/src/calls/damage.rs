//! Cases of reading a message that is damaged, or that has an output too short.

use super::messages::{of_other_moduli, sized, FIELDS};
use crate::cases::draw::modulus_in_turn;
use crate::cases::faults::{alone, alone_and_in_pairs, border_elements, Expected, Fault};
use crate::sheet::message::{message, Fields, Reading, HEADER};
use crate::sheet::plan::{known_prime, moduli, primes};
use crate::sheet::random::Random;

/// All cases whose refusal number is known from the way they are made.
pub fn expected(random: &mut Random) -> Expected<Reading> {
    [fault_pairs(random), single_faults(random)].concat()
}

/// Those of them that have at most one fault.
pub fn single_faults(random: &mut Random) -> Expected<Reading> {
    let groups = [
        rooms(random),
        truncated(random),
        other_lengths(random),
        versions(random),
        field_values(random),
        large_blocks(random),
        elements(random),
    ];
    groups.concat()
}

/// All cases whose outcome is only computed.
pub fn computed(random: &mut Random) -> Vec<Reading> {
    let groups = [
        changed_headers(random),
        every_byte(random),
        turned_elements(random),
        random_damage(random),
    ];
    groups.concat()
}

/// A fit message with random elements, to be read into just 4096 elements.
fn drawn(random: &mut Random, fields: Fields) -> Reading {
    let q = known_prime(fields.modulus);
    let elements = random.elements((fields.rows * fields.columns) as usize, q);
    reading(message(&fields, &elements))
}

/// A message to be read into just 4096 elements.
fn reading(message: Vec<u8>) -> Reading {
    Reading {
        message,
        room: 4096,
    }
}

/// The faults of a message of 2 by 4 elements, in the order of the tests.
const FAULTS: [Fault<Reading>; 34] = [
    (13, |call| call.room = 4095),
    (13, |call| call.room = 0),
    (17, |call| call.message.truncate(15)),
    (17, |call| call.message.clear()),
    (18, |call| call.message[0] = 0x4E),
    (18, |call| call.message[1] = 0x64),
    (18, |call| call.message[2] = 0),
    (19, |call| call.message[3] = 1),
    (19, |call| call.message[4] = 0),
    (19, |call| call.message[4] = 2),
    (16, |call| call.message[5] = 0),
    (16, |call| call.message[5] = 4),
    (1, |call| call.message[6] = 0),
    (1, |call| call.message[6] = 5),
    (1, |call| call.message[6] = 255),
    (12, |call| call.message[7] = 0),
    (12, |call| call.message[7] = 65),
    (2, |call| sizes(call, 0, 4)),
    (2, |call| sizes(call, 2, 0)),
    (2, |call| sizes(call, 16385, 4)),
    (2, |call| sizes(call, 2, 65535)),
    (6, |call| sizes(call, 1025, 4)),
    (6, |call| sizes(call, 2, 2049)),
    (6, |call| sizes(call, 16384, 16384)),
    (20, |call| call.message.truncate(47)),
    (20, |call| call.message.truncate(44)),
    (20, |call| call.message.push(0)),
    (20, |call| call.message.extend([0; 4])),
    (20, |call| call.message.truncate(HEADER)),
    (20, |call| sizes(call, 3, 4)),
    (14, |call| call.message[16..20].fill(0xFF)),
    (14, |call| past_field(call, 0, 256)),
    (14, |call| call.message[36] = 0x80),
    (14, |call| past_field(call, 7, 0)),
];

/// Makes an element of a message, counted from 0, q and so much more.
fn past_field(call: &mut Reading, index: usize, more: u32) {
    let q = known_prime(call.message[6].into());
    let at = HEADER + 4 * index;
    call.message[at..at + 4].copy_from_slice(&(q + more).to_be_bytes());
}

/// Sets rows and columns in a message.
fn sizes(call: &mut Reading, rows: u16, columns: u16) {
    call.message[8..10].copy_from_slice(&rows.to_be_bytes());
    call.message[10..12].copy_from_slice(&columns.to_be_bytes());
}

/// Each fault alone and in pairs over q = 257, and each alone over the other primes.
fn fault_pairs(random: &mut Random) -> Expected<Reading> {
    let mut calls = alone_and_in_pairs(&drawn(random, FIELDS), &FAULTS);
    for fields in of_other_moduli() {
        calls.extend(alone(&drawn(random, fields), &FAULTS));
    }
    calls
}

/// Outputs around 4096 elements, for a fit message and for one that is no message at all.
fn rooms(random: &mut Random) -> Expected<Reading> {
    let mut calls = Vec::new();
    for room in [0, 1, 20, 4095, 4096, 4097, 5000, 8192] {
        let short = room < 4096;
        let message = drawn(random, FIELDS).message;
        calls.push((Reading { message, room }, if short { 13 } else { 0 }));
        let message = vec![0x4D];
        calls.push((Reading { message, room }, if short { 13 } else { 17 }));
    }
    calls
}

/// Messages of every kind cut to every length of 0 to 20.
fn truncated(random: &mut Random) -> Expected<Reading> {
    let mut calls = Vec::new();
    for kind in 1..=3 {
        for (rows, whole) in [(1, 20), (2, 24)] {
            let fields = Fields {
                kind,
                ..sized(rows, 1)
            };
            for length in 0..=20 {
                let mut call = drawn(random, fields);
                call.message.truncate(length);
                let number = match length {
                    0..=15 => 17,
                    _ if length == whole => 0,
                    _ => 20,
                };
                calls.push((call, number));
            }
        }
    }
    calls
}

/// Messages of every kind with a byte or an element more or less, and with the longest tail.
fn other_lengths(random: &mut Random) -> Expected<Reading> {
    let mut calls = Vec::new();
    for kind in 1..=3 {
        let whole = drawn(random, Fields { kind, ..FIELDS }).message;
        for length in [44, 47, 49, 52] {
            let mut message = whole.clone();
            message.resize(length, 0);
            calls.push((reading(message), 20));
        }
    }
    let mut longest = drawn(random, FIELDS).message;
    longest.resize(20_000, 0);
    calls.push((reading(longest), 20));
    calls
}

/// Other versions, for every kind.
fn versions(random: &mut Random) -> Expected<Reading> {
    let mut calls = Vec::new();
    for kind in 1..=3 {
        for version in [0_u16, 2, 0x0100, 0x0101, 0xFFFF] {
            let mut call = drawn(random, Fields { kind, ..FIELDS });
            call.message[3..5].copy_from_slice(&version.to_be_bytes());
            calls.push((call, 19));
        }
    }
    calls
}

/// Fields at and beyond the ends of their ranges; the message is too short for the large sizes.
fn field_values(random: &mut Random) -> Expected<Reading> {
    let base = drawn(random, FIELDS).message;
    let lines: [(usize, &[u8], u32); 25] = [
        (5, &[1], 0),
        (5, &[0], 16),
        (5, &[4], 16),
        (5, &[255], 16),
        (6, &[3], 0),
        (6, &[4], 0),
        (6, &[0], 1),
        (6, &[5], 1),
        (6, &[255], 1),
        (7, &[1], 0),
        (7, &[0], 12),
        (7, &[65], 12),
        (7, &[255], 12),
        (8, &[0, 0], 2),
        (10, &[0, 0], 2),
        (8, &[0x40, 0x01], 2),
        (10, &[0x40, 0x01], 2),
        (8, &[0x40, 0, 0, 1], 6),
        (8, &[0, 1, 0x40, 0], 6),
        (8, &[0x10, 0x01, 0, 1], 6),
        (8, &[0x40, 0, 0x40, 0], 6),
        (8, &[0x10, 0, 0, 1], 20),
        (8, &[0, 4, 0, 2], 0),
        (12, &[0; 4], 0),
        (12, &[255; 4], 0),
    ];
    let call = |&(at, bytes, number): &(usize, &[u8], u32)| {
        let mut message = base.clone();
        message[at..at + bytes.len()].copy_from_slice(bytes);
        (reading(message), number)
    };
    lines.iter().map(call).collect()
}

/// Blocks of over 4096 elements whose length is right, into outputs that would have room, and a
/// block of 4096 whose last element is too large.
fn large_blocks(random: &mut Random) -> Expected<Reading> {
    let mut calls = Vec::new();
    for (rows, columns) in [(65, 64), (1, 4097)] {
        let message = drawn(random, sized(rows, columns)).message;
        calls.push((
            Reading {
                message,
                room: 8192,
            },
            6,
        ));
    }
    let mut spoilt = drawn(random, sized(64, 64));
    let last = spoilt.message.len() - 1;
    spoilt.message[last - 1..].copy_from_slice(&[1, 1]);
    calls.push((spoilt, 14));
    calls
}

/// Elements at the border of the field, for all moduli and kinds.
fn elements(random: &mut Random) -> Expected<Reading> {
    let mut calls = Vec::new();
    for (modulus, q) in primes() {
        let fields = Fields {
            kind: modulus % 3 + 1,
            modulus,
            ..FIELDS
        };
        let base = random.elements((fields.rows * fields.columns) as usize, q);
        for (elements, number) in border_elements(&base, q, 14) {
            calls.push((reading(message(&fields, &elements)), number));
        }
    }
    calls
}

/// For every kind every byte of the header changed in several ways.
fn changed_headers(random: &mut Random) -> Vec<Reading> {
    let mut calls = Vec::new();
    for kind in 1..=3 {
        for at in 0..HEADER {
            for change in [0x01, 0x02, 0x10, 0x40, 0x80, 0xFF] {
                let mut call = drawn(random, Fields { kind, ..FIELDS });
                call.message[at] ^= change;
                calls.push(call);
            }
        }
    }
    calls
}

/// Every value of the second byte of the version, and of kind, modulus number and host, in a
/// message of one element.
fn every_byte(random: &mut Random) -> Vec<Reading> {
    let mut calls = Vec::new();
    for at in 4..8 {
        for value in 0..=255 {
            let mut call = drawn(random, sized(1, 1));
            call.message[at] = value;
            calls.push(call);
        }
    }
    calls
}

/// Elements written with the lowest byte first: only zeros and palindromes read back.
fn turned_elements(random: &mut Random) -> Vec<Reading> {
    let mut calls = Vec::new();
    for modulus in moduli() {
        for round in 0..4 {
            let mut call = drawn(random, Fields { modulus, ..FIELDS });
            if round == 0 {
                call.message[HEADER..].fill(0);
            }
            call.message[HEADER..]
                .chunks_mut(4)
                .for_each(<[u8]>::reverse);
            calls.push(call);
        }
    }
    calls
}

/// Messages with one random byte of the elements changed, and with any byte changed.
fn random_damage(random: &mut Random) -> Vec<Reading> {
    let mut calls = Vec::new();
    for round in 0..100 {
        let modulus = modulus_in_turn(round);
        let mut call = drawn(random, Fields { modulus, ..FIELDS });
        let first = if round % 5 == 0 { 0 } else { HEADER };
        let at = first + random.index(call.message.len() - first);
        call.message[at] = random.byte();
        calls.push(call);
    }
    calls
}
