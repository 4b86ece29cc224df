//! Cases of a host's whole part with messages that are damaged or that do not belong together.
//!
//!   expected  all cases whose refusal number is known from the way they are made
//!   computed  all cases whose refusal number is only computed

use super::answers::{drawn, LONGEST};
use super::messages::{sized, FIELDS};
use crate::cases::faults::{alone, alone_and_in_pairs, border_elements, Expected, Fault};
use crate::sheet::answer::{answer, Answering};
use crate::sheet::message::{message, Fields, HEADER};
use crate::sheet::plan::{known_prime, moduli, primes};
use crate::sheet::random::Random;

/// One of the two messages of a call.
type Side = fn(&mut Answering) -> &mut Vec<u8>;

/// A's message and B's.
const SIDES: [Side; 2] = [|call| &mut call.a, |call| &mut call.b];

/// All cases whose refusal number is known from the way they are made.
pub fn expected(random: &mut Random) -> Expected<Answering> {
    let groups = [
        fault_pairs(random),
        wrong_kind_of_b(random),
        kinds(random),
        moduli_apart(random),
        hosts_apart(random),
        jobs_apart(random),
        sizes_apart(random),
        field_values(random),
        lengths(random),
        cut_elsewhere(random),
        elements(random),
    ];
    groups.concat()
}

/// All cases whose refusal number is only computed.
pub fn computed(random: &mut Random) -> Vec<Answering> {
    [turned_bits(random), random_damage(random)].concat()
}

/// Two messages that belong together, 2 by 3 and 3 by 4 elements, and the longest output.
fn base(random: &mut Random, fields: Fields) -> Answering {
    let call = drawn(random, fields, 3);
    let room = LONGEST;
    Answering { room, ..call }
}

/// The faults of two messages of 2 by 3 and 3 by 4 elements, in the order of the tests. None but those of
/// an output make it too short.
const FAULTS: [Fault<Answering>; 27] = [
    (17, |call| call.a.truncate(15)),
    (18, |call| call.a[2] = 0),
    (19, |call| call.a[4] = 2),
    (16, |call| call.a[5] = 4),
    (1, |call| call.a[6] = 5),
    (12, |call| call.a[7] = 65),
    (2, |call| put_sizes(&mut call.a, 0, 3)),
    (6, |call| put_sizes(&mut call.a, 1366, 3)),
    (20, |call| call.a.push(0)),
    (14, |call| past_field(&mut call.a)),
    (17, |call| call.b.truncate(15)),
    (18, |call| call.b[0] = 0),
    (19, |call| call.b[3] = 1),
    (16, |call| call.b[5] = 0),
    (1, |call| call.b[6] = 0),
    (12, |call| call.b[7] = 0),
    (2, |call| put_sizes(&mut call.b, 3, 16385)),
    (6, |call| put_sizes(&mut call.b, 3, 1366)),
    (20, |call| call.b.push(0)),
    (14, |call| past_field(&mut call.b)),
    (1001, |call| call.a[5] = 3),
    (1003, other_modulus),
    (1004, |call| call.b[7] = 63),
    (1005, |call| call.b[15] ^= 1),
    (1006, one_column),
    (6, large_answer),
    (13, |call| call.room = 47),
];

/// Sets rows and columns in a message.
fn put_sizes(message: &mut [u8], rows: u16, columns: u16) {
    message[8..10].copy_from_slice(&rows.to_be_bytes());
    message[10..12].copy_from_slice(&columns.to_be_bytes());
}

/// Makes the first element of a message q.
fn past_field(message: &mut [u8]) {
    let q = known_prime(message[6].into());
    message[HEADER..HEADER + 4].copy_from_slice(&q.to_be_bytes());
}

/// Gives B's message the next modulus number, and elements that are fit for it.
fn other_modulus(call: &mut Answering) {
    let last = *moduli().end() as u8;
    call.b[6] = call.b[6] % last + 1;
    call.b[HEADER..].fill(0);
}

/// Says that the elements of A's message are one column: no fewer rows, and so no smaller answer.
fn one_column(call: &mut Answering) {
    let count = (call.a.len() - HEADER) / 4;
    put_sizes(&mut call.a, count as u16, 1);
}

/// Makes the messages 33 by 2 and 2 by 125: an answer of 4125 elements.
fn large_answer(call: &mut Answering) {
    put_sizes(&mut call.a, 33, 2);
    call.a.resize(HEADER + 4 * 66, 0);
    put_sizes(&mut call.b, 2, 125);
    call.b.resize(HEADER + 4 * 250, 0);
}

/// Each fault alone and in pairs over q = 257, and each alone over the largest prime.
fn fault_pairs(random: &mut Random) -> Expected<Answering> {
    let mut calls = alone_and_in_pairs(&base(random, FIELDS), &FAULTS);
    let modulus = 4;
    let largest = base(random, Fields { modulus, ..FIELDS });
    calls.extend(alone(&largest, &FAULTS));
    calls
}

/// B's message is an A share, beside each fault from B's own on: those of the message come first.
fn wrong_kind_of_b(random: &mut Random) -> Expected<Answering> {
    let mut call = base(random, FIELDS);
    call.b[5] = 1;
    let (of_message, of_both) = FAULTS[10..].split_at(10);
    let mut calls = alone(&call, of_message);
    let faulty = alone(&call, of_both).into_iter();
    calls.extend(faulty.map(|(call, _)| (call, 1001)));
    calls
}

/// Every mix of kinds: with blocks that could be multiplied in one order alone, and in both.
fn kinds(random: &mut Random) -> Expected<Answering> {
    let mut calls = Vec::new();
    for (fields, inner) in [(FIELDS, 3), (sized(2, 2), 2)] {
        let base = drawn(random, fields, inner);
        for i in 0..9 {
            let mut call = base.clone();
            (call.a[5], call.b[5]) = (i / 3 + 1, i % 3 + 1);
            calls.push((call, if i == 1 { 0 } else { 1001 }));
        }
        let Answering { a, b, room } = base;
        let (a, b) = (b, a);
        calls.push((Answering { a, b, room }, 1001));
    }
    calls
}

/// Every two moduli, with elements that are fit for each.
fn moduli_apart(random: &mut Random) -> Expected<Answering> {
    let mut calls = Vec::new();
    for of_a in moduli() {
        for of_b in moduli() {
            let modulus = 1;
            let mut call = base(random, Fields { modulus, ..FIELDS });
            (call.a[6], call.b[6]) = (of_a as u8, of_b as u8);
            calls.push((call, if of_a == of_b { 0 } else { 1003 }));
        }
    }
    calls
}

/// Hosts that differ in each bit, in A's message or in B's; both ends of the range, and neighbours.
fn hosts_apart(random: &mut Random) -> Expected<Answering> {
    let call = base(random, FIELDS);
    let of_hosts = |a, b| {
        let mut call = call.clone();
        (call.a[7], call.b[7]) = (a, b);
        call
    };
    let mut calls = Vec::new();
    for bit in 0..8 {
        let number = if bit < 6 { 1004 } else { 12 };
        let other = 21 ^ (1 << bit);
        calls.push((of_hosts(21, other), number));
        calls.push((of_hosts(other, 21), number));
    }
    let ends = [(1, 64), (64, 1), (1, 2), (63, 64), (64, 32), (32, 64)];
    calls.extend(ends.map(|(a, b)| (of_hosts(a, b), 1004)));
    calls
}

/// Job numbers that differ in each bit, in B's message or in A's, in all bits, and in the order of bytes.
fn jobs_apart(random: &mut Random) -> Expected<Answering> {
    let job = FIELDS.job_number;
    let others = (0..32).map(|bit| job ^ (1 << bit));
    let others = others.chain([!job, job.swap_bytes(), 0, u32::MAX]);
    let mut calls = Vec::new();
    for (i, other) in others.enumerate() {
        let mut call = base(random, FIELDS);
        let side = SIDES[usize::from(i % 8 == 3)];
        side(&mut call)[12..16].copy_from_slice(&other.to_be_bytes());
        calls.push((call, 1005));
    }
    calls
}

/// A's columns and B's rows one or more apart, turned about, or as far apart as they can be; the elements
/// are as many as each message says.
fn sizes_apart(random: &mut Random) -> Expected<Answering> {
    let sizes: [[u32; 4]; 12] = [
        [2, 3, 2, 4],
        [2, 3, 4, 4],
        [3, 2, 3, 2],
        [2, 3, 2, 3],
        [3, 2, 4, 3],
        [1, 6, 3, 4],
        [2, 3, 12, 1],
        [1, 1, 2, 1],
        [1, 2, 1, 1],
        [1, 3, 259, 1],
        [1, 1, 4096, 1],
        [1, 4096, 1, 1],
    ];
    let call = |[rows, inner, other, columns]: [u32; 4]| {
        let [one, another] = [inner, other].map(|inner| drawn(random, sized(rows, columns), inner));
        let (a, b, room) = (one.a, another.b, LONGEST);
        (Answering { a, b, room }, 1006)
    };
    sizes.map(call).to_vec()
}

/// Fields beyond the ends of their ranges, in A's message and in B's.
fn field_values(random: &mut Random) -> Expected<Answering> {
    let lines: [(usize, &[u8], u32); 12] = [
        (0, b"mdo", 18),
        (3, &[1, 1], 19),
        (5, &[0], 16),
        (5, &[255], 16),
        (6, &[255], 1),
        (7, &[255], 12),
        (8, &[0, 0], 2),
        (10, &[0, 0], 2),
        (8, &[0x40, 0x01], 2),
        (8, &[0x40, 0, 0, 1], 6),
        (8, &[0x10, 0x01, 0, 1], 6),
        (8, &[0x10, 0, 0, 1], 20),
    ];
    let call = base(random, FIELDS);
    let mut calls = Vec::new();
    for side in SIDES {
        calls.extend(lines.map(|(at, bytes, number)| {
            let mut call = call.clone();
            side(&mut call)[at..at + bytes.len()].copy_from_slice(bytes);
            (call, number)
        }));
    }
    calls
}

/// A's message or B's cut or made longer by a byte, an element or more.
fn lengths(random: &mut Random) -> Expected<Answering> {
    let call = base(random, FIELDS);
    let mut calls = Vec::new();
    for side in SIDES {
        let whole = side(&mut call.clone()).len();
        let lengths = [
            (0, 17),
            (1, 17),
            (15, 17),
            (16, 20),
            (whole - 4, 20),
            (whole - 1, 20),
            (whole + 1, 20),
            (whole + 4, 20),
            (2 * whole, 20),
        ];
        for (length, number) in lengths {
            let mut call = call.clone();
            side(&mut call).resize(length, 0);
            calls.push((call, number));
        }
    }
    calls
}

/// The bytes of both messages parted at another place.
fn cut_elsewhere(random: &mut Random) -> Expected<Answering> {
    let Answering { a, b, room } = base(random, FIELDS);
    let whole = [a, b].concat();
    let at = [(0, 17), (15, 17), (16, 20), (39, 20), (41, 20), (104, 20)];
    let call = |(at, number)| {
        let (a, b) = (whole[..at].to_vec(), whole[at..].to_vec());
        (Answering { a, b, room }, number)
    };
    at.map(call).to_vec()
}

/// Elements at the border of the field in A's message and in B's, for all moduli.
fn elements(random: &mut Random) -> Expected<Answering> {
    let mut calls = Vec::new();
    for (modulus, q) in primes() {
        let fields = Fields { modulus, ..FIELDS };
        let call = base(random, fields);
        let shares = [(1, 2, 3), (2, 3, 4)];
        for (side, (kind, rows, columns)) in SIDES.into_iter().zip(shares) {
            let drawn = random.elements((rows * columns) as usize, q);
            let of_side = Fields {
                kind,
                rows,
                columns,
                ..fields
            };
            let lists = border_elements(&drawn, q, 14).into_iter();
            calls.extend(lists.map(|(elements, number)| {
                let mut call = call.clone();
                *side(&mut call) = message(&of_side, &elements);
                (call, number)
            }));
        }
    }
    calls
}

/// Each byte of each header before the job number with a bit turned, the lowest and the highest: none is
/// done.
fn turned_bits(random: &mut Random) -> Vec<Answering> {
    let mut calls = Vec::new();
    for side in SIDES {
        for at in 0..12 {
            for bit in [0x01, 0x80] {
                let mut call = base(random, FIELDS);
                side(&mut call)[at] ^= bit;
                assert!(answer(&call).is_err());
                calls.push(call);
            }
        }
    }
    calls
}

/// Pairs with one random byte changed, in the elements or anywhere.
fn random_damage(random: &mut Random) -> Vec<Answering> {
    let mut calls = Vec::new();
    for (round, modulus) in moduli().cycle().take(16).enumerate() {
        let mut call = base(random, Fields { modulus, ..FIELDS });
        let message = SIDES[round / 4 % 2](&mut call);
        let first = if round % 5 == 0 { 0 } else { HEADER };
        let at = first + random.index(message.len() - first);
        message[at] = random.byte();
        calls.push(call);
    }
    calls
}
