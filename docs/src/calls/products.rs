//! Cases of the product call: fit ones of every shape, and refused ones.

use crate::cases::draw::modulus_in_turn;
use crate::cases::faults::{
    alone, alone_and_in_pairs, border_elements, wrong_lengths, Expected, Fault,
};
use crate::sheet::plan::{known_prime, moduli, primes};
use crate::sheet::product::Multiplying;
use crate::sheet::random::Random;

/// All cases with the refusal numbers that are due.
pub fn expected(random: &mut Random) -> Expected<Multiplying> {
    let groups = [
        checked_by_hand(),
        random_fit(random),
        fillings(random),
        large_blocks(random),
        fault_pairs(random),
        size_limits(random),
        lengths(random),
        elements(random),
    ];
    groups.concat()
}

/// A product of two single elements over q = 13.
pub fn by_hand(a: u32, b: u32) -> Multiplying {
    Multiplying {
        modulus: 1,
        rows: 1,
        inner: 1,
        columns: 1,
        a: vec![a],
        b: vec![b],
        room: 1,
    }
}

/// 01, "Checked by hand": the three answers, and the ends of the field.
fn checked_by_hand() -> Expected<Multiplying> {
    let pairs = [(12, 0), (6, 9), (0, 5), (12, 12), (0, 0), (1, 12)];
    pairs.iter().map(|&(a, b)| (by_hand(a, b), 0)).collect()
}

/// A call with exact lengths and random elements.
pub fn drawn(random: &mut Random, modulus: u32, sizes: [u32; 3]) -> Multiplying {
    let q = known_prime(modulus);
    let [rows, inner, columns] = sizes;
    Multiplying {
        modulus,
        rows,
        inner,
        columns,
        a: random.elements((rows * inner) as usize, q),
        b: random.elements((inner * columns) as usize, q),
        room: (rows * columns) as usize,
    }
}

/// Random products, the moduli in turn: many small ones and some larger.
fn random_fit(random: &mut Random) -> Expected<Multiplying> {
    (0..200)
        .map(|round| {
            let most = if round % 9 == 0 { 17 } else { 6 };
            let sizes = [0; 3].map(|_| random.within(1, most));
            (drawn(random, modulus_in_turn(round), sizes), 0)
        })
        .collect()
}

/// Both shares all 0, all q - 1 or random, for all moduli.
fn fillings(random: &mut Random) -> Expected<Multiplying> {
    let mut calls = Vec::new();
    for (modulus, q) in primes() {
        for i in 0..9 {
            let mut call = drawn(random, modulus, [2, 3, 4]);
            for (share, way) in [(&mut call.a, i / 3), (&mut call.b, i % 3)] {
                match way {
                    0 => share.fill(0),
                    1 => share.fill(q - 1),
                    _ => {}
                }
            }
            calls.push((call, 0));
        }
    }
    calls
}

/// Blocks of 4096 elements and the longest sums, some with nothing but q - 1.
fn large_blocks(random: &mut Random) -> Expected<Multiplying> {
    let lines = [
        (1, [64, 64, 64], true),
        (2, [64, 64, 64], false),
        (3, [64, 64, 64], true),
        (1, [1, 4096, 1], false),
        (3, [1, 4096, 1], true),
        (3, [4096, 1, 1], false),
        (2, [1, 1, 4096], false),
        (3, [64, 1, 64], false),
        (2, [1, 4096, 1], true),
        (4, [64, 64, 64], true),
        (4, [1, 4096, 1], false),
        (4, [1, 1, 4096], true),
    ];
    let mut calls = Vec::new();
    for (modulus, sizes, greatest) in lines {
        let mut call = drawn(random, modulus, sizes);
        if greatest {
            let q = known_prime(modulus);
            call.a.fill(q - 1);
            call.b.fill(q - 1);
        }
        calls.push((call, 0));
    }
    calls
}

/// The faults of a product of 2 by 3 and 3 by 4, in the order of the tests.
const FAULTS: [Fault<Multiplying>; 26] = [
    (1, |call| call.modulus = 0),
    (1, |call| call.modulus = 5),
    (1, |call| call.modulus = 255),
    (1, |call| call.modulus = 256),
    (1, |call| call.modulus = u32::MAX),
    (2, |call| call.rows = 0),
    (2, |call| call.inner = 0),
    (2, |call| call.columns = 0),
    (2, |call| call.rows = 16385),
    (2, |call| call.inner = u32::MAX),
    (2, |call| call.columns = 65536),
    (6, |call| call.rows = 1366),
    (6, |call| call.columns = 1366),
    (6, |call| (call.rows, call.columns) = (65, 64)),
    (6, |call| (call.rows, call.columns) = (16384, 16384)),
    (13, |call| call.a.truncate(5)),
    (13, |call| call.a.push(0)),
    (13, |call| call.b.truncate(11)),
    (13, |call| call.b.push(0)),
    (13, |call| call.room = 7),
    (13, |call| call.room = 9),
    (13, |call| call.room = 0),
    (14, |call| call.a[0] = known_prime(call.modulus)),
    (14, |call| call.a[4] = u32::MAX),
    (14, |call| call.b[0] = known_prime(call.modulus)),
    (14, |call| call.b[10] = u32::MAX),
];

/// Each fault alone and in pairs over q = 257, and each alone over the other primes.
fn fault_pairs(random: &mut Random) -> Expected<Multiplying> {
    let mut calls = alone_and_in_pairs(&drawn(random, 2, [2, 3, 4]), &FAULTS);
    for modulus in moduli().filter(|&modulus| modulus != 2) {
        calls.extend(alone(&drawn(random, modulus, [2, 3, 4]), &FAULTS));
    }
    calls
}

/// Blocks of over 4096 elements with exact lengths, and sizes at both sides of 16384.
fn size_limits(random: &mut Random) -> Expected<Multiplying> {
    let mut calls = vec![
        (drawn(random, 3, [65, 1, 64]), 6),
        (drawn(random, 3, [65, 64, 1]), 6),
        (drawn(random, 3, [1, 64, 65]), 6),
    ];
    for (sizes, number) in [
        ([4097, 1, 1], 6),
        ([1, 4097, 1], 6),
        ([1, 1, 4097], 6),
        ([16384, 1, 1], 6),
        ([1, 16384, 1], 6),
        ([1, 1, 16384], 6),
        ([16385, 1, 1], 2),
        ([1, 16385, 1], 2),
        ([1, 1, 16385], 2),
        ([16384, 16384, 16384], 6),
        ([65536, 65536, 65536], 2),
        ([u32::MAX, u32::MAX, u32::MAX], 2),
        ([0, 0, 0], 2),
    ] {
        let mut call = drawn(random, 1, [1, 1, 1]);
        [call.rows, call.inner, call.columns] = sizes;
        calls.push((call, number));
    }
    calls
}

/// Shares and output of wrong lengths.
fn lengths(random: &mut Random) -> Expected<Multiplying> {
    let mut calls = Vec::new();
    for sizes in [[1, 1, 1], [2, 3, 4], [5, 2, 1]] {
        let base = drawn(random, 3, sizes);
        for a in wrong_lengths(&base.a) {
            let call = base.clone();
            calls.push((Multiplying { a, ..call }, 13));
        }
        for b in wrong_lengths(&base.b) {
            let call = base.clone();
            calls.push((Multiplying { b, ..call }, 13));
        }
        for room in [0, base.room - 1, base.room + 1, 4 * base.room, 4096, 8192] {
            let call = base.clone();
            calls.push((Multiplying { room, ..call }, 13));
        }
    }
    calls
}

/// Elements at the border of the field, for all moduli.
fn elements(random: &mut Random) -> Expected<Multiplying> {
    let mut calls = Vec::new();
    for (modulus, q) in primes() {
        for sizes in [[1, 1, 1], [3, 2, 2]] {
            let base = drawn(random, modulus, sizes);
            for (a, number) in border_elements(&base.a, q, 14) {
                let call = base.clone();
                calls.push((Multiplying { a, ..call }, number));
            }
            for (b, number) in border_elements(&base.b, q, 14) {
                let call = base.clone();
                calls.push((Multiplying { b, ..call }, number));
            }
        }
    }
    calls
}
