//! The static library against a plain product, on random calls that are fit or refused. Around the
//! output lie bytes that no call may change, and a refused call may not change the output.
//!
//! Build it with `-L native=target/staticlib -l static=mukerihe`.

use std::collections::BTreeMap;
use std::ptr::{null, null_mut};

/// The separate Rust program's generator; not all of it is used here.
#[allow(dead_code)]
#[path = "../docs/src/sheet/random.rs"]
mod random;

use random::Random;

/// The library's functions, of which the product is tried here.
#[path = "../include/mukerihe.rs"]
mod libraries;

use libraries::mukerihe_product;

/// How many calls are made.
const CALLS: u32 = 6000;

/// How many calls come first, with the largest blocks.
const LARGE: u32 = 35;

/// The numbers that a call can return, each with the least count of calls that must get it.
const FLOORS: [(u32, u32); 6] = [
    (0, 2069),
    (1, 1126),
    (2, 838),
    (6, 685),
    (13, 1133),
    (14, 149),
];

/// The modulus numbers, each with the least count of calls that must be carried out.
const DONE: [(u32, u32); 4] = [(1, 519), (2, 553), (3, 499), (4, 498)];

/// How many bytes are watched before and after the output.
const GUARD: usize = 64;

/// A call: modulus number, rows, inner and columns, the two shares, the length of the output, and
/// whether an empty buffer is lent as a null pointer.
struct Call {
    modulus: u32,
    sizes: [u32; 3],
    a: Vec<u8>,
    b: Vec<u8>,
    out_length: usize,
    nulls: bool,
}

/// The prime of a modulus number.
fn prime(modulus: u32) -> Option<u32> {
    [13, 257, 65537, 2147483647]
        .get(modulus.wrapping_sub(1) as usize)
        .copied()
}

/// Elements as big-endian bytes.
fn bytes(elements: &[u32]) -> Vec<u8> {
    elements
        .iter()
        .flat_map(|element| element.to_be_bytes())
        .collect()
}

/// Big-endian bytes as elements.
fn elements(bytes: &[u8]) -> Vec<u32> {
    let fours = bytes.chunks_exact(4);
    fours
        .map(|four| u32::from_be_bytes([four[0], four[1], four[2], four[3]]))
        .collect()
}

/// What the output must hold after a call, or the number that is due.
fn due(call: &Call) -> Result<Vec<u8>, u32> {
    let q = prime(call.modulus).ok_or(1_u32)?;
    if call.sizes.iter().any(|&size| !(1..=16384).contains(&size)) {
        return Err(2);
    }
    let [rows, inner, columns] = call.sizes.map(|size| size as usize);
    let counts = [rows * inner, inner * columns, rows * columns];
    if counts.iter().any(|&count| count > 4096) {
        return Err(6);
    }
    if [call.a.len(), call.b.len(), call.out_length] != counts.map(|count| 4 * count) {
        return Err(13);
    }
    let (a, b) = (elements(&call.a), elements(&call.b));
    if a.iter().chain(&b).any(|&element| element >= q) {
        return Err(14);
    }
    let entry = |i: usize, j: usize| {
        let sum: u128 = (0..inner)
            .map(|k| u128::from(a[i * inner + k]) * u128::from(b[k * columns + j]))
            .sum();
        (sum % u128::from(q)) as u32
    };
    let cells = (0..rows).flat_map(|i| (0..columns).map(move |j| (i, j)));
    Ok(bytes(
        &cells.map(|(i, j)| entry(i, j)).collect::<Vec<u32>>(),
    ))
}

/// Makes the call and compares number, output and the bytes around it; panics where they differ.
fn compare(random: &mut Random, round: u32, call: &Call) -> u32 {
    let before: Vec<u8> = (0..call.out_length + 2 * GUARD)
        .map(|_| random.byte())
        .collect();
    let mut room = before.clone();
    let number = run(call, &mut room[GUARD..GUARD + call.out_length]);
    let mut after = before;
    let expected = due(call);
    if let Ok(product) = &expected {
        after[GUARD..GUARD + call.out_length].copy_from_slice(product);
    }
    assert_eq!(
        number,
        expected.err().unwrap_or(0),
        "call {round}: the number"
    );
    assert!(
        room == after,
        "call {round}: the output or the bytes around it"
    );
    number
}

/// Calls the library.
fn run(call: &Call, out: &mut [u8]) -> u32 {
    let pointer = |bytes: &[u8]| match call.nulls && bytes.is_empty() {
        true => null(),
        false => bytes.as_ptr(),
    };
    let out_pointer = match call.nulls && out.is_empty() {
        true => null_mut(),
        false => out.as_mut_ptr(),
    };
    let [rows, inner, columns] = call.sizes;
    // Each pointer goes with the length of its own slice, and `out` is borrowed alone.
    unsafe {
        mukerihe_product(
            call.modulus,
            rows,
            inner,
            columns,
            pointer(&call.a),
            call.a.len(),
            pointer(&call.b),
            call.b.len(),
            out_pointer,
            out.len(),
        )
    }
}

/// The sizes of a call. The first `LARGE` calls have the largest blocks; in three of them a block has
/// 4097 elements.
fn sizes(random: &mut Random, round: u32) -> [u32; 3] {
    match round {
        0..=7 => [64, 64, 64],
        8..=15 => [1, 4096, 1],
        16..=23 => [4096, 1, 1],
        24..=31 => [1, 1, 4096],
        32 => [17, 241, 1],
        33 => [1, 17, 241],
        34 => [17, 1, 241],
        _ if round % 50 == 0 => [0; 3].map(|_| random.within(1, 64)),
        _ if round % 50 == 1 => long_sizes(random),
        _ => [0; 3].map(|_| random.within(1, 9)),
    }
}

/// Sizes with a large inner one.
fn long_sizes(random: &mut Random) -> [u32; 3] {
    let inner = random.within(65, 4096);
    let [rows, columns] = [0; 2].map(|_| random.within(1, 4096 / inner));
    [rows, inner, columns]
}

/// A share of a kind: 0 has nothing but q - 1; 1 has 0, 1 and q - 1 alone, so that some sums are multiples
/// of q; any other has any elements.
fn share(random: &mut Random, kind: u32, q: u32, count: usize) -> Vec<u8> {
    let elements = match kind {
        0 => vec![q - 1; count],
        1 => (0..count).map(|_| [0, 1, q - 1][random.index(3)]).collect(),
        _ => random.elements(count, q),
    };
    bytes(&elements)
}

/// A call with exact lengths and elements below q. The first `LARGE` go through the modulus numbers, by
/// turns with nothing but q - 1 and with any elements.
fn drawn(random: &mut Random, round: u32) -> Call {
    let (modulus, kind) = match round {
        0..LARGE => (round % 4 + 1, round / 4 % 2 * 2),
        _ => (random.within(1, 4), random.within(0, 9)),
    };
    let q = prime(modulus).expect("a modulus number");
    let sizes = sizes(random, round);
    let [rows, inner, columns] = sizes.map(|size| size as usize);
    Call {
        modulus,
        sizes,
        a: share(random, kind, q, rows * inner),
        b: share(random, kind, q, inner * columns),
        out_length: 4 * rows * columns,
        nulls: round % 2 == 0,
    }
}

/// Spoils one thing in a call, by chance; some changes leave it fit.
fn spoil(random: &mut Random, call: &mut Call) {
    let which = random.index(3);
    match random.within(0, 6) {
        0 => call.modulus = [0, 5, 6, 257, 260, u32::MAX][random.index(6)],
        1 => call.sizes[which] = [0, 16385, 65536, u32::MAX][random.index(4)],
        2 => call.sizes[which] = random.within(1, 16384),
        3 => call.out_length = other_length(random, call.out_length),
        4 => spoil_length(random, &mut call.a),
        5 => spoil_length(random, &mut call.b),
        _ => {
            let q = prime(call.modulus).unwrap_or(13);
            let share = if which == 0 { &mut call.a } else { &mut call.b };
            spoil_element(random, share, q);
        }
    }
}

/// Another length: 0, a byte or an element more or less, or twice as much.
fn other_length(random: &mut Random, length: usize) -> usize {
    let short = length.saturating_sub(1);
    [
        0,
        short,
        length + 1,
        length.saturating_sub(4),
        length + 4,
        2 * length,
    ][random.index(6)]
}

/// Gives a share another length.
fn spoil_length(random: &mut Random, share: &mut Vec<u8>) {
    let length = other_length(random, share.len());
    share.resize(length, 0);
}

/// Puts q - 1, q, q + 1, 2^32 - 1 or any word over the first element, the last or any other.
fn spoil_element(random: &mut Random, share: &mut [u8], q: u32) {
    let count = share.len() / 4;
    if count > 0 {
        let at = [0, count - 1, random.index(count)][random.index(3)];
        let element = [q - 1, q, q + 1, u32::MAX, random.word()][random.index(5)];
        share[4 * at..4 * at + 4].copy_from_slice(&element.to_be_bytes());
    }
}

/// Panics unless the numbers are those of the floors, and each occurred as often as its floor says.
fn hold_floors(floors: &[(u32, u32)], counts: &BTreeMap<u32, u32>) {
    let numbers = floors.iter().map(|(number, _)| number);
    assert!(counts.keys().eq(numbers), "other numbers: {counts:?}");
    for (number, least) in floors {
        assert!(counts[number] >= *least, "{number}: not {least} calls");
    }
}

/// Makes all calls: a third as drawn, the others with one to four things spoilt.
fn main() {
    let random = &mut Random::new(2028);
    let mut counts: BTreeMap<u32, u32> = BTreeMap::new();
    let mut done: BTreeMap<u32, u32> = BTreeMap::new();
    for round in 0..CALLS {
        let mut call = drawn(random, round);
        let faults = if round < LARGE {
            0
        } else {
            round % 3 * random.within(1, 2)
        };
        (0..faults).for_each(|_| spoil(random, &mut call));
        let number = compare(random, round, &call);
        *counts.entry(number).or_default() += 1;
        if number == 0 {
            *done.entry(call.modulus).or_default() += 1;
        }
    }
    let calls: u32 = counts.values().sum();
    println!("{calls} calls of the library agree; of each number {counts:?}");
    println!("done, of each modulus number {done:?}");
    hold_floors(&FLOORS, &counts);
    hold_floors(&DONE, &done);
}
