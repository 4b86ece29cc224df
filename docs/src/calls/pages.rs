//! Cases of pages to write: tables of all sizes about full panels, long ones, elements of every number of
//! digits in all places, and refused ones.
//!
//!   expected  all of them

use crate::cases::draw::modulus_in_turn;
use crate::cases::faults::{
    alone, alone_and_in_pairs, border_elements, wrong_lengths, Expected, Fault, NO_MODULUS,
};
use crate::sheet::page::{length, Paging};
use crate::sheet::page_check::BY_HAND;
use crate::sheet::plan::{known_prime, moduli, primes};
use crate::sheet::random::Random;

/// The most bytes that a case has room for.
const MOST_ROOM: usize = 400_000;

/// All cases with the refusal numbers that are due.
pub fn expected(random: &mut Random) -> Expected<Paging> {
    let groups = [
        by_hand(),
        sizes(random),
        long(random),
        digits(),
        random_fit(random),
        fault_pairs(random),
        no_modulus(random),
        no_size(random),
        lengths(random),
        large_sizes(random),
        rooms(random),
        elements(random),
        each_place(random),
    ];
    groups.concat()
}

/// A call with an output of exact length.
fn of(modulus: u32, [t, r]: [u32; 2], table: Vec<u32>) -> Paging {
    Paging {
        modulus,
        t,
        r,
        table,
        room: length(t as usize, r as usize),
    }
}

/// A call with another table and another length of its output.
fn with(base: &Paging, table: Vec<u32>, room: usize) -> Paging {
    Paging {
        table,
        room,
        ..*base
    }
}

/// A call with exact lengths and random elements of all numbers of digits.
fn drawn(random: &mut Random, modulus: u32, [t, r]: [u32; 2]) -> Paging {
    let q = known_prime(modulus);
    let table = (0..t * r).map(|_| element(random, q)).collect();
    of(modulus, [t, r], table)
}

/// A random element below q, with at most a random number of digits.
fn element(random: &mut Random, q: u32) -> u32 {
    let most = 10_u64.pow(random.within(1, 10)) - 1;
    random.within(0, most.min(u64::from(q - 1)) as u32)
}

/// The table of the page made by hand, in all sizes of 14 elements.
fn by_hand() -> Expected<Paging> {
    let sizes = [[2, 7], [7, 2], [1, 14], [14, 1]];
    sizes
        .map(|size| (of(4, size, BY_HAND.to_vec()), 0))
        .to_vec()
}

/// Rows and columns about one, two and three full panels, in all pairs; the moduli in turn.
fn sizes(random: &mut Random) -> Expected<Paging> {
    let sizes = [1, 2, 5, 6, 7, 11, 12, 13, 18, 19];
    let mut calls = Vec::new();
    for (i, t) in (0..).zip(sizes) {
        for (j, r) in (0..).zip(sizes) {
            calls.push((drawn(random, modulus_in_turn(i + j), [t, r]), 0));
        }
    }
    calls
}

/// Row and column numbers that get a digit more, and the longest column and row.
fn long(random: &mut Random) -> Expected<Paging> {
    let sizes = [
        [9, 1],
        [10, 1],
        [99, 1],
        [100, 1],
        [999, 1],
        [1000, 1],
        [9999, 1],
        [10000, 1],
        [16384, 1],
        [1, 9],
        [1, 10],
        [1, 99],
        [1, 100],
        [1, 999],
        [1, 1000],
        [1, 16384],
        [100, 13],
        [13, 100],
    ];
    let calls = (0..).zip(sizes);
    calls
        .map(|(round, size)| (drawn(random, modulus_in_turn(round + 3), size), 0))
        .collect()
}

/// The least and the largest element of each number of digits, and the largest two of all.
fn digit_ends(q: u32) -> Vec<u32> {
    let powers = (0..=9).map(|power| 10_u32.pow(power));
    let mut elements = vec![0];
    elements.extend(powers.flat_map(|power| [power - 1, power]));
    elements.extend([q - 2, q - 1]);
    elements.retain(|&element| element < q);
    elements.sort_unstable();
    elements.dedup();
    elements
}

/// For each modulus these elements alone, all over a table, and one after another in a table with two
/// panels, from each of them on: each stands in all columns.
fn digits() -> Expected<Paging> {
    let mut calls = Vec::new();
    for (modulus, q) in primes() {
        let ends = digit_ends(q);
        for (from, &element) in ends.iter().enumerate() {
            let in_turn = ends.iter().cycle().skip(from).take(24);
            calls.push((of(modulus, [1, 1], vec![element]), 0));
            calls.push((of(modulus, [2, 7], vec![element; 14]), 0));
            calls.push((of(modulus, [3, 8], in_turn.copied().collect()), 0));
        }
    }
    calls
}

/// Random tables, the moduli in turn: many small ones and some larger.
fn random_fit(random: &mut Random) -> Expected<Paging> {
    (0..160)
        .map(|round| {
            let most = if round % 9 == 0 { 40 } else { 14 };
            let size = [0; 2].map(|_| random.within(1, most));
            (drawn(random, modulus_in_turn(round), size), 0)
        })
        .collect()
}

/// The faults of a page of 2 by 13 elements, which has three panels and 485 bytes, in the order of the
/// tests. A page of 13 by 2 has 392 bytes; without blank lines there are 483.
const FAULTS: [Fault<Paging>; 37] = [
    (1, |call| call.modulus = 0),
    (1, |call| call.modulus = 5),
    (1, |call| call.modulus = 255),
    (1, |call| call.modulus = 256),
    (1, |call| call.modulus = u32::MAX),
    (2, |call| call.t = 0),
    (2, |call| call.r = 0),
    (2, |call| call.t = 16385),
    (2, |call| call.r = 16385),
    (2, |call| call.t = u32::MAX),
    (2, |call| call.r = u32::MAX),
    (2, |call| call.t = 65536 + 2),
    (2, |call| call.r = 65536 + 13),
    (2, |call| (call.t, call.r) = (26, 0)),
    (13, |call| call.table.truncate(25)),
    (13, |call| call.table.push(0)),
    (13, |call| call.table.clear()),
    (13, |call| call.t = 1),
    (13, |call| call.t = 3),
    (13, |call| call.r = 12),
    (13, |call| call.r = 14),
    (13, |call| (call.t, call.r) = (16384, 16384)),
    (28, |call| call.room = 484),
    (28, |call| call.room = 486),
    (28, |call| call.room = 0),
    (28, |call| call.room = 483),
    (28, |call| call.room = 392),
    (28, |call| call.room = MOST_ROOM),
    (28, |call| (call.t, call.r) = (call.r, call.t)),
    (28, |call| (call.t, call.r) = (26, 1)),
    (14, |call| call.table[0] = known_prime(call.modulus)),
    (14, |call| call.table[5] = u32::MAX),
    (14, |call| call.table[6] = known_prime(call.modulus)),
    (14, |call| call.table[12] = 1 << 31),
    (14, |call| call.table[13] = known_prime(call.modulus)),
    (14, |call| call.table[25] = known_prime(call.modulus)),
    (14, |call| call.table.fill(u32::MAX)),
];

/// Each fault alone and in pairs over q = 257, and each alone over the other primes.
fn fault_pairs(random: &mut Random) -> Expected<Paging> {
    let mut calls = alone_and_in_pairs(&drawn(random, 2, [2, 13]), &FAULTS);
    for modulus in moduli().filter(|&modulus| modulus != 2) {
        calls.extend(alone(&drawn(random, modulus, [2, 13]), &FAULTS));
    }
    calls
}

/// What may be wrong with a page of 2 by 3 elements beside its modulus; 1 is due all the same.
const LATER_FAULTS: [Fault<Paging>; 7] = [
    (1, |_| {}),
    (1, |call| call.t = 0),
    (1, |call| call.r = 16385),
    (1, |call| call.table.truncate(5)),
    (1, |call| call.room -= 1),
    (1, |call| call.room = 0),
    (1, |call| call.table[3] = u32::MAX),
];

/// Numbers that are no modulus, with nothing else wrong and with a later fault.
fn no_modulus(random: &mut Random) -> Expected<Paging> {
    let base = drawn(random, 1, [2, 3]);
    let calls = NO_MODULUS.map(|modulus| {
        let base = base.clone();
        alone(&Paging { modulus, ..base }, &LATER_FAULTS)
    });
    calls.concat()
}

/// Rows and columns that are none or too many, and how many elements the table has: their product, or what
/// is left of it in 32 bits, where that is small, or something else. Two tables have 16385.
#[rustfmt::skip]
const NO_SIZE: [([u32; 2], usize); 31] = [
    ([0, 0], 0), ([0, 1], 0), ([1, 0], 0), ([0, 7], 0), ([7, 0], 0), ([0, 16384], 0),
    ([16384, 0], 0), ([0, 16385], 0), ([16385, 0], 0), ([0, u32::MAX], 0), ([u32::MAX, 0], 0),
    ([0, 1], 1), ([1, 0], 1), ([0, 7], 7), ([7, 0], 7), ([16385, 1], 16385), ([1, 16385], 16385),
    ([16385, 1], 0), ([1, 16385], 0), ([16385, 1], 1), ([1, 16385], 1), ([16385, 16385], 1),
    ([65537, 1], 1), ([1, 65537], 1), ([65536, 65536], 0), ([1 << 31, 2], 0), ([2, 1 << 31], 0),
    ([u32::MAX, 1], 1), ([1, u32::MAX], 1), ([u32::MAX, u32::MAX], 1), ([1 << 30, 1], 2),
];

/// These rows and columns. The output has the length by the formula, with 1 to 16385 columns and at most as
/// many rows; with few elements there are also outputs of no byte and of a page of one element.
fn no_size(random: &mut Random) -> Expected<Paging> {
    let mut calls = Vec::new();
    for (round, ([t, r], count)) in (0..).zip(NO_SIZE) {
        let modulus = modulus_in_turn(round);
        let table = random.elements(count, known_prime(modulus));
        let near = of(modulus, [t.min(16385), r.clamp(1, 16385)], table);
        let mut rooms = vec![near.room];
        if count < 16385 {
            rooms.extend([0, 34]);
        }
        for room in rooms.into_iter().filter(|&room| room <= MOST_ROOM) {
            let call = with(&near, near.table.clone(), room);
            calls.push((Paging { t, r, ..call }, 2));
        }
    }
    calls
}

/// Tables of wrong lengths, with an output of exact length, with none, with one byte more, and with the
/// length for a column more.
fn lengths(random: &mut Random) -> Expected<Paging> {
    let mut calls = Vec::new();
    for (round, size) in (0..).zip([[1, 1], [1, 6], [6, 1], [2, 7], [5, 3], [4, 12]]) {
        let base = drawn(random, modulus_in_turn(round), size);
        let [t, r] = size.map(|size| size as usize);
        for table in wrong_lengths(&base.table) {
            for room in [base.room, 0, base.room + 1, length(t, r + 1)] {
                calls.push((with(&base, table.clone(), room), 13));
            }
        }
    }
    calls
}

/// Sizes that are fit, with far too small a table: some of the products are 0 in 16 bits.
fn large_sizes(random: &mut Random) -> Expected<Paging> {
    let sizes = [
        [16384, 16384],
        [16384, 4],
        [4, 16384],
        [256, 256],
        [16384, 1],
        [1, 16384],
        [16383, 2],
    ];
    let mut calls = Vec::new();
    for (round, size) in (0..).zip(sizes) {
        let modulus = modulus_in_turn(round);
        for count in [0, 1, 4] {
            let table = random.elements(count, known_prime(modulus));
            let base = of(modulus, size, table.clone());
            calls.push((with(&base, table, 0), 13));
        }
    }
    calls
}

/// The lengths of pages made in other ways.
fn other_pages(t: usize, r: usize) -> Vec<usize> {
    let (exact, p, lines) = (length(t, r), r.div_ceil(6), t + 1);
    vec![
        // With rows and columns in each other's place; with no blank line; with one more of them.
        length(r, t),
        exact - (p - 1),
        exact + 1,
        // With no headings; with no row numbers; with no line ends; with line ends of two bytes.
        exact - (6 * p + 11 * r),
        exact - lines * 5 * p,
        exact - lines * p,
        exact + lines * p + p - 1,
        // With cells of 10 or 12 columns; with one panel; with a panel too many; with the last panel full.
        exact - lines * r,
        exact + lines * r,
        lines * (6 + 11 * r),
        lines * (6 * (r / 6 + 1) + 11 * r) + r / 6,
        lines * 72 * p + p - 1,
        // With a row fewer; with a row or a column more.
        length(t - 1, r),
        length(t + 1, r),
        length(t, r + 1),
    ]
}

/// These lengths and others that are wrong: a byte fewer, the same low bits, as many as elements, as many
/// as a message has, the least and the most.
fn wrong_rooms(t: usize, r: usize) -> Vec<usize> {
    let exact = length(t, r);
    let mut rooms = other_pages(t, r);
    rooms.extend([exact - 1, exact + 256, exact + 65536]);
    rooms.extend([t * r, 16 + 4 * t * r, 0, 1, MOST_ROOM]);
    rooms.retain(|&room| room != exact);
    rooms
}

/// Outputs of wrong lengths, with a fit table and with an element that is q.
fn rooms(random: &mut Random) -> Expected<Paging> {
    let mut calls = Vec::new();
    for (round, size) in (0..).zip([[1, 1], [2, 7], [7, 2], [3, 6], [1, 12], [13, 13], [5, 19]]) {
        let base = drawn(random, modulus_in_turn(round), size);
        let [t, r] = size.map(|size| size as usize);
        for room in wrong_rooms(t, r) {
            let mut table = base.table.clone();
            calls.push((with(&base, table.clone(), room), 28));
            table[random.index(t * r)] = known_prime(base.modulus);
            calls.push((with(&base, table, room), 28));
        }
    }
    calls
}

/// Elements at the border of the field, for all moduli.
fn elements(random: &mut Random) -> Expected<Paging> {
    let mut calls = Vec::new();
    for (modulus, q) in primes() {
        for size in [[1, 1], [2, 7], [20, 19]] {
            let base = drawn(random, modulus, size);
            for (table, number) in border_elements(&base.table, q, 14) {
                calls.push((with(&base, table, base.room), number));
            }
        }
    }
    calls
}

/// For all moduli an element that is q, and any that is not below q, in each place of a table.
fn each_place(random: &mut Random) -> Expected<Paging> {
    let mut calls = Vec::new();
    for (modulus, q) in primes() {
        let base = drawn(random, modulus, [2, 13]);
        for at in 0..base.table.len() {
            for element in [q, random.within(q, u32::MAX)] {
                let mut table = base.table.clone();
                table[at] = element;
                calls.push((with(&base, table, base.room), 14));
            }
        }
    }
    calls
}
