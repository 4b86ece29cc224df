//! Cases of products and shares with the largest sums (02, U4): nothing but q - 1, elements near it, and
//! counts whose sums of products are just below q and just above it.
//!
//!   products     all products
//!   shares       all shares
//!   edge_points  points at both ends of the field, and others by chance

use super::products;
use super::shares::{drawn, SIDES};
use crate::cases::faults::Expected;
use crate::sheet::plan::{choose, known_prime, primes, Job, Line};
use crate::sheet::product::{product, Multiplying};
use crate::sheet::random::Random;
use crate::sheet::share::Sharing;

/// All products, with the refusal numbers that are due.
pub fn products(random: &mut Random) -> Expected<Multiplying> {
    [all_largest(), near_largest(random), counts()].concat()
}

/// A product with one element all over A, and one all over B.
fn uniform(modulus: u32, sizes: [u32; 3], a: u32, b: u32) -> Multiplying {
    let [rows, inner, columns] = sizes;
    Multiplying {
        modulus,
        rows,
        inner,
        columns,
        a: vec![a; (rows * inner) as usize],
        b: vec![b; (inner * columns) as usize],
        room: (rows * columns) as usize,
    }
}

/// Nothing but q - 1: for each modulus sums of few products and of 63 and 64, and for the largest prime
/// the longest sums.
fn all_largest() -> Expected<Multiplying> {
    let mut calls = Vec::new();
    for (modulus, q) in primes() {
        for inner in (1..=10).chain([63, 64]) {
            let sizes = [[1, inner, 1], [3, inner, 2]];
            calls.extend(sizes.map(|sizes| (uniform(modulus, sizes, q - 1, q - 1), 0)));
        }
    }
    for sizes in [[1, 4095, 1], [1, 4096, 1], [1, 2047, 2]] {
        calls.push((uniform(4, sizes, 2147483646, 2147483646), 0));
    }
    calls
}

/// Elements near q - 1 for the largest prime; some are 0 or 1.
fn near_largest(random: &mut Random) -> Expected<Multiplying> {
    let q = known_prime(4);
    let mut calls = Vec::new();
    for _ in 0..60 {
        let sizes = [9; 3].map(|most| random.within(1, most));
        let mut call = products::drawn(random, 4, sizes);
        for element in call.a.iter_mut().chain(&mut call.b) {
            *element = match random.within(0, 9) {
                0 => random.within(0, 1),
                _ => random.within(q - 9, q - 1),
            };
        }
        calls.push((call, 0));
    }
    calls
}

/// Sums of so many equal products of counts, for the largest prime: just below q, and just above it. Some
/// are 2^31, and so 1 mod q.
fn counts() -> Expected<Multiplying> {
    let sums: [(u32, u32, u32); 12] = [
        (1, 46340, 46340),
        (1, 46341, 46341),
        (2, 32767, 32767),
        (2, 32768, 32768),
        (5, 20724, 20724),
        (5, 20725, 20725),
        (64, 5792, 5792),
        (64, 5793, 5793),
        (64, 65535, 512),
        (64, 65536, 512),
        (4096, 724, 724),
        (4096, 725, 725),
    ];
    let call = |(inner, a, b): (u32, u32, u32)| {
        let call = uniform(4, [1, inner, 1], a, b);
        let exact = u64::from(inner) * u64::from(a) * u64::from(b);
        assert_eq!(product(&call), Ok(vec![(exact % 2147483647) as u32]));
        (call, 0)
    };
    sums.map(call).to_vec()
}

/// Jobs over the largest prime in each layout: groups of 1, 4, 5 and 16, and 48 blocks of A or of B.
const JOBS: [(Line, u32); 13] = [
    ([4, 2, 3, 1, 1, 1, 1, 1, 1, 5], 1),
    ([4, 2, 3, 1, 1, 1, 1, 4, 4, 9], 1),
    ([4, 2, 3, 1, 1, 1, 1, 5, 5, 11], 1),
    ([4, 2, 3, 1, 1, 1, 1, 16, 16, 33], 1),
    ([4, 2, 6, 2, 1, 2, 2, 1, 1, 8], 2),
    ([4, 4, 3, 1, 2, 1, 1, 4, 4, 11], 2),
    ([4, 4, 3, 1, 2, 1, 1, 5, 5, 13], 2),
    ([4, 4, 3, 1, 2, 1, 1, 16, 16, 35], 2),
    ([4, 4, 3, 2, 2, 1, 2, 4, 4, 15], 3),
    ([4, 4, 3, 2, 2, 1, 2, 5, 5, 17], 3),
    ([4, 4, 3, 2, 2, 1, 2, 16, 16, 39], 3),
    ([4, 8, 6, 1, 8, 6, 1, 1, 1, 62], 1),
    ([4, 1, 6, 8, 1, 6, 8, 1, 1, 62], 2),
];

/// Shares of matrices and masks that are nothing but q - 1, for hosts with the points q - 1, q - 2, 1
/// and 2 and for one with any other.
pub fn shares(random: &mut Random) -> Expected<Sharing> {
    let mut calls = Vec::new();
    for (line, number) in JOBS {
        assert_eq!(choose(&Job::of_line(&line)).number, number);
        for side in SIDES {
            let mut call = drawn(random, side, line, 1);
            let q = known_prime(line[0]);
            call.matrix.fill(q - 1);
            call.masks.fill(q - 1);
            call.points = edge_points(random, line[9], q);
            let of_host = |host| Sharing {
                host,
                ..call.clone()
            };
            calls.extend((1..=5).map(|host| (of_host(host), 0)));
        }
    }
    calls
}

/// Points of so many hosts: q - 1, q - 2, 1, 2, and others by chance.
pub fn edge_points(random: &mut Random, hosts: u32, q: u32) -> Vec<u32> {
    let mut points = vec![q - 1, q - 2, 1, 2];
    points.truncate(hosts as usize);
    while points.len() < hosts as usize {
        let point = random.within(3, q - 3);
        if !points.contains(&point) {
            points.push(point);
        }
    }
    points
}
