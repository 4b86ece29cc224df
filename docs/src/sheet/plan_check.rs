//! The plan checked: against brute force over the exponents, against the values that the sheet has
//! checked by hand, and against the papers' tables.
//!
//!   TABLE_IV  thresholds of document 004
//!   run       checks the plan
//!   cut       a job that matters only for its exponents
//!   all_cuts  all of them

use super::plan::{choose, layouts, moduli, prime, refusal, thresholds, Job, Layout};

/// Document 004, table IV, as far as the sheet's limits go: p, m, n, the size of both groups, and K.
#[rustfmt::skip]
pub const TABLE_IV: [[u32; 5]; 12] = [
    [2, 2, 2, 2, 17], [2, 2, 2, 5, 25], [2, 2, 3, 2, 23], [2, 2, 3, 5, 32], [2, 3, 2, 2, 23],
    [2, 3, 2, 7, 37], [3, 2, 2, 7, 37], [3, 4, 4, 2, 69], [4, 3, 3, 2, 55], [4, 5, 5, 2, 131],
    [5, 4, 4, 2, 109], [5, 5, 5, 2, 161],
];

/// Panics unless the plan agrees with everything below.
pub fn run() {
    modulus_numbers();
    hand_values();
    table_iv();
    point_tests();
    large_point_tests();
    for cut in all_cuts() {
        let layouts = layouts(&cut);
        choice(&cut, layouts.each_ref().map(|layout| layout.needed));
        layouts.iter().for_each(|layout| sound(&cut, layout));
    }
}

/// The primes of 01, "The job", and of 02, U4; 1 is told for 0 and from 5 on, whatever else is wrong.
fn modulus_numbers() {
    let primes = moduli().map(prime);
    assert!(primes.eq([13, 257, 65537, 2147483647].map(Some)));
    for modulus in [0, 5, 6, 255, 256, 260, 65540, u32::MAX] {
        let fit = cut(1, 1, 1, 1, 1);
        assert_eq!(refusal(&Job { modulus, ..fit }, &[1, 2, 3]), Some(1));
        let all_zero = Job::of_line(&[modulus, 0, 0, 0, 0, 0, 0, 0, 0, 0]);
        assert_eq!(refusal(&all_zero, &[]), Some(1));
    }
}

/// A job that matters only for its exponents: every block holds one element.
pub fn cut(m: u32, p: u32, n: u32, x_a: u32, x_b: u32) -> Job {
    Job {
        modulus: 3,
        t: m,
        s: p,
        r: n,
        m,
        p,
        n,
        x_a,
        x_b,
        hosts: 64,
        opening: 0,
        closing: 1,
    }
}

/// All cuts: m, p, n in 1..8 and both X in 1..16.
pub fn all_cuts() -> impl Iterator<Item = Job> {
    let sizes = (0..512).map(|i| [i / 64 + 1, i / 8 % 8 + 1, i % 8 + 1]);
    let masks = |i: u32| [i / 16 + 1, i % 16 + 1];
    let pairs = sizes.flat_map(move |size| (0..256).map(move |i| (size, masks(i))));
    pairs.map(|([m, p, n], [x_a, x_b])| cut(m, p, n, x_a, x_b))
}

/// The thresholds and layouts of 01, "Checked by hand", and of 02, U2; document 000's worked example;
/// and ties between layouts 2 and 3 and between all three.
fn hand_values() {
    threshold(cut(1, 1, 1, 1, 1), [3, 3, 3], 1);
    threshold(cut(2, 2, 3, 2, 2), [23, 23, 27], 1);
    threshold(cut(2, 2, 3, 5, 5), [32, 35, 33], 1);
    threshold(cut(4, 3, 4, 2, 2), [69, 69, 99], 1);
    threshold(cut(3, 2, 2, 7, 7), [43, 38, 37], 3);
    threshold(cut(2, 1, 2, 3, 1), [10, 12, 11], 1);
    threshold(cut(2, 2, 2, 5, 5), [26, 26, 25], 3);
    threshold(cut(2, 3, 2, 2, 3), [25, 24, 28], 2);
    threshold(cut(3, 1, 2, 3, 3), [19, 17, 17], 2);
    threshold(cut(2, 2, 2, 4, 4), [23, 23, 23], 1);
    let hosts: Vec<u32> = (1..=64).collect();
    assert_eq!(refusal(&cut(4, 3, 4, 2, 2), &hosts), Some(8));
}

/// Panics unless the layouts have these thresholds and the one with this number is chosen.
fn threshold(job: Job, needed: [u32; 3], number: usize) {
    assert_eq!(thresholds(&job), needed);
    let chosen = choose(&job);
    assert_eq!(
        (chosen.number as usize, chosen.needed),
        (number, needed[number - 1])
    );
}

/// Panics unless the chosen layouts have the thresholds of document 004.
fn table_iv() {
    for [p, m, n, x, needed] in TABLE_IV {
        assert_eq!(choose(&cut(m, p, n, x, x)).needed, needed);
    }
}

/// Panics unless the chosen layout has the smallest threshold, at a tie the lowest number; layouts 1
/// and 3 tie just where m = 1 or X_B = np, layouts 2 and 3 just where n = 1 or X_A = mp; layout 3 is
/// chosen just where both groups are larger than that and m and n are not 1, and then needs 13; and
/// groups of one size have the threshold of document 001, corollary 1.
fn choice(job: &Job, [one, two, three]: [u32; 3]) {
    let Job {
        m, p, n, x_a, x_b, ..
    } = *job;
    let number = if one <= two && one <= three {
        1
    } else if two <= three {
        2
    } else {
        3
    };
    let chosen = choose(job);
    assert_eq!(chosen.number, number);
    assert_eq!(chosen.needed, one.min(two).min(three));
    assert_eq!(one == three, m == 1 || x_b == n * p);
    assert_eq!(two == three, n == 1 || x_a == m * p);
    assert_eq!(number == 3, m > 1 && n > 1 && x_b > n * p && x_a > m * p);
    assert!(number < 3 || three >= 13);
    if x_a == x_b {
        let corollary = [
            (m + 1) * (n * p + x_a) - 1,
            (n + 1) * (m * p + x_a) - 1,
            2 * m * p * n + 2 * x_a - 1,
        ];
        assert_eq!(Some(&chosen.needed), corollary.iter().min());
    }
}

/// The tests on evaluation points, which no lister case can reach.
fn point_tests() {
    let job = Job {
        modulus: 1,
        hosts: 3,
        ..cut(1, 1, 1, 1, 1)
    };
    assert_eq!(refusal(&job, &[1, 2, 3]), None);
    assert_eq!(refusal(&job, &[12, 1, 7]), None);
    assert_eq!(refusal(&job, &[1, 2]), Some(9));
    assert_eq!(refusal(&job, &[0, 0, 0, 0]), Some(9));
    assert_eq!(refusal(&job, &[1, 0, 1]), Some(10));
    assert_eq!(refusal(&job, &[1, 13, 1]), Some(10));
    assert_eq!(refusal(&job, &[5, 5, 0]), Some(11));
}

/// The same for q = 2147483647: q - 1 is a point, q is none.
fn large_point_tests() {
    let (q, hosts) = (2147483647, 3);
    let job = Job {
        modulus: 4,
        hosts,
        ..cut(1, 1, 1, 1, 1)
    };
    assert_eq!(refusal(&job, &[q - 1, 1, q - 2]), None);
    assert_eq!(refusal(&job, &[q - 1, q]), Some(9));
    assert_eq!(refusal(&job, &[q - 1, q, q - 1]), Some(10));
    assert_eq!(refusal(&job, &[q - 1, 0, q - 1]), Some(10));
    assert_eq!(refusal(&job, &[1, 2, u32::MAX]), Some(10));
    assert_eq!(refusal(&job, &[q - 1, q - 1, q]), Some(11));
    assert_eq!(refusal(&job, &[q - 1, 1, q - 1]), Some(11));
}

/// Panics unless a layout does what it is for: each side's exponents are distinct, the masks'
/// follow one another above all blocks, K is the largest sum of exponents and 1, and just the
/// pairs A(k,l), B(l,j) fall on the place of C(k,j).
fn sound(job: &Job, layout: &Layout) {
    side(&layout.a_blocks, &layout.a_masks);
    side(&layout.b_blocks, &layout.b_masks);
    let pairs = pairs_at_each_sum(layout);
    assert_eq!(
        layout.needed as usize,
        pairs.len(),
        "K is not the largest sum and 1"
    );
    for (i, &place) in layout.places.iter().enumerate() {
        let (k, j) = (i / job.n as usize, i % job.n as usize);
        assert_eq!(
            pairs[place as usize], job.p,
            "a foreign pair on a place of C"
        );
        assert!((0..job.p as usize).all(|l| meeting(job, layout, k, l, j) == place));
    }
}

/// The exponent on which A(k,l) and B(l,j) meet, indices from 0.
fn meeting(job: &Job, layout: &Layout, k: usize, l: usize, j: usize) -> u32 {
    layout.a_blocks[k * job.p as usize + l] + layout.b_blocks[l * job.n as usize + j]
}

/// Panics unless the blocks' exponents are distinct and the masks' follow one another above them.
fn side(blocks: &[u32], masks: &[u32]) {
    let mut sorted = blocks.to_vec();
    sorted.sort_unstable();
    assert!(sorted.windows(2).all(|two| two[0] < two[1]));
    assert!(masks.windows(2).all(|two| two[0] + 1 == two[1]));
    assert!(blocks.iter().all(|&block| block < masks[0]));
}

/// For each sum from 0 to the largest, how many pairs of an A and a B exponent have it.
fn pairs_at_each_sum(layout: &Layout) -> Vec<u32> {
    let of_side = |blocks: &[u32], masks: &[u32]| [blocks, masks].concat();
    let a = of_side(&layout.a_blocks, &layout.a_masks);
    let b = of_side(&layout.b_blocks, &layout.b_masks);
    let largest = |exponents: &[u32]| exponents.iter().copied().max().unwrap_or(0);
    let mut pairs = vec![0; (largest(&a) + largest(&b)) as usize + 1];
    for x in &a {
        b.iter().for_each(|y| pairs[(x + y) as usize] += 1);
    }
    pairs
}
