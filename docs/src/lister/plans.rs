//! Lister cases that are ten well-formed numbers: every limit from both sides, faults in pairs,
//! random plans in each layout and near misses.
//!
//!   EXAMPLE       the sheet's example
//!   Expected      a line and the refusal number that it must get
//!   with          a line with one number changed
//!   at_threshold  a line with K hosts and with one fewer
//!   expected      all cases whose reply kind is known from the way they are made
//!   computed      all cases whose reply is only computed

use crate::cases::draw::{draw_in_layout, in_each_modulus, nudged};
use crate::sheet::listing::{reply, text};
use crate::sheet::plan::{choose, moduli, refusal, Job, Line};
use crate::sheet::plan_check::all_cuts;
use crate::sheet::random::Random;

/// Where each number stands in a line.
const MODULUS: usize = 0;
const T: usize = 1;
const S: usize = 2;
const R: usize = 3;
const M: usize = 4;
const P: usize = 5;
const N: usize = 6;
const X_A: usize = 7;
const X_B: usize = 8;
const HOSTS: usize = 9;

/// The sheet's example.
pub const EXAMPLE: Line = [2, 4, 4, 4, 2, 2, 2, 2, 2, 20];

/// The smallest job: everything 1, three hosts.
const SMALLEST: Line = [1, 1, 1, 1, 1, 1, 1, 1, 1, 3];

/// A line and the refusal number that it must get, 0 for an accepted one.
pub type Expected = (Line, u32);

/// The line with one number changed.
pub fn with(line: Line, field: usize, value: u32) -> Line {
    let mut changed = line;
    changed[field] = value;
    changed
}

/// The line with as many hosts as are needed, and with one fewer; with 64 where that is too few.
pub fn at_threshold(line: Line) -> Vec<Expected> {
    let needed = choose(&Job::of_line(&line)).needed;
    let hosts = |hosts, number| (with(line, HOSTS, hosts), number);
    if needed > 64 {
        return vec![hosts(64, 8)];
    }
    vec![hosts(needed, 0), hosts(needed - 1, 8)]
}

/// All cases whose reply kind is known from the way they are made.
pub fn expected(random: &mut Random) -> Vec<Expected> {
    let groups = [
        checked_by_hand(),
        cut_limits(),
        size_limits(),
        host_limits(),
        division(),
        block_limits(),
        fault_pairs(),
        extremes(),
        threshold_sides(random),
    ];
    groups.concat()
}

/// All cases whose reply is only computed.
pub fn computed(random: &mut Random) -> Vec<Line> {
    let groups = [sweeps(), random_accepted(random), near_misses(random)];
    groups.concat()
}

/// 01, "Checked by hand", and document 000's worked example, with K hosts and with one fewer.
fn checked_by_hand() -> Vec<Expected> {
    vec![
        (EXAMPLE, 0),
        (SMALLEST, 0),
        (with(SMALLEST, HOSTS, 2), 8),
        ([2, 2, 2, 3, 2, 2, 3, 2, 2, 23], 0),
        ([2, 2, 2, 3, 2, 2, 3, 2, 2, 22], 8),
        ([3, 4, 6, 9, 2, 2, 3, 5, 5, 32], 0),
        ([3, 4, 6, 9, 2, 2, 3, 5, 5, 31], 8),
        ([3, 4, 3, 4, 4, 3, 4, 2, 2, 64], 8),
        ([3, 3, 2, 2, 3, 2, 2, 7, 7, 38], 0),
        ([3, 3, 2, 2, 3, 2, 2, 7, 7, 43], 0),
        ([3, 3, 2, 2, 3, 2, 2, 7, 7, 37], 0),
        ([3, 3, 2, 2, 3, 2, 2, 7, 7, 36], 8),
        ([1, 2, 1, 2, 2, 1, 2, 3, 1, 10], 0),
        ([1, 2, 1, 2, 2, 1, 2, 3, 1, 9], 8),
        ([1, 2, 1, 2, 2, 1, 2, 3, 1, 12], 0),
        ([1, 2, 1, 2, 2, 1, 2, 3, 1, 13], 7),
        (with(SMALLEST, HOSTS, 12), 0),
        (with(SMALLEST, HOSTS, 13), 7),
        ([2, 2, 3, 2, 2, 3, 2, 2, 3, 24], 0),
        ([2, 2, 3, 2, 2, 3, 2, 2, 3, 23], 8),
        (with(EXAMPLE, MODULUS, 4), 0),
        (with(EXAMPLE, MODULUS, 5), 1),
        (with(SMALLEST, MODULUS, 4), 0),
        (with(SMALLEST, MODULUS, 5), 1),
        ([4, 3, 2, 2, 3, 2, 2, 7, 7, 37], 0),
        ([4, 3, 2, 2, 3, 2, 2, 7, 7, 36], 8),
    ]
}

/// Modulus number, m, p, n and both X at and beyond their limits; every other number is fit.
fn cut_limits() -> Vec<Expected> {
    let few: Line = [3, 8, 8, 8, 1, 1, 1, 1, 1, 12];
    let many = with(few, HOSTS, 64);
    let known: Vec<u32> = moduli().collect();
    let unknown = [0, 5, 6, 13, 255, 256, 257, 260, 65537, 65540, 99999];
    let mut list = tried(few, &[MODULUS], &known, 0);
    list.extend(tried(few, &[MODULUS], &unknown, 1));
    list.extend(tried(many, &[M, P, N], &[1, 2, 8], 0));
    list.extend(tried(many, &[M, P, N], &[0, 9, 99999], 3));
    list.extend(tried(many, &[X_A, X_B], &[1, 16], 0));
    list.extend(tried(many, &[X_A, X_B], &[0, 17, 99999], 4));
    list
}

/// t, s and r at and beyond their limits, with the number cut into 4 so that 16384 is accepted.
fn size_limits() -> Vec<Expected> {
    let one: Line = [3, 1, 1, 1, 1, 1, 1, 1, 1, 64];
    let mut list = Vec::new();
    for (size, cut) in [(T, M), (S, P), (R, N)] {
        let quarter = with(one, cut, 4);
        list.extend(tried(one, &[size], &[1, 4096], 0));
        list.extend(tried(one, &[size], &[4097, 16384], 6));
        list.extend(tried(quarter, &[size], &[4, 16380, 16384], 0));
        list.extend(tried(quarter, &[size], &[0, 16385, 16388, 99999], 2));
        list.extend(tried(quarter, &[size], &[1, 16383], 5));
    }
    list
}

/// N at and beyond its limits: 64 for the larger moduli, q - 1 = 12 for q = 13.
fn host_limits() -> Vec<Expected> {
    let large = [0, 65, 256, 320, 65600, 99999];
    let mut list = Vec::new();
    for modulus in moduli().filter(|&modulus| modulus > 1) {
        let base = with(SMALLEST, MODULUS, modulus);
        list.extend(tried(base, &[HOSTS], &[3, 12, 13, 64], 0));
        list.extend(tried(base, &[HOSTS], &large, 7));
    }
    list.extend(tried(SMALLEST, &[HOSTS], &[0, 13, 14, 64, 65, 99999], 7));
    list.extend(tried(SMALLEST, &[HOSTS], &[1, 2], 8));
    list.extend(tried(SMALLEST, &[HOSTS], &[3, 11, 12], 0));
    list
}

/// A line with each value tried in each field in turn, all with the same reply kind.
fn tried(line: Line, fields: &[usize], values: &[u32], number: u32) -> Vec<Expected> {
    let pairs = fields
        .iter()
        .flat_map(|&field| values.iter().map(move |&value| (field, value)));
    pairs
        .map(|(field, value)| (with(line, field, value), number))
        .collect()
}

/// m divides t, p divides s, n divides r, and no other pair of them is tested.
fn division() -> Vec<Expected> {
    let odd: Line = [2, 2, 3, 5, 2, 3, 5, 1, 1, 47];
    let mut list = vec![(odd, 0)];
    list.extend(tried(odd, &[T], &[1, 3], 5));
    list.extend(tried(odd, &[S], &[2, 4], 5));
    list.extend(tried(odd, &[R], &[4, 6], 5));
    list.extend(tried(odd, &[T], &[4, 30], 0));
    list.extend(tried(odd, &[S], &[6, 30], 0));
    list.extend(tried(odd, &[R], &[10, 30], 0));
    list.push(([3, 8195, 1, 1, 2, 1, 1, 1, 1, 64], 5));
    list.push(([2, 3, 5, 2, 2, 3, 5, 1, 1, 47], 5));
    list.push(([2, 5, 2, 3, 2, 3, 5, 1, 1, 47], 5));
    list
}

/// Just one of the three blocks at 4096 elements or above it, whole matrices and cut in two.
fn block_limits() -> Vec<Expected> {
    let mut list = vec![
        ([2, 64, 64, 64, 1, 1, 1, 1, 1, 3], 0),
        ([2, 65, 65, 65, 1, 1, 1, 1, 1, 3], 6),
    ];
    for (one, two) in [(T, S), (S, R), (T, R)] {
        let sized = |parts, a, b| block_case(parts, one, two, a, b);
        list.extend([1, 2].map(|parts| (sized(parts, 64, 64), 0)));
        list.extend([1, 2].map(|parts| (sized(parts, 5, 819), 0)));
        list.extend([1, 2].map(|parts| (sized(parts, 17, 241), 6)));
        list.extend([1, 2].map(|parts| (sized(parts, 65, 64), 6)));
    }
    list
}

/// A job in which t, s and r are each cut into the same number of parts; two of the block's
/// sides are given, the third is 1.
fn block_case(parts: u32, one: usize, two: usize, a: u32, b: u32) -> Line {
    let whole: Line = [2, parts, parts, parts, parts, parts, parts, 1, 1, 20];
    with(with(whole, one, a * parts), two, b * parts)
}

/// A fault: the refusal number it brings by itself, and the numbers of a line that make it.
type Fault = (u32, &'static [(usize, u32)]);

/// The faults that are put together in pairs, from an accepted base. The ones of 8 leave N
/// alone or make it 16, one below K.
const FAULTS: [Fault; 16] = [
    (1, &[(MODULUS, 0)]),
    (1, &[(MODULUS, 5)]),
    (1, &[(MODULUS, 99999)]),
    (2, &[(T, 0)]),
    (2, &[(S, 16385)]),
    (3, &[(M, 0)]),
    (3, &[(P, 9)]),
    (4, &[(X_A, 0)]),
    (4, &[(X_B, 17)]),
    (5, &[(R, 9)]),
    (6, &[(T, 16384), (S, 16)]),
    (6, &[(S, 512), (R, 512)]),
    (7, &[(HOSTS, 0)]),
    (7, &[(HOSTS, 65)]),
    (8, &[(HOSTS, 16)]),
    (8, &[(X_A, 16), (X_B, 16), (M, 4), (P, 4), (N, 4)]),
];

/// Each fault alone, for all moduli with which 20 hosts go, and each two of unlike number in unlike
/// fields: the lower number is due.
fn fault_pairs() -> Vec<Expected> {
    let base: Line = [2, 8, 8, 8, 2, 2, 2, 2, 2, 20];
    let bases = in_each_modulus(base).filter(|line| line[MODULUS] > 1);
    let of_base = |base| FAULTS.map(|fault| (faulty(base, &fault), fault.0));
    let alone = bases.flat_map(of_base);
    let pairs = FAULTS
        .iter()
        .flat_map(|low| FAULTS.iter().map(move |high| (low, high)));
    let apart = pairs.filter(|(low, high)| low.0 < high.0 && disjoint(low, high));
    let both = apart.map(|(low, high)| (faulty(faulty(base, low), high), low.0));
    alone.chain(both).collect()
}

/// A line with a fault put in.
fn faulty(line: Line, fault: &Fault) -> Line {
    fault
        .1
        .iter()
        .fold(line, |line, &(field, value)| with(line, field, value))
}

/// Whether two faults touch no number in common.
fn disjoint(one: &Fault, two: &Fault) -> bool {
    one.1
        .iter()
        .all(|(field, _)| two.1.iter().all(|(other, _)| field != other))
}

/// The largest and smallest lines: all equal numbers, the largest matrices, and for each layout
/// the accepted plan with the longest reply.
fn extremes() -> Vec<Expected> {
    let mut list = vec![
        ([0; 10], 1),
        ([99999; 10], 1),
        ([1; 10], 8),
        ([2; 10], 8),
        ([3; 10], 8),
        ([4; 10], 8),
        ([5; 10], 1),
        ([10000; 10], 1),
        ([3, 16384, 16384, 16384, 8, 8, 8, 16, 16, 64], 6),
        ([3, 16384, 8, 2, 8, 4, 1, 1, 1, 44], 0),
        ([3, 2, 16384, 2, 1, 8, 1, 1, 1, 64], 0),
        ([3, 2, 8, 16384, 1, 4, 8, 1, 1, 64], 0),
        ([3, 8, 8, 8, 8, 8, 8, 16, 16, 64], 8),
        ([3, 1, 1, 1, 1, 1, 1, 16, 16, 33], 0),
        ([3, 1, 1, 1, 1, 1, 1, 16, 16, 32], 8),
        ([2, 8, 1, 1, 8, 1, 1, 16, 16, 64], 0),
        ([4, 16384, 16384, 16384, 8, 8, 8, 16, 16, 64], 6),
        ([4, 2, 16384, 2, 1, 8, 1, 1, 1, 64], 0),
        ([4, 8, 8, 8, 8, 8, 8, 16, 16, 64], 8),
        ([4, 1, 1, 1, 1, 1, 1, 16, 16, 33], 0),
    ];
    list.extend(longest().map(|line| (line, 0)));
    list
}

/// For each layout the accepted cut whose listing has the most bytes.
fn longest() -> [Line; 3] {
    let mut longest = [(0, EXAMPLE); 3];
    for job in all_cuts() {
        let (layout, line) = (choose(&job), job.line());
        if layout.needed <= 64 {
            let length = reply(&text(&line)).len();
            let so_far = &mut longest[layout.number as usize - 1];
            *so_far = (*so_far).max((length, line));
        }
    }
    longest.map(|(_, line)| line)
}

/// Each field of the example set to values that a shorter number type would mix up.
fn sweeps() -> Vec<Line> {
    let values = |own: u32| [own + 256, own + 65536, 99999];
    let changed = |field: usize| values(EXAMPLE[field]).map(|value| with(EXAMPLE, field, value));
    (0..10).flat_map(changed).collect()
}

/// Plans at both sides of test 8, the layouts in turn: N = K and N = K - 1, K = 64 and K = 65 for 64
/// hosts, and K = 12 and K = 13 over q = 13 with 12 hosts, for the layouts with which this goes.
fn threshold_sides(random: &mut Random) -> Vec<Expected> {
    let mut list = Vec::new();
    for round in 0..9 {
        let number = round % 3 + 1;
        list.extend(at_threshold(draw_in_layout(random, number, |k| k <= 64)));
        list.push((draw_in_layout(random, number, |k| k == 64), 0));
        list.push((draw_in_layout(random, number, |k| k == 65), 8));
        if number < 3 {
            list.push((small_field(random, number, 12), 0));
            list.push((small_field(random, number, 13), 8));
        }
    }
    list
}

/// A plan over q = 13 with 12 hosts and the given K.
fn small_field(random: &mut Random, number: u32, needed: u32) -> Line {
    let line = draw_in_layout(random, number, |k| k == needed);
    with(with(line, MODULUS, 1), HOSTS, 12)
}

/// Accepted plans with blocks of many sizes, the layouts in turn.
fn random_accepted(random: &mut Random) -> Vec<Line> {
    (0..120)
        .map(|round| draw_accepted(random, round % 3 + 1))
        .collect()
}

/// A random accepted plan in a layout.
fn draw_accepted(random: &mut Random, number: u32) -> Line {
    let line = draw_in_layout(random, number, |needed| needed <= 64);
    let k = choose(&Job::of_line(&line)).needed;
    let lowest = if k <= 12 { 1 } else { 2 };
    let modulus = random.within(lowest, *moduli().end());
    let hosts = random.within(k, if modulus == 1 { 12 } else { 64 });
    loop {
        let sized = scaled(random, with(with(line, MODULUS, modulus), HOSTS, hosts));
        if refusal(&Job::of_line(&sized), &(1..=hosts).collect::<Vec<u32>>()).is_none() {
            return sized;
        }
    }
}

/// The line with t, s and r multiplied by random numbers of 1 to 12 bits.
fn scaled(random: &mut Random, line: Line) -> Line {
    let mut changed = line;
    for field in [T, S, R] {
        let bits = random.within(0, 11);
        changed[field] *= random.within(1, 2 << bits);
    }
    changed
}

/// Accepted plans with one number changed a little, or two.
fn near_misses(random: &mut Random) -> Vec<Line> {
    (0..90)
        .map(|round| draw_near_miss(random, round % 3 + 1, round / 3 % 3 == 0))
        .collect()
}

/// An accepted plan with one random number nudged, or two of them.
fn draw_near_miss(random: &mut Random, number: u32, twice: bool) -> Line {
    let accepted = draw_accepted(random, number);
    let once = nudged(random, accepted);
    if twice {
        nudged(random, once)
    } else {
        once
    }
}
