//! Cases of drawing masks: words about the limit of each modulus, alone and mixed, skipped words in all
//! places, wanted elements about the count of usable words, and numbers that are no modulus.
//!
//!   expected        all of them
//!   lowest_skipped  the lowest word that is skipped
//!   mixed           words by chance

use crate::cases::draw::modulus_in_turn;
use crate::cases::faults::{Expected, NO_MODULUS};
use crate::sheet::masks::{limit, Drawing, WORDS};
use crate::sheet::plan::{known_prime, primes};
use crate::sheet::random::Random;

/// All cases with the refusal numbers that are due.
pub fn expected(random: &mut Random) -> Expected<Drawing> {
    let groups = [
        by_hand(),
        over_moduli(|modulus, _| no_words(modulus)),
        over_moduli(edges_alone),
        over_moduli(edge_pairs),
        over_moduli(topmost),
        over_moduli(|modulus, q| skipped_runs(random, modulus, q)),
        over_moduli(|modulus, q| mixtures(random, modulus, q)),
        no_modulus(random),
        parts(random),
        long(random),
    ];
    groups.concat()
}

/// A word, and whether it is usable.
pub type Marked = (u32, bool);

/// Cases of each modulus, made from its number and its prime.
fn over_moduli(mut made: impl FnMut(u32, u32) -> Expected<Drawing>) -> Expected<Drawing> {
    primes().flat_map(|(modulus, q)| made(modulus, q)).collect()
}

/// A call that wants so many elements; it is refused exactly where fewer words are usable.
fn of(modulus: u32, words: &[Marked], room: usize) -> (Drawing, u32) {
    let usable = words.iter().filter(|(_, is_usable)| *is_usable).count();
    let words = words.iter().map(|&(word, _)| word).collect();
    let call = Drawing {
        modulus,
        words,
        room,
    };
    (call, if usable < room { 27 } else { 0 })
}

/// The lowest word that is skipped.
pub fn lowest_skipped(q: u32) -> u32 {
    u32::try_from(limit(WORDS, q)).expect("a word is skipped for each modulus")
}

/// The words about 0, q and the limit, and the topmost.
fn edges(q: u32) -> [Marked; 6] {
    let lowest = lowest_skipped(q);
    [
        (0, true),
        (q - 1, true),
        (q, true),
        (lowest - 1, true),
        (lowest, false),
        (u32::MAX, false),
    ]
}

/// A random word that is usable; many are about multiples of q.
fn usable(random: &mut Random, q: u32) -> Marked {
    let last = lowest_skipped(q) - 1;
    let near = [0, q - 1, q, last - q, last - q + 1, last];
    match random.within(0, 1) {
        0 => (near[random.index(near.len())], true),
        _ => (random.within(0, last), true),
    }
}

/// A random word that is skipped.
fn skipped(random: &mut Random, q: u32) -> Marked {
    (random.within(lowest_skipped(q), u32::MAX), false)
}

/// The drawings of 02, U3, and of its acceptance: [4294967295, 1, 9] gives 1 by two words, and the nine
/// topmost words give nothing modulo 13. Modulo 2147483647 the two topmost words are skipped, and the
/// one below them gives 2147483646.
fn by_hand() -> Expected<Drawing> {
    let top = |below: u32| u32::MAX - below;
    let first = [(top(0), false), (1, true), (9, true)];
    let second = [
        (top(0), false),
        (top(8), false),
        (5, true),
        (13, true),
        (top(9), true),
    ];
    let third = [
        (top(1), false),
        (top(2), true),
        (top(0), false),
        (top(2), true),
        (2147483647, true),
    ];
    let mut cases: Expected<_> = (0..=3).map(|room| of(3, &first, room)).collect();
    cases.extend((0..=4).map(|room| of(1, &second, room)));
    cases.extend((0..=4).map(|room| of(4, &third, room)));
    cases
}

/// No words, with no element wanted and with some.
fn no_words(modulus: u32) -> Expected<Drawing> {
    let rooms = [0, 1, 2, 4096, 8192];
    rooms.map(|room| of(modulus, &[], room)).to_vec()
}

/// Each word about a limit by itself: no element, one and two wanted.
fn edges_alone(modulus: u32, q: u32) -> Expected<Drawing> {
    let rooms = |word| [0, 1, 2].map(|room| of(modulus, &[word], room));
    edges(q).into_iter().flat_map(rooms).collect()
}

/// Each two words about a limit in both orders: one, two and three elements wanted.
fn edge_pairs(modulus: u32, q: u32) -> Expected<Drawing> {
    let pairs = (0..36).map(|i| [edges(q)[i / 6], edges(q)[i % 6]]);
    let rooms = |pair: [Marked; 2]| [1, 2, 3].map(|room| of(modulus, &pair, room));
    pairs.flat_map(rooms).collect()
}

/// The lowest words and the topmost ones, rising and falling: as many elements as can be, and one more.
fn topmost(modulus: u32, q: u32) -> Expected<Drawing> {
    let lowest = lowest_skipped(q);
    let low = (0..40).map(|word| (word, true));
    let high = (lowest - 20..=u32::MAX).map(|word| (word, word < lowest));
    let mut cases = Vec::new();
    for rising in [low.collect::<Vec<Marked>>(), high.collect()] {
        let falling: Vec<Marked> = rising.iter().rev().copied().collect();
        let most = rising.iter().filter(|(_, is_usable)| *is_usable).count();
        for words in [rising, falling] {
            cases.extend([1, most, most + 1].map(|room| of(modulus, &words, room)));
        }
    }
    cases
}

/// Usable words, one fewer than wanted, just as many and one more, with a run of skipped ones at the
/// front, in the middle, before the last and at the end, and with none.
fn skipped_runs(random: &mut Random, modulus: u32, q: u32) -> Expected<Drawing> {
    let mut cases = Vec::new();
    for room in [1_usize, 2, 3, 16] {
        for count in room - 1..=room + 1 {
            let words: Vec<Marked> = (0..count).map(|_| usable(random, q)).collect();
            cases.push(of(modulus, &words, room));
            for at in [0, count / 2, count.saturating_sub(1), count] {
                let length = [1, 2, 3, 11][random.index(4)];
                let run = (0..length).map(|_| skipped(random, q)).collect::<Vec<_>>();
                let (front, back) = words.split_at(at);
                cases.push(of(modulus, &[front, &run, back].concat(), room));
            }
        }
    }
    cases
}

/// Words by chance, some about a limit, and up to four of six skipped.
pub fn mixed(random: &mut Random, q: u32, count: u32, skips: u32) -> Vec<Marked> {
    let word = |_| match random.within(0, 5) {
        0 => edges(q)[random.index(6)],
        way if way <= skips => skipped(random, q),
        _ => usable(random, q),
    };
    (0..count).map(word).collect()
}

/// Words by chance, few or many of them skipped, and any number of elements wanted.
fn mixtures(random: &mut Random, modulus: u32, q: u32) -> Expected<Drawing> {
    let mut cases = Vec::new();
    for round in 0..60 {
        let most = if round % 10 == 0 { 150 } else { 12 };
        let count = random.within(1, most);
        let words = mixed(random, q, count, round % 5);
        let room = random.within(0, most) as usize;
        cases.push(of(modulus, &words, room.min(words.len() + 1)));
    }
    cases
}

/// Numbers that are no modulus, with no element wanted, with enough words and with too few: there 27
/// would be due after 1.
fn no_modulus(random: &mut Random) -> Expected<Drawing> {
    let mut cases = Vec::new();
    for modulus in NO_MODULUS {
        let mut lists = [(0, 0), (3, 0), (0, 1), (2, 3), (3, 3), (4, 3)]
            .map(|(count, room)| (random.words(count), room))
            .to_vec();
        lists.push((vec![u32::MAX; 3], 0));
        let call = |(words, room)| Drawing {
            modulus,
            words,
            room,
        };
        cases.extend(lists.into_iter().map(|list| (call(list), 1)));
    }
    cases
}

/// About 256 and 512 elements, the moduli in turn, with a run of skipped words at the places where a
/// program may go on to the next part of the words; the runs are shorter and longer than a part.
fn parts(random: &mut Random) -> Expected<Drawing> {
    let mut cases = Vec::new();
    for count in [255_usize, 256, 257, 512, 513] {
        for (at, length) in [(0, 1), (254, 2), (255, 1), (256, 1), (257, 256), (count, 1)] {
            let modulus = modulus_in_turn(cases.len() as u32);
            let q = known_prime(modulus);
            let mut words: Vec<Marked> = (0..count).map(|_| usable(random, q)).collect();
            let run: Vec<Marked> = (0..length).map(|_| skipped(random, q)).collect();
            let at = at.min(count);
            words.splice(at..at, run);
            cases.push(of(modulus, &words, count));
        }
    }
    cases
}

/// Many elements, with some skipped words among those that they come from; 8192 elements are as many
/// as a case has room for. Two lists have a usable word too few.
fn long(random: &mut Random) -> Expected<Drawing> {
    let mut cases = Vec::new();
    for (modulus, room, usable) in [
        (1, 4096, 4096),
        (3, 8192, 8192),
        (2, 8192, 8191),
        (4, 4096, 4096),
        (4, 4096, 4095),
    ] {
        let lowest = lowest_skipped(known_prime(modulus));
        let word = |_| (random.within(0, lowest - 1), true);
        let mut words: Vec<Marked> = (0..usable).map(word).collect();
        for at in [0, 1, usable / 2, usable - 1] {
            words.insert(at, (random.within(lowest, u32::MAX), false));
        }
        cases.push(of(modulus, &words, room));
    }
    cases
}
