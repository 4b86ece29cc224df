//! Texts of jobs that are refused, and of jobs that are too large for the program.
//!
//!   refusals  texts with a refused plan or share, one or two faults in each
//!   borders   texts with an element or a mask about q
//!   large     texts of jobs that are too large

use super::job_text::{sectioned, JobText};
use super::jobs::drawn;
use super::printed::{count_line, large_line, odd_line};
use crate::cases::faults::{alone, alone_and_in_pairs, Fault};
use crate::cases::folder::Case;
use crate::cases::windows::WINDOWS;
use crate::jobs::faults::{last_of, LARGE, SMALL};
use crate::sheet::listing::refused;
use crate::sheet::plan::{known_prime, primes, Job, Line, Window};
use crate::sheet::random::Random;

/// A job, and numbers too many or too few in a section.
#[derive(Clone)]
struct Spoilt {
    job: JobText,
    spoilt: Option<(usize, Count)>,
}

/// How a section's count is wrong.
#[derive(Clone, Copy)]
enum Count {
    Short,
    Long,
}

impl Spoilt {
    /// The job's prime.
    fn q(&self) -> u32 {
        known_prime(self.job.line[0])
    }

    /// Makes the count of a section wrong.
    fn count(&mut self, section: usize, count: Count) {
        self.spoilt = Some((section, count));
    }

    /// The text with each section in a line.
    fn text(&self) -> Vec<u8> {
        let mut parts = self.job.parts();
        match self.spoilt {
            Some((section, Count::Short)) => drop(parts[section].pop()),
            Some((section, Count::Long)) => parts[section].push(1),
            None => {}
        }
        sectioned(&parts)
    }

    /// What is printed where the first thing that is wrong has this number: 9 stands for the points'
    /// count, 13 for another section's.
    fn due(&self, number: u32) -> String {
        match number {
            9 | 13 => {
                let (section, count) = self.spoilt.expect("a wrong count");
                let needs = self.job.parts()[section].len();
                let has = match count {
                    Count::Short => needs - 1,
                    Count::Long => needs + 1,
                };
                match section {
                    6 => odd_line(has, 7),
                    _ => count_line(section, has, needs, section + 1),
                }
            }
            14 | 15 => self.job.plan() + &refused(number),
            _ => refused(number),
        }
    }
}

/// Faults of a text of `SMALL` or `LARGE`, in the order of the tests: several modulus numbers, one of
/// each other number for its plan, a wrong count, then one of each number for A and for B.
const FAULTS: [Fault<Spoilt>; 23] = [
    (1, |spoilt| spoilt.job.line[0] = 5),
    (1, |spoilt| spoilt.job.line[0] = 0),
    (1, |spoilt| spoilt.job.line[0] = 255),
    (1, |spoilt| spoilt.job.line[0] = 256),
    (1, |spoilt| spoilt.job.line[0] = u32::MAX),
    (2, |spoilt| spoilt.job.line[2] = 16385),
    (3, |spoilt| spoilt.job.line[5] = 9),
    (4, |spoilt| spoilt.job.line[7] = 0),
    (5, |spoilt| spoilt.job.line[3] = 9),
    (6, |spoilt| spoilt.job.line[1] = 2732),
    (7, |spoilt| spoilt.job.line[9] = 65),
    (8, |spoilt| spoilt.job.line[8] = 2),
    (29, |spoilt| spoilt.job.window[0] = spoilt.job.window[1]),
    (29, |spoilt| spoilt.job.window.reverse()),
    (9, |spoilt| spoilt.count(1, Count::Short)),
    (10, |spoilt| spoilt.job.points[7] = spoilt.q()),
    (11, |spoilt| spoilt.job.points[9] = 3),
    (13, |spoilt| spoilt.count(5, Count::Long)),
    (13, |spoilt| spoilt.count(6, Count::Short)),
    (14, |spoilt| spoilt.job.sides[0].matrix[0] = spoilt.q()),
    (15, |spoilt| spoilt.job.sides[0].masks[0] = spoilt.q()),
    (14, |spoilt| spoilt.job.sides[1].matrix[0] = spoilt.q()),
    (15, |spoilt| spoilt.job.sides[1].masks[0] = spoilt.q()),
];

/// More faults of a text of `SMALL`.
const MORE_FAULTS: [Fault<Spoilt>; 43] = [
    (1, |spoilt| spoilt.job.line[0] = 6),
    (1, |spoilt| spoilt.job.line[0] = 257),
    (1, |spoilt| spoilt.job.line[0] = 260),
    (1, |spoilt| spoilt.job.line[0] = 65540),
    (1, |spoilt| spoilt.job.line[0] = (1 << 31) + 4),
    (2, |spoilt| spoilt.job.line[1] = 0),
    (2, |spoilt| spoilt.job.line[1] = 1 << 16 | 4),
    (2, |spoilt| spoilt.job.line[2] = 1 << 31 | 3),
    (2, |spoilt| spoilt.job.line[3] = u32::MAX),
    (3, |spoilt| spoilt.job.line[4] = 0),
    (3, |spoilt| spoilt.job.line[5] = 1 << 8 | 1),
    (3, |spoilt| spoilt.job.line[6] = u32::MAX),
    (4, |spoilt| spoilt.job.line[7] = 17),
    (4, |spoilt| spoilt.job.line[8] = 0),
    (4, |spoilt| spoilt.job.line[8] = u32::MAX),
    (5, |spoilt| spoilt.job.line[1] = 5),
    (5, |spoilt| spoilt.job.line[5] = 2),
    (6, |spoilt| spoilt.job.line[3] = 2732),
    (6, |spoilt| {
        (spoilt.job.line[1], spoilt.job.line[3]) = (130, 130)
    }),
    (7, |spoilt| spoilt.job.line[9] = 0),
    (7, |spoilt| spoilt.job.line[9] = u32::MAX),
    (7, |spoilt| {
        (spoilt.job.line[0], spoilt.job.line[9]) = (1, 13)
    }),
    (8, |spoilt| spoilt.job.line[9] = 8),
    (29, |spoilt| spoilt.job.window = [0, 0]),
    (29, |spoilt| spoilt.job.window = [u32::MAX, u32::MAX]),
    (29, |spoilt| spoilt.job.window[1] = 0),
    (29, |spoilt| spoilt.job.window[0] = u32::MAX),
    (9, |spoilt| spoilt.count(1, Count::Long)),
    (10, |spoilt| spoilt.job.points[0] = 0),
    (10, |spoilt| spoilt.job.points[9] = u32::MAX),
    (10, |spoilt| {
        (spoilt.job.points[3], spoilt.job.points[7]) = (257, 2)
    }),
    (11, |spoilt| spoilt.job.points[1] = 1),
    (11, |spoilt| {
        (spoilt.job.points[3], spoilt.job.points[7]) = (2, 0)
    }),
    (14, |spoilt| spoilt.job.sides[0].matrix[5] = u32::MAX),
    (14, |spoilt| *last_of(&mut spoilt.job.sides[0].matrix) = 258),
    (14, |spoilt| {
        *last_of(&mut spoilt.job.sides[1].matrix) = 65536
    }),
    (15, |spoilt| {
        *last_of(&mut spoilt.job.sides[0].masks) = 1 << 31
    }),
    (15, |spoilt| {
        *last_of(&mut spoilt.job.sides[1].masks) = u32::MAX
    }),
    (15, |spoilt| spoilt.job.sides[1].masks[5] = 512),
    (13, |spoilt| spoilt.count(2, Count::Short)),
    (13, |spoilt| spoilt.count(3, Count::Long)),
    (13, |spoilt| spoilt.count(4, Count::Short)),
    (13, |spoilt| spoilt.count(6, Count::Long)),
];

/// Texts of `SMALL` with faults, each alone, and many in pairs; and texts of `LARGE`, with each of these
/// alone. A refused share comes after the plan.
pub fn refusals(random: &mut Random) -> Vec<Case> {
    let [small, large] = [SMALL, LARGE].map(|line| Spoilt {
        job: drawn(random, line, 0),
        spoilt: None,
    });
    let mut texts = alone_and_in_pairs(&small, &FAULTS);
    texts.extend(alone(&small, &MORE_FAULTS));
    texts.extend(alone(&large, &FAULTS));
    let cases = texts.into_iter();
    cases
        .map(|(spoilt, number)| (spoilt.text(), spoilt.due(number)))
        .collect()
}

/// For each modulus, one element or mask that is q - 1, q or q + 1.
pub fn borders(random: &mut Random) -> Vec<Case> {
    let mut cases = Vec::new();
    for (modulus, q) in primes() {
        let mut line = SMALL;
        line[0] = modulus;
        let base = drawn(random, line, 0);
        for (part, number) in [(0, 14), (1, 14), (2, 15), (3, 15)] {
            for element in [q - 1, q, q + 1] {
                let mut job = base.clone();
                let side = &mut job.sides[part % 2];
                let list = if part < 2 {
                    &mut side.matrix
                } else {
                    &mut side.masks
                };
                let at = random.index(list.len());
                list[at] = element;
                let due = match element < q {
                    true => job.due(),
                    false => job.plan() + &refused(number),
                };
                cases.push((job.text(), due));
            }
        }
    }
    cases
}

/// Plans that are accepted but need more elements than the program has room for, by one and by many, in
/// answers, A blocks or B blocks; and how many they need.
const TOO_LARGE: [(Line, usize); 17] = [
    ([1, 64, 1, 64, 1, 1, 1, 1, 1, 9], 36_864),
    ([2, 64, 64, 1, 1, 1, 1, 1, 1, 9], 36_864),
    ([3, 1, 64, 64, 1, 1, 1, 1, 1, 9], 36_864),
    ([1, 331, 1, 11, 1, 1, 1, 1, 1, 9], 32_769),
    ([2, 331, 11, 1, 1, 1, 1, 1, 1, 9], 32_769),
    ([3, 1, 11, 331, 1, 1, 1, 1, 1, 9], 32_769),
    ([3, 64, 64, 64, 1, 1, 1, 1, 1, 64], 262_144),
    ([3, 27, 1, 19, 1, 1, 1, 1, 1, 64], 32_832),
    ([3, 448, 1, 448, 7, 1, 7, 1, 1, 64], 262_144),
    ([3, 256, 256, 64, 4, 4, 1, 8, 8, 64], 262_144),
    ([2, 66, 2, 64, 2, 2, 2, 5, 5, 32], 33_792),
    ([1, 16384, 1, 1, 4, 1, 1, 1, 1, 9], 36_864),
    ([2, 1, 16384, 1, 1, 4, 1, 1, 1, 9], 36_864),
    ([3, 1, 1, 16384, 1, 1, 8, 1, 1, 17], 34_816),
    ([2, 15424, 1, 1, 8, 1, 1, 1, 1, 17], 32_776),
    ([4, 64, 64, 64, 1, 1, 1, 1, 1, 64], 262_144),
    ([4, 1, 16384, 1, 1, 8, 1, 1, 1, 17], 34_816),
];

/// The jobs that are too large, with windows in turn. The other sections are empty, or have some
/// numbers; with one point short, 0 or repeated, or without a window, the plan is refused.
pub fn large() -> Vec<Case> {
    let mut cases = Vec::new();
    for ((line, elements), window) in TOO_LARGE.into_iter().zip(WINDOWS) {
        let points: Vec<u32> = (1..=line[9]).collect();
        let of_window = |window: Window, points: &[u32], others: &[u32]| {
            let job = Job::of(&line, window).numbers(0);
            let [a, b, c, d, e] = [(); 5].map(|()| others.to_vec());
            sectioned(&[job, points.to_vec(), a, b, c, d, e])
        };
        let text = |points: &[u32], others: &[u32]| of_window(window, points, others);
        let [opening, closing] = window;
        let [mut zero, mut repeated] = [points.clone(), points.clone()];
        *last_of(&mut zero) = 0;
        *last_of(&mut repeated) = 1;
        cases.push((text(&points, &[]), large_line(elements)));
        cases.push((text(&points, &points), large_line(elements)));
        let (has, needs) = (points.len() - 1, points.len());
        cases.push((text(&points[1..], &[]), count_line(1, has, needs, 2)));
        cases.push((text(&zero, &[]), refused(10)));
        cases.push((text(&repeated, &[]), refused(11)));
        cases.push((of_window([closing, opening], &points, &[]), refused(29)));
        cases.push((of_window([closing, closing], &zero, &points), refused(29)));
    }
    cases
}
