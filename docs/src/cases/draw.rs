//! Random plans: cuts of a wanted kind, in each layout, and near misses.
//!
//!   turn             a modulus and a layout for a round
//!   turns            after how many rounds all of them have had their turn
//!   modulus_in_turn  a modulus for a round
//!   in_each_modulus  a line with each modulus number
//!   draw_cut         a random cut of a wanted kind
//!   draw_in_layout   a random cut for which a layout is chosen
//!   nudged           a line with a number changed

use crate::sheet::plan::{choose, moduli, primes, Job, Line};
use crate::sheet::random::Random;

/// The modulus numbers and layouts that go together: layout 3 is never chosen with K below 13, and with
/// q = 13 there are at most 12 hosts.
fn fit_pairs() -> Vec<(u32, u32)> {
    let of_layout = |layout: u32| {
        let fit = primes().filter(move |&(_, q)| layout < 3 || q > 13);
        fit.map(move |(modulus, _)| (modulus, layout))
    };
    (1..=3).flat_map(of_layout).collect()
}

/// A modulus number and a layout for a round, all that go together in turn.
pub fn turn(round: u32) -> (u32, u32) {
    fit_pairs()[(round % turns()) as usize]
}

/// After how many rounds all of them have had their turn.
pub fn turns() -> u32 {
    fit_pairs().len() as u32
}

/// A modulus number for a round, all in turn.
pub fn modulus_in_turn(round: u32) -> u32 {
    round % moduli().end() + 1
}

/// A line with each modulus number.
pub fn in_each_modulus(line: Line) -> impl Iterator<Item = Line> {
    moduli().map(move |modulus| {
        let mut changed = line;
        changed[0] = modulus;
        changed
    })
}

/// A random cut of a wanted kind; every block holds one element.
pub fn draw_cut(random: &mut Random, wanted: impl Fn(&Job) -> bool) -> Line {
    loop {
        let [m, p, n] = [8; 3].map(|most| random.within(1, most));
        let [x_a, x_b] = [16; 2].map(|most| random.within(1, most));
        let modulus = random.within(2, *moduli().end());
        let line = [modulus, m, p, n, m, p, n, x_a, x_b, 64];
        if wanted(&Job::of_line(&line)) {
            return line;
        }
    }
}

/// A random cut for which the layout of this number is chosen, with a wanted threshold.
pub fn draw_in_layout(random: &mut Random, number: u32, wanted: impl Fn(u32) -> bool) -> Line {
    draw_cut(random, |job| {
        let layout = choose(job);
        layout.number == number && wanted(layout.needed)
    })
}

/// A line with one random number one lower, one higher, doubled, 0, or anything.
pub fn nudged(random: &mut Random, line: Line) -> Line {
    let field = random.index(line.len());
    let old = line[field];
    let value = match random.within(0, 5) {
        0 | 1 => old.saturating_sub(1),
        2 | 3 => old + 1,
        4 => 2 * old,
        _ => random.within(0, 99999),
    };
    let mut changed = line;
    changed[field] = value.min(99999);
    changed
}
