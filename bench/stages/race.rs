//! Two contestants timed by turns, round by round, in one process.

use std::time::Instant;

/// How long a round of one contestant is at least, in microseconds; a short call is made many times.
const ROUND: f64 = 30.0;

/// How long a race is, in microseconds, and how many rounds it has at least and at most.
const RACE: f64 = 300_000.0;
const FEWEST: usize = 301;
const MOST: usize = 4001;

/// Who makes a call.
#[derive(Clone, Copy)]
pub enum Contestant {
    Library,
    Plain,
}

/// The microseconds of one call: of the median round and of the fastest, for each contestant.
#[derive(Clone, Copy)]
pub struct Times {
    pub library: [f64; 2],
    pub plain: [f64; 2],
}

/// The microseconds that one of so many calls takes.
fn timed(calls: usize, call: &mut dyn FnMut(Contestant), contestant: Contestant) -> f64 {
    let from = Instant::now();
    for _ in 0..calls {
        call(contestant);
    }
    from.elapsed().as_secs_f64() * 1e6 / calls as f64
}

/// The median and the smallest of some times.
fn middle_and_least(times: &mut [f64]) -> [f64; 2] {
    times.sort_by(f64::total_cmp);
    [times[times.len() / 2], times[0]]
}

/// Times both contestants. The one that begins a round ends the next.
pub fn race(call: &mut dyn FnMut(Contestant)) -> Times {
    use Contestant::{Library, Plain};
    let once = timed(3, call, Library).min(timed(3, call, Library));
    let calls = (ROUND / once).ceil() as usize;
    let both = timed(calls, call, Library) + timed(calls, call, Plain);
    let rounds = (RACE / (both * calls as f64)) as usize;
    let (mut library, mut plain) = (Vec::new(), Vec::new());
    for round in 0..rounds.clamp(FEWEST, MOST) {
        if round % 2 == 0 {
            library.push(timed(calls, call, Library));
            plain.push(timed(calls, call, Plain));
        } else {
            plain.push(timed(calls, call, Plain));
            library.push(timed(calls, call, Library));
        }
    }
    Times {
        library: middle_and_least(&mut library),
        plain: middle_and_least(&mut plain),
    }
}
