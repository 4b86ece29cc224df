//! Cases of windows (02, U7).
//!
//!   expected  arrivals and decodings by themselves, each from hosts heard and a store of its own
//!   told      stories of whole jobs

use super::arrivals::drawn;
use super::decodings;
use super::faults::heard_before;
use super::format::ALREADY_IN;
use super::stories::draw_small;
use super::story::Story;
use crate::cases::draw::{modulus_in_turn, turns};
use crate::cases::faults::Expected;
use crate::cases::windows::{minutes, NO_WINDOWS, WINDOWS};
use crate::sheet::job_call::JobCall;
use crate::sheet::plan::{Job, Line, Window};
use crate::sheet::random::Random;
use crate::sheet::whole_job::WholeJob;

/// All calls by themselves; what is due is known from the way they are made.
pub fn expected(random: &mut Random) -> Expected<JobCall> {
    let groups = [
        each_minute(random),
        no_windows(random),
        decodings_of_windows(random),
    ];
    groups.concat()
}

/// A small job for a round, the moduli in turn: three of five hosts are needed, answers are 1 by 2.
fn small(round: u32) -> Line {
    [modulus_in_turn(round), 1, 1, 2, 1, 1, 1, 1, 1, 5]
}

/// A call on the same job with a window.
fn with_window(call: JobCall, window: Window) -> JobCall {
    let job = Job::of(&call.job.line(), window);
    JobCall { job, ..call }
}

/// Arrivals at each minute of interest of each window: of a host that is not heard, and of one whose
/// block holds the message, or another.
fn each_minute(random: &mut Random) -> Expected<JobCall> {
    let mut calls = Vec::new();
    for (round, window) in (0..).zip(WINDOWS) {
        for (minute, is_inside) in minutes(window) {
            let host = random.within(1, 5);
            let mut fresh = with_window(drawn(random, small(round), host), window);
            (fresh.minute, fresh.heard) = (minute, 0b11111 ^ 1 << (host - 1));
            let mut again = fresh.clone();
            heard_before(&mut again);
            let mut other = again.clone();
            other.store[again.block(host).end - 1] ^= 1;
            let due = |due| if is_inside { due } else { 30 };
            calls.extend([(fresh, due(0)), (again, due(ALREADY_IN)), (other, due(23))]);
        }
    }
    calls
}

/// Arrivals and decodings of jobs whose opening is not before their closing: at any minute, of hosts
/// heard and not heard, and with a store or a table of another length.
fn no_windows(random: &mut Random) -> Expected<JobCall> {
    let mut calls = Vec::new();
    for (round, window) in (0..).zip(NO_WINDOWS) {
        let mut own = Vec::new();
        let [opening, closing] = window;
        for minute in [opening, closing, closing.wrapping_sub(1), 0, u32::MAX] {
            let host = random.within(1, 5);
            let arrival = drawn(random, small(round), host);
            own.push(JobCall { minute, ..arrival });
        }
        let mut short = own[0].clone();
        short.store.pop();
        let decoding = decodings::drawn(random, small(round));
        let mut long = decoding.clone();
        long.room += 1;
        own.extend([short, decoding, long]);
        let windowless = own.into_iter().map(|call| with_window(call, window));
        calls.extend(windowless.map(|call| (call, 29)));
    }
    calls
}

/// Decodings under each window, of all answers, of those that are needed and of one fewer.
fn decodings_of_windows(random: &mut Random) -> Expected<JobCall> {
    let mut calls = Vec::new();
    for (round, window) in (0..).zip(WINDOWS) {
        let all = with_window(decodings::drawn(random, small(round)), window);
        for (heard, due) in [(0b11111, 0), (0b10110, 0), (0b10010, 24)] {
            let call = all.clone();
            calls.push((JobCall { heard, ..call }, due));
        }
    }
    calls
}

/// All stories: jobs with few hosts, the moduli and the layouts in turn.
pub fn told(random: &mut Random) -> Vec<JobCall> {
    let mut calls = Vec::new();
    for round in 0..turns() {
        let whole = draw_small(random, round);
        calls.extend(back_and_forth(random, &whole));
        calls.extend(twice(random, &whole, round % 2 == 0));
        calls.extend(one_too_few(random, &whole));
        calls.extend(another_outside(random, &whole));
    }
    calls
}

/// A host's true product arrives at a minute.
fn truly(story: &mut Story, minute: u32, host: u32) {
    let whole = story.whole;
    story.answers_at(minute, host, &whole.products[host as usize - 1]);
}

/// The clock goes back and forth: the hosts answer at the last minute and at the first in turn, and
/// after each a message comes when the window is closed, or not yet open. All that came inside are
/// decoded.
fn back_and_forth(random: &mut Random, whole: &WholeJob) -> Vec<JobCall> {
    let [opening, closing] = whole.job.window();
    let mut story = Story::begun(random, whole);
    let order = random.order(whole.job.hosts);
    for (i, &host) in order.iter().enumerate() {
        let [inside, outside] = match i % 2 {
            0 => [closing - 1, opening.wrapping_sub(1)],
            _ => [opening, closing],
        };
        truly(&mut story, inside, host);
        truly(&mut story, outside, order[random.index(order.len())]);
    }
    story.ends();
    story.calls
}

/// Each host sends its message twice: outside the window and then inside it, or the other way round.
fn twice(random: &mut Random, whole: &WholeJob, is_first_outside: bool) -> Vec<JobCall> {
    let window = whole.job.window();
    let mut story = Story::begun(random, whole);
    for host in random.order(whole.job.hosts) {
        let mut minutes = [random.outside(window), random.inside(window)];
        if !is_first_outside {
            minutes.reverse();
        }
        for minute in minutes {
            truly(&mut story, minute, host);
        }
        if story.arrived.len() == whole.needed {
            story.decodes();
        }
    }
    story.ends();
    story.calls
}

/// One host fewer than are needed answers inside the window, all others outside: decoding finds too
/// few. One of the others answers again, at the last minute: now it is done, and after the closing
/// minute still.
fn one_too_few(random: &mut Random, whole: &WholeJob) -> Vec<JobCall> {
    let window = whole.job.window();
    let mut story = Story::begun(random, whole);
    let order = random.order(whole.job.hosts);
    let (inside, outside) = order.split_at(whole.needed - 1);
    for &host in inside {
        truly(&mut story, random.inside(window), host);
    }
    for &host in outside {
        truly(&mut story, random.outside(window), host);
        truly(&mut story, u32::MAX, host);
    }
    story.decodes();
    assert_eq!(story.arrived, inside);
    truly(&mut story, window[1] - 1, outside[0]);
    story.decodes();
    truly(&mut story, window[1], outside[0]);
    story.answers_falsely_at(random, window[1], inside[0]);
    story.ends();
    story.calls
}

/// Hosts send other elements outside the window, before their true products and after them, which come
/// inside: the true ones count. The last host sends its true product outside and other elements inside.
fn another_outside(random: &mut Random, whole: &WholeJob) -> Vec<JobCall> {
    let window = whole.job.window();
    let mut story = Story::begun(random, whole);
    let order = random.order(whole.job.hosts);
    let (&last, others) = order.split_last().expect("a host");
    for &host in others {
        let minute = random.outside(window);
        story.answers_falsely_at(random, minute, host);
        truly(&mut story, random.inside(window), host);
        let minute = random.outside(window);
        story.answers_falsely_at(random, minute, host);
    }
    truly(&mut story, random.outside(window), last);
    let minute = random.inside(window);
    story.answers_falsely_at(random, minute, last);
    truly(&mut story, random.inside(window), last);
    story.ends();
    story.calls
}
