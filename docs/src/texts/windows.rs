//! Texts of jobs with windows of all kinds, and with answers inside them and outside (02, U7).
//!
//!   windows  all of them

use super::job_text::{Answer, JobText};
use super::jobs::{drawn, IN_EACH_LAYOUT};
use crate::cases::draw::turns;
use crate::cases::folder::Case;
use crate::cases::windows::{minutes, NO_WINDOWS, WINDOWS};
use crate::jobs::stories::small_line;
use crate::sheet::listing::refused;
use crate::sheet::plan::choose;
use crate::sheet::random::Random;

/// All texts of windows.
pub fn windows(random: &mut Random) -> Vec<Case> {
    let groups = [
        each_minute(),
        no_windows(random),
        inside_and_outside(random),
        any_minutes(random),
    ];
    groups.concat()
}

/// The sheet's smallest job under each window: host 2 answers at each minute of interest, the other
/// two in the first and in the last, and a number that is no host's in each.
fn each_minute() -> Vec<Case> {
    let mut cases = Vec::new();
    for window in WINDOWS {
        let of_second = minutes(window).into_iter().map(|(minute, _)| [2, minute]);
        let order: Vec<Answer> = of_second.collect();
        let strangers = order.iter().map(|&[_, minute]| [4, minute]);
        let others = [[1, window[0]], [3, window[1] - 1]];
        let order = [strangers.collect(), order.clone(), others.to_vec()].concat();
        let job = JobText {
            window,
            order,
            ..JobText::by_hand()
        };
        cases.push(told(&job, "\nHEARD 1 2 3\nTABLE\n7\n"));
    }
    cases
}

/// The case of a job for which this is printed somewhere; panics where it is not.
fn told(job: &JobText, lines: &str) -> Case {
    assert!(job.due().contains(lines));
    job.case()
}

/// Jobs in each layout whose opening is not before their closing, whatever their answers.
fn no_windows(random: &mut Random) -> Vec<Case> {
    let mut cases = Vec::new();
    for (line, window) in IN_EACH_LAYOUT.iter().cycle().zip(NO_WINDOWS) {
        let mut job = drawn(random, *line, 0);
        job.window = window;
        cases.push((job.text(), refused(29)));
    }
    cases
}

/// A job in each layout. One host fewer than are needed answers inside the window, all others before
/// it and after it: too few are heard. Then one of the others answers once more, at the last minute.
/// And each host answers twice, outside first or inside first.
fn inside_and_outside(random: &mut Random) -> Vec<Case> {
    let mut cases = Vec::new();
    for line in IN_EACH_LAYOUT {
        let job = drawn(random, line, 3);
        let needed = choose(&job.job()).needed as usize;
        let mut few = job.clone();
        for answer in &mut few.order[needed - 1..] {
            answer[1] = random.outside(job.window);
        }
        cases.push(told(&few, "\nREFUSED 24\n"));
        let again = few.order[needed - 1][0];
        few.order.push([again, job.window[1] - 1]);
        cases.push(told(&few, "\nTABLE\n"));
        let both = |&[host, inside]: &Answer| [[host, random.outside(job.window)], [host, inside]];
        let mut twice: Vec<[Answer; 2]> = job.order.iter().map(both).collect();
        for _ in 0..2 {
            let mut again = job.clone();
            again.order = twice.concat();
            cases.push(told(&again, "\nTABLE\n"));
            twice.iter_mut().for_each(|pair| pair.reverse());
        }
    }
    cases
}

/// Jobs with few hosts, the moduli and the layouts in turn: each host answers up to three times, in any
/// minute.
fn any_minutes(random: &mut Random) -> Vec<Case> {
    let mut cases = Vec::new();
    for round in 0..4 * turns() {
        let line = small_line(random, round);
        let mut job = drawn(random, line, round);
        let times = line[9] * random.within(2, 3);
        let answer = |i: u32| [(i - 1) % line[9] + 1, random.any_minute(job.window)];
        let order = Random::new(round.into()).order(times);
        job.order = order.into_iter().map(answer).collect();
        cases.push(job.case());
    }
    cases
}
