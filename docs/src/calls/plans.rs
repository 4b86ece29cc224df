//! Cases of planning: every number of a plan beside its neighbours, plans at all limits, in each layout and
//! over each prime, and windows of all kinds (02, U7).
//!
//!   expected  all cases with the refusal numbers that are due
//!   computed  plans with a number changed

use super::share_faults::{of_other_plans, of_short_window, plan_faults, point_lists};
use super::shares::{self, draw_fit, EXAMPLE, LAYOUT_3, SMALL};
use crate::cases::draw::{in_each_modulus, turns};
use crate::cases::faults::{alone, alone_and_in_pairs, Expected};
use crate::cases::windows::{of_plans, NO_WINDOWS};
use crate::lister::plans;
use crate::sheet::plan::{primes, Job, Line, Planning, Window};
use crate::sheet::random::Random;
use crate::sheet::share::{Sharing, Side};

/// All cases with the refusal numbers that are due.
pub fn expected(random: &mut Random) -> Expected<Planning> {
    let groups = [
        faults(random),
        lines(random),
        windows(random),
        points(random),
        random_fit(random),
    ];
    groups.concat()
}

/// The plan that a share is made by.
fn of_share(call: Sharing) -> Planning {
    Planning {
        job: call.job,
        job_number: call.job_number,
        points: call.points,
    }
}

/// The plan of a line with points 1..N, at most 65 of them, and any job number.
fn planned(random: &mut Random, line: &Line, window: Window) -> Planning {
    Planning {
        job: Job::of(line, window),
        job_number: random.word(),
        points: (1..=line[9].min(65)).collect(),
    }
}

/// The faults of a plan: alone and in pairs for `SMALL`, and alone for other plans.
fn faults(random: &mut Random) -> Expected<Planning> {
    let faults = plan_faults();
    let small = of_short_window(random, Side::A, SMALL);
    let mut calls = alone_and_in_pairs(&small, &faults);
    for line in of_other_plans() {
        calls.extend(alone(&of_short_window(random, Side::B, line), &faults));
    }
    let calls = calls.into_iter();
    calls.map(|(call, due)| (of_share(call), due)).collect()
}

/// The lister's plans, each with a window, and with none: then 29 is due unless the lister refuses it.
fn lines(random: &mut Random) -> Expected<Planning> {
    let mut calls = Vec::new();
    for (line, due) in plans::expected(random) {
        let window = random.window();
        calls.push((planned(random, &line, window), due));
        let none = NO_WINDOWS[random.index(NO_WINDOWS.len())];
        let due = if due == 0 { 29 } else { due };
        calls.push((planned(random, &line, none), due));
    }
    calls
}

/// A plan in each layout, and the smallest one over each prime, with all windows and with those that
/// are none.
fn windows(random: &mut Random) -> Expected<Planning> {
    let smallest = [1, 1, 1, 1, 1, 1, 1, 1, 1, 3];
    let mut lines = vec![SMALL, EXAMPLE, LAYOUT_3];
    lines.extend(in_each_modulus(smallest));
    let mut calls = Vec::new();
    for line in &lines {
        for (window, due) in of_plans() {
            calls.push((planned(random, line, window), due));
        }
    }
    calls
}

/// Points at the border of each field, repeated ones, and which of two bad points decides; without a
/// window 29 is due for all of them.
fn points(random: &mut Random) -> Expected<Planning> {
    let mut calls = Vec::new();
    for (modulus, q) in primes() {
        for (points, due) in point_lists(q) {
            let window = random.window();
            let [opening, closing] = window;
            let line = [modulus, 1, 1, 1, 1, 1, 1, 1, 1, 3];
            for (window, due) in [(window, due), ([closing, opening], 29)] {
                let call = planned(random, &line, window);
                let points = points.clone();
                calls.push((Planning { points, ..call }, due));
            }
        }
    }
    calls
}

/// Random plans, the moduli and the layouts in turn.
fn random_fit(random: &mut Random) -> Expected<Planning> {
    let rounds = 0..10 * turns();
    let calls = rounds.map(|round| (of_share(draw_fit(random, 2 * round)), 0));
    calls.collect()
}

/// All cases whose outcome is only computed: plans with a number changed a little.
pub fn computed(random: &mut Random) -> Vec<Planning> {
    shares::computed(random).into_iter().map(of_share).collect()
}
