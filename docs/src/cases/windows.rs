//! Windows and minutes for cases (02, U7).
//!
//!   WINDOWS     windows of all kinds
//!   NO_WINDOWS  openings that are not before their closings
//!   of_plans    both, with the number that is due for a plan
//!   minutes     minutes inside a window and outside it

use super::faults::Expected;
use crate::sheet::plan::Window;

/// The largest minute, which is inside no window.
const LARGEST: u32 = u32::MAX;

/// Windows at both ends of 32 bits, from end to end, about powers of two, some of them one minute
/// long, and ordinary ones.
pub const WINDOWS: [Window; 18] = [
    [0, 1],
    [0, 2],
    [1, 2],
    [0, LARGEST],
    [1, LARGEST],
    [0, LARGEST - 1],
    [LARGEST - 1, LARGEST],
    [LARGEST - 2, LARGEST],
    [LARGEST - 2, LARGEST - 1],
    [255, 256],
    [255, 257],
    [65535, 65537],
    [(1 << 31) - 1, 1 << 31],
    [(1 << 31) - 1, (1 << 31) + 1],
    [1 << 31, (1 << 31) + 1],
    [1 << 31, LARGEST],
    [43200, 53280],
    [525600, 526320],
];

/// Openings that are not before their closings: equal ones, neighbours, far ones, and such that a
/// shorter or a signed number would mix up.
pub const NO_WINDOWS: [Window; 20] = [
    [0, 0],
    [1, 1],
    [43200, 43200],
    [65536, 65536],
    [1 << 31, 1 << 31],
    [LARGEST - 1, LARGEST - 1],
    [LARGEST, LARGEST],
    [1, 0],
    [2, 1],
    [53280, 43200],
    [255, 1],
    [256, 1],
    [65535, 1],
    [65536, 1],
    [1 << 31, (1 << 31) - 1],
    [(1 << 31) + 1, 1],
    [LARGEST, 0],
    [LARGEST, 1],
    [LARGEST, LARGEST - 1],
    [LARGEST - 1, 0],
];

/// All of them, with the number that is due for a plan in which nothing else is wrong.
pub fn of_plans() -> Expected<Window> {
    let windows = WINDOWS.map(|window| (window, 0));
    let others = NO_WINDOWS.map(|window| (window, 29));
    windows.into_iter().chain(others).collect()
}

/// Minutes about both ends of a window, at both ends of 32 bits, and such that a shorter or a signed
/// number would mix up with one inside; and whether each is inside: then it is fewer minutes after
/// the opening one than the window is long.
pub fn minutes([opening, closing]: Window) -> Vec<(u32, bool)> {
    let length = closing - opening;
    let (last, middle) = (closing - 1, opening + length / 2);
    let ends = [opening, last, closing, middle, 0, 1, LARGEST - 1, LARGEST];
    let about =
        [opening, closing].map(|minute| [minute.saturating_sub(1), minute.saturating_add(1)]);
    let mixed_up = [1 << 8, 1 << 16, 1 << 31].map(|bit| last ^ bit);
    let mut minutes = [&ends[..], &about.concat(), &mixed_up].concat();
    minutes.sort_unstable();
    minutes.dedup();
    let is_inside = |minute: u32| minute.wrapping_sub(opening) < length;
    let told = minutes
        .into_iter()
        .map(|minute| (minute, is_inside(minute)));
    told.collect()
}
