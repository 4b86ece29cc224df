//! Windows checked (02, U7): against the minutes from the opening one on up to the one before the closing
//! one, as they stand in a list, and in the order of the tests.
//!
//!   run  checks planning, sharing, arrivals and decodings

use super::arrival::{arrive, Arrived};
use super::decode::decode;
use super::job_call::{Act, JobCall};
use super::plan::{plan, refusal, Job, Line, Planning, Window};
use super::share::{share, Side};
use super::whole_job::{sharing, Contents, WholeJob};

/// The smallest job: everything 1, three hosts.
const SMALLEST: Line = [1, 1, 1, 1, 1, 1, 1, 1, 1, 3];

/// Panics unless windows at both ends of 32 bits and about 2^31 do what they are for, also those that
/// are none, and 29 has its place among the tests of a plan.
pub fn run() {
    for first in [0, (1 << 31) - 3, u32::MAX - 5] {
        let minutes: Vec<u32> = (0..6).map(|i| first + i).collect();
        for opening in 0..6 {
            for closing in 0..6 {
                let inside = minutes.get(opening..closing).unwrap_or_default();
                let window = [opening, closing].map(|at| minutes[at]);
                calls(window, &minutes, inside);
            }
        }
    }
    order();
}

/// Calls on the smallest job with a window and its minutes: where it has none 29 is due. Else it is
/// planned and shared, decoding finds no host heard, and each arrival is judged by its own minute.
fn calls(window: Window, minutes: &[u32], inside: &[u32]) {
    let contents = |element, mask| Contents {
        matrix: vec![element],
        masks: vec![mask],
    };
    let fit = Job::of_line(&SMALLEST);
    let sides = [contents(5, 7), contents(4, 9)];
    let whole = WholeJob::of(fit, 7, vec![1, 2, 3], sides.clone());
    let job = Job::of(&SMALLEST, window);
    let none = inside.is_empty().then_some(29);
    assert_eq!(refusal(&job, &[1, 2, 3]), none);
    for (side, contents) in [Side::A, Side::B].into_iter().zip(&sides) {
        let shared = share(&sharing(&job, &[1, 2, 3], side, contents, 2));
        assert_eq!(shared.err(), none);
    }
    let decoding = whole.call(Act::Decode);
    assert_eq!(
        decode(&JobCall { job, ..decoding }),
        Err(none.unwrap_or(24))
    );
    for &minute in minutes {
        let mut call = whole.call(Act::Arrive);
        (call.job, call.minute, call.message) = (job, minute, whole.message(2));
        let refused = none.or((!inside.contains(&minute)).then_some(30));
        judged(&call, refused);
    }
}

/// An arrival of host 2, whose product is 2: it is taken. Where the host is heard it is in already if its
/// block holds 2, else 23 is due. Where it is refused for its minute or its window, that number is due for
/// all three.
fn judged(call: &JobCall, refused: Option<u32>) {
    let taken = match arrive(call) {
        Ok(Arrived::Taken { heard, .. }) => Ok(heard),
        Ok(Arrived::AlreadyIn) => Ok(0),
        Err(number) => Err(number),
    };
    assert_eq!(taken, refused.map_or(Ok(0b10), Err));
    let heard = |element: u32| {
        let mut again = call.clone();
        (again.heard, again.store[1]) = (0b10, element);
        arrive(&again)
    };
    let due = |otherwise| refused.map_or(otherwise, Err);
    assert_eq!(heard(2), due(Ok(Arrived::AlreadyIn)));
    assert_eq!(heard(3), due(Err(23)));
}

/// 29 comes after 8 and before 9, 10 and 11; and what planning gives is the same under each window.
fn order() {
    let points: [(&[u32], Option<u32>); 4] = [
        (&[1, 2, 3], None),
        (&[1, 2], Some(9)),
        (&[1, 0, 1], Some(10)),
        (&[5, 5, 0], Some(11)),
    ];
    for window in [[0, 1], [7, 9], [0, u32::MAX], [u32::MAX - 1, u32::MAX]] {
        let [opening, closing] = window;
        let few = [1, 1, 1, 1, 1, 1, 1, 1, 1, 2];
        for (points, due) in points {
            assert_eq!(refusal(&Job::of(&SMALLEST, window), points), due);
            for none in [[closing, opening], [opening, opening], [closing, closing]] {
                assert_eq!(refusal(&Job::of(&SMALLEST, none), points), Some(29));
                assert_eq!(refusal(&Job::of(&few, none), points), Some(8));
            }
        }
        let planning = Planning {
            job: Job::of(&SMALLEST, window),
            job_number: 0,
            points: vec![1, 2, 3],
        };
        assert_eq!(plan(&planning), Ok([1, 3, 1, 1, 1]));
    }
}
