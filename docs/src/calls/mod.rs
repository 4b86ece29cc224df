//! The subcommand `calls`: gathers the cases of shares, products, messages, signed reading, masks, pages,
//! plans and a host's whole part, checks them, writes them with their outcomes.
//!
//!   shares        cases of shares that are fit
//!   share_faults  cases of shares that are refused
//!   products      cases of products
//!   depths        cases of products and shares with the largest sums
//!   messages      cases of messages to write, and of fit ones to read
//!   damage        cases of damaged messages to read
//!   signed        cases of signed reading and of its way back
//!   masks         cases of masks to draw
//!   pages         cases of pages to write
//!   plans         cases of plans
//!   answers       cases of a host's whole part with messages that belong together
//!   answer_faults
//!                 cases of it with messages that are damaged or do not belong together
//!   format        the file format of cases and outcomes

mod answer_faults;
mod answers;
pub mod damage;
pub mod depths;
pub mod format;
pub mod masks;
pub mod messages;
mod pages;
mod plans;
mod products;
mod share_faults;
pub mod shares;
mod signed;

use std::collections::HashSet;

use crate::cases::counts::{hold, Counts, Floors};
use crate::cases::faults::Expected;
use crate::cases::save;
use crate::sheet::answer::{answer, Answering};
use crate::sheet::listing::{refused, reply, text};
use crate::sheet::masks::{draw, Drawing, Drawn};
use crate::sheet::masks_check;
use crate::sheet::message::{read, write, Reading, Writing, HEADER};
use crate::sheet::page::{page, Paging};
use crate::sheet::page_check;
use crate::sheet::plan::{plan, Planning};
use crate::sheet::plan_check;
use crate::sheet::product::product;
use crate::sheet::random::Random;
use crate::sheet::share::{share, Side};
use crate::sheet::signed::{signed_reading, way_back, SignedReading, WayBack};
use crate::sheet::sums_check;
use crate::sheet::window_check;
use format::{case, number, outcome, Call};

/// The numbers that each call can give, with the least count of cases.
#[rustfmt::skip]
const FLOORS: &Floors = &[
    ("share of A", &[
        (0, 590), (1, 217), (2, 120), (3, 111), (4, 72), (5, 105), (6, 89), (7, 50), (8, 60),
        (9, 64), (10, 59), (11, 27), (12, 36), (13, 80), (14, 38), (15, 34), (29, 124),
    ]),
    ("share of B", &[
        (0, 571), (1, 215), (2, 118), (3, 113), (4, 76), (5, 102), (6, 90), (7, 52), (8, 55),
        (9, 65), (10, 60), (11, 27), (12, 36), (13, 77), (14, 38), (15, 34), (29, 104),
    ]),
    ("product", &[(0, 495), (1, 125), (2, 116), (6, 70), (13, 95), (14, 88)]),
    ("write", &[(0, 159), (1, 147), (2, 58), (6, 38), (12, 54), (13, 52), (14, 32), (16, 84)]),
    ("read", &[
        (0, 365), (1, 340), (2, 77), (6, 51), (12, 255), (13, 80), (14, 109), (16, 323), (17, 82),
        (18, 148), (19, 391), (20, 132),
    ]),
    ("signed reading", &[(0, 886), (1, 210), (14, 255)]),
    ("way back", &[(0, 889), (1, 390), (25, 496)]),
    ("masks", &[(0, 540), (1, 105), (27, 458)]),
    ("page", &[(0, 474), (1, 285), (2, 301), (13, 255), (14, 296), (28, 363)]),
    ("plan", &[
        (0, 380), (1, 298), (2, 168), (3, 151), (4, 101), (5, 128), (6, 127), (7, 100), (8, 130),
        (9, 37), (10, 40), (11, 17), (29, 359),
    ]),
    ("whole part", &[
        (0, 209), (1, 42), (2, 41), (6, 57), (12, 45), (13, 19), (14, 85), (16, 46), (17, 49),
        (18, 58), (19, 52), (20, 60), (1001, 34), (1003, 21), (1004, 24), (1005, 41), (1006, 16),
    ]),
];

/// Checks the program, then writes the cases to one file and their outcomes to the other.
pub fn write_files(stdin_file: &str, stdout_file: &str) {
    plan_check::run();
    masks_check::run();
    page_check::run();
    sums_check::run();
    window_check::run();
    hand_values();
    signed_values();
    answer_value();
    let calls = gathered();
    calls.iter().for_each(reads_back);
    let cases: Vec<Vec<u8>> = calls.iter().map(case).collect();
    let outcomes: Vec<Vec<u8>> = calls.iter().map(outcome).collect();
    hold(&counted(&calls), FLOORS);
    save(stdin_file, &cases.concat());
    save(stdout_file, &outcomes.concat());
}

/// The shares, the answers and the signed reading of 01, "Checked by hand".
fn hand_values() {
    let of = |side, element, mask| {
        [1, 2, 3].map(|host| share(&shares::by_hand(side, element, mask, host)))
    };
    let elements = |values: [u32; 3]| values.map(|value| Ok(vec![value]));
    assert_eq!(of(Side::A, 5, 7), elements([12, 6, 0]));
    assert_eq!(of(Side::B, 4, 9), elements([0, 9, 5]));
    assert_eq!(of(Side::A, 6, 0)[1], Ok(vec![6]));
    let answers = [(12, 0), (6, 9), (0, 5)].map(|(a, b)| product(&products::by_hand(a, b)));
    assert_eq!(answers, elements([0, 2, 0]));
}

/// The signed reading of 01, "Checked by hand", and the ends of the range for q = 2147483647, both ways.
fn signed_values() {
    let reading = |modulus, element| signed_reading(&SignedReading { modulus, element });
    let back = |modulus, value| way_back(&WayBack { modulus, value });
    assert_eq!(reading(1, 7), Ok(-6));
    assert_eq!(reading(4, 1073741823), Ok(1073741823));
    assert_eq!(reading(4, 1073741824), Ok(-1073741823));
    assert_eq!(reading(4, 2147483646), Ok(-1));
    assert_eq!(reading(4, 2147483647), Err(14));
    assert_eq!(reading(5, 0), Err(1));
    assert_eq!(back(4, 1073741823), Ok(1073741823));
    assert_eq!(back(4, -1073741823), Ok(1073741824));
    assert_eq!(back(4, 1073741824), Err(25));
    assert_eq!(back(4, -1073741824), Err(25));
    assert_eq!(back(5, 0), Err(1));
}

/// The whole part of host 2 of 01, "Checked by hand", byte for byte.
fn answer_value() {
    let message = |kind, element| {
        let header = [0x4D, 0x44, 0x4F, 0, 1, kind, 1, 2, 0, 1, 0, 1, 0, 0, 0, 7];
        [&header[..], &[0, 0, 0, element]].concat()
    };
    let (a, b) = (message(1, 6), message(2, 9));
    let room = 20;
    assert_eq!(answer(&Answering { a, b, room }), Ok(message(3, 2)));
}

/// All calls, each once. Shares, masks, pages, plans and whole parts have generators of their own: no
/// other call changes with them.
fn gathered() -> Vec<Call> {
    let random = &mut Random::new(2027);
    let mut calls = expected(shares::expected(random), Call::Share);
    calls.extend(expected(share_faults::expected(random), Call::Share));
    calls.extend(expected(depths::shares(random), Call::Share));
    calls.extend(shares::computed(random).into_iter().map(Call::Share));
    let random = &mut Random::new(0x4f04_6e8f_6042_c196);
    calls.extend(expected(products::expected(random), Call::Product));
    calls.extend(expected(depths::products(random), Call::Product));
    calls.extend(expected(messages::expected(random), Call::Write));
    calls.extend(expected(messages::fit_readings(random), Call::Read));
    calls.extend(expected(damage::expected(random), Call::Read));
    calls.extend(damage::computed(random).into_iter().map(Call::Read));
    calls.extend(expected(signed::readings(random), Call::Signed));
    calls.extend(expected(signed::ways_back(random), Call::Back));
    let random = &mut Random::new(2030);
    calls.extend(expected(masks::expected(random), Call::Draw));
    let random = &mut Random::new(2032);
    calls.extend(expected(pages::expected(random), Call::Page));
    let random = &mut Random::new(2035);
    calls.extend(expected(plans::expected(random), Call::Plan));
    calls.extend(plans::computed(random).into_iter().map(Call::Plan));
    let random = &mut Random::new(2036);
    calls.extend(expected(answers::expected(random), Call::Answer));
    calls.extend(expected(answer_faults::expected(random), Call::Answer));
    let damaged = answer_faults::computed(random).into_iter();
    calls.extend(damaged.map(Call::Answer));
    let mut seen = HashSet::new();
    calls.retain(|call| seen.insert(case(call)));
    calls
}

/// The calls of a list; panics if one gets another refusal number than it was made for.
fn expected<T>(list: Expected<T>, as_call: fn(T) -> Call) -> Vec<Call> {
    let calls = list.into_iter().map(|(call, due)| (as_call(call), due));
    calls
        .map(|(call, due)| {
            assert_eq!(number(&call), due, "{:?}", case(&call));
            call
        })
        .collect()
}

/// Panics unless a message that is written reads back to its fields and elements, one that is read
/// is written again byte for byte, signed reading and its way back undo each other, the words used give
/// the masks that all words give, a page that is written reads back to its table, a plan is the lister's,
/// and an answer's bytes are those of its messages where they must be.
fn reads_back(call: &Call) {
    match call {
        Call::Write(call) => {
            if let Ok(message) = write(call) {
                let room = 4096;
                let back = read(&Reading { message, room });
                assert_eq!(back, Ok((call.fields, call.elements.clone())));
            }
        }
        Call::Read(call) => {
            if let Ok((fields, elements)) = read(call) {
                let room = call.message.len();
                let writing = Writing {
                    fields,
                    elements,
                    room,
                };
                assert_eq!(write(&writing).as_ref(), Ok(&call.message));
            }
        }
        Call::Signed(call) => signed_back(call),
        Call::Back(call) => back_signed(call),
        Call::Draw(call) => drawn_again(call),
        Call::Page(call) => page_back(call),
        Call::Plan(call) => listed(call),
        Call::Answer(call) => answered(call),
        Call::Share(_) | Call::Product(_) => {}
    }
}

/// Panics unless the element comes back from its signed value.
fn signed_back(call: &SignedReading) {
    if let Ok(value) = signed_reading(call) {
        let modulus = call.modulus;
        assert_eq!(way_back(&WayBack { modulus, value }), Ok(call.element));
    }
}

/// Panics unless the value is the signed reading of its element.
fn back_signed(call: &WayBack) {
    if let Ok(element) = way_back(call) {
        let modulus = call.modulus;
        let reading = SignedReading { modulus, element };
        assert_eq!(signed_reading(&reading), Ok(call.value));
    }
}

/// Panics unless the words used give the same masks again, and without the last of them give too few.
fn drawn_again(call: &Drawing) {
    let of_first = |count: usize| {
        let words = call.words[..count].to_vec();
        draw(&Drawing { words, ..*call })
    };
    if let Ok(Drawn { elements, used }) = draw(call) {
        assert_eq!((elements.len(), used == 0), (call.room, call.room == 0));
        assert_eq!(of_first(used), Ok(Drawn { elements, used }));
        assert!(used == 0 || of_first(used - 1) == Err(27));
    }
}

/// Panics unless the page fills the output and reads back to the table.
fn page_back(call: &Paging) {
    if let Ok(page) = page(call) {
        assert_eq!(page.len(), call.room);
        page_check::reads_back(&page, &call.table, call.r);
    }
}

/// Panics unless the lister says the same of the job, which knows no window and no points: it tells 1
/// to 8, and prints the layout and K.
fn listed(call: &Planning) {
    let line = call.job.line();
    if line.iter().any(|&number| number > 99999) {
        return;
    }
    let printed = reply(&text(&line));
    match plan(call) {
        Err(number @ 1..=8) => assert_eq!(printed, refused(number)),
        Err(_) => assert!(printed.starts_with("MODULUS ")),
        Ok([layout, needed, rows, inner, columns]) => {
            let [_, t, s, r, m, p, n, _, _, hosts] = line;
            let told = format!("\nLAYOUT {layout}\nHOSTS {hosts}\nNEEDED {needed}\n");
            assert!(printed.contains(&told));
            assert_eq!([rows * m, inner * p, columns * n], [t, s, r]);
        }
    }
}

/// Panics unless an answer reads back, and its header has A's bytes but for the kind and the columns,
/// which are B's.
fn answered(call: &Answering) {
    if let Ok(message) = answer(call) {
        let mut header = call.a[..HEADER].to_vec();
        header[5] = 3;
        header[10..12].copy_from_slice(&call.b[10..12]);
        assert!(message.starts_with(&header) && message.len() <= call.room);
        let room = 4096;
        assert!(read(&Reading { message, room }).is_ok());
    }
}

/// How many cases there are of each call and refusal number.
fn counted(calls: &[Call]) -> Counts {
    let mut counts = Counts::new();
    for call in calls {
        *counts.entry((name(call), number(call))).or_default() += 1;
    }
    counts
}

/// A call's name.
fn name(call: &Call) -> &'static str {
    match call {
        Call::Share(call) if call.side == Side::A => "share of A",
        Call::Share(_) => "share of B",
        Call::Product(_) => "product",
        Call::Write(_) => "write",
        Call::Read(_) => "read",
        Call::Signed(_) => "signed reading",
        Call::Back(_) => "way back",
        Call::Draw(_) => "masks",
        Call::Page(_) => "page",
        Call::Plan(_) => "plan",
        Call::Answer(_) => "whole part",
    }
}
