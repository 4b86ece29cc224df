//! Stories of whole jobs: true products in random order, with refused calls and decodings between.
//!
//!   told               all stories
//!   draw_small         a random job with few hosts
//!   small_line         a random plan with few hosts
//!   draw_points        points of some kind
//!   answers_otherwise  a host that is heard sends other messages

use super::format::BUFFER;
use super::story::Story;
use crate::calls::shares::distinct_points;
use crate::cases::draw::{draw_in_layout, modulus_in_turn, turn, turns};
use crate::sheet::job_call::{Act, JobCall};
use crate::sheet::message::{message, Fields};
use crate::sheet::plan::{choose, known_prime, primes, Job, Line};
use crate::sheet::random::Random;
use crate::sheet::whole_job::{Contents, WholeJob};

/// All stories, one after another.
pub fn told(random: &mut Random) -> Vec<JobCall> {
    let groups = [
        checked_by_hand(random),
        small_jobs(random),
        large_groups(random),
        fillings(random),
        large_blocks(random),
    ];
    groups.concat()
}

/// The sheet's smallest job, with the answers 0, 2, 0 and the table 7, in all orders of arrival;
/// decoding is tried after each.
fn checked_by_hand(random: &mut Random) -> Vec<JobCall> {
    let contents = |element, mask| Contents {
        matrix: vec![element],
        masks: vec![mask],
    };
    let job = Job::of(&[1, 1, 1, 1, 1, 1, 1, 1, 1, 3], [10, 20]);
    let whole = WholeJob::of(job, 0, vec![1, 2, 3], [contents(5, 7), contents(4, 9)]);
    assert_eq!(whole.products, [[0], [2], [0]]);
    assert_eq!((whole.needed, &whole.table[..]), (3, &[7][..]));
    let mut calls = Vec::new();
    for order in [
        [1, 2, 3],
        [1, 3, 2],
        [2, 1, 3],
        [2, 3, 1],
        [3, 1, 2],
        [3, 2, 1],
    ] {
        let mut story = Story::begun(random, &whole);
        for host in order {
            story.answers_truly(host);
            story.decodes();
        }
        story.ends();
        calls.extend(story.calls);
    }
    calls
}

/// Jobs with few hosts, the moduli and the layouts in turn; in each fifth two hosts are false.
fn small_jobs(random: &mut Random) -> Vec<JobCall> {
    let mut calls = Vec::new();
    for round in 0..110 {
        let whole = draw_small(random, round);
        let liars = if round % 5 == 1 { 2 } else { 0 };
        calls.extend(disturbed(random, &whole, liars, 24));
    }
    calls
}

/// A random job with few hosts; the round decides on modulus, layout and the kind of points.
pub fn draw_small(random: &mut Random, round: u32) -> WholeJob {
    let line = small_line(random, round);
    let points = draw_points(random, line, round / turns());
    WholeJob::drawn(random, line, points)
}

/// A random plan with at most 16 hosts, in layout 3 with at most 20; the round decides on modulus and
/// layout.
pub fn small_line(random: &mut Random, round: u32) -> Line {
    let (modulus, number) = turn(round);
    let most = match (modulus, number) {
        (1, _) => 12,
        (_, 3) => 20,
        _ => 16,
    };
    let mut line = draw_in_layout(random, number, |needed| needed <= most);
    let needed = choose(&Job::of_line(&line)).needed;
    line[0] = modulus;
    line[9] = random.within(needed, most.min(needed + 3));
    let largest = if round % 9 == 3 { 7 } else { 3 };
    for size in &mut line[1..4] {
        *size *= random.within(1, largest);
    }
    line
}

/// Points of a job: 1..N, the highest downwards, a run from anywhere, and scattered ones.
pub fn draw_points(random: &mut Random, line: Line, kind: u32) -> Vec<u32> {
    let (hosts, q) = (line[9], known_prime(line[0]));
    let first = random.within(1, q - hosts);
    match kind % 6 {
        0 => (1..=hosts).collect(),
        1 => (q - hosts..q).rev().collect(),
        2 => (first..first + hosts).collect(),
        _ => distinct_points(random, hosts, q),
    }
}

/// The whole story of a job: all hosts answer in random order, so many of them falsely at first, and
/// up to so many other calls are made between, and some outside the window. Decoding is tried at K -
/// 1, at K and with all.
fn disturbed(random: &mut Random, whole: &WholeJob, liars: usize, others: u32) -> Vec<JobCall> {
    let hosts = whole.job.hosts;
    let liars = random.order(hosts)[..liars].to_vec();
    let mut story = Story::begun(random, whole);
    for host in random.order(hosts) {
        let between = random.within(0, others) / hosts + u32::from(random.within(0, 2) == 0);
        (0..between).for_each(|_| disturb(random, &mut story));
        outside(&mut random.clock(), &mut story);
        if liars.contains(&host) {
            story.answers_falsely(random, host);
        }
        story.answers_truly(host);
        if [whole.needed - 1, whole.needed, hosts as usize].contains(&story.arrived.len()) {
            story.decodes();
        }
    }
    disturb(random, &mut story);
    story.ends();
    story.calls
}

/// Makes one call that has something wrong, or that tells or decodes too early or once more.
fn disturb(random: &mut Random, story: &mut Story) {
    match random.within(0, 13) {
        0..=1 => repeated(random, story),
        2..=4 => damaged(random, story),
        5..=6 => foreign(random, story),
        7 => above(random, story),
        8 => wrong_store(random, story, Act::Arrive),
        9 => wrong_store(random, story, Act::Decode),
        10 => unknown_heard(random, story),
        11 => wrong_table(random, story),
        12 => story.tells(),
        _ => story.decodes(),
    }
}

/// A host that is heard sends the same again, or other elements; while none is heard, decoding is
/// tried.
fn repeated(random: &mut Random, story: &mut Story) {
    if story.arrived.is_empty() {
        return story.decodes();
    }
    let host = story.arrived[random.index(story.arrived.len())];
    if random.within(0, 1) == 0 {
        story.answers_truly(host);
    } else {
        story.answers_falsely(random, host);
    }
}

/// Here and there a host, heard or not, sends its true product or other elements outside the window.
fn outside(random: &mut Random, story: &mut Story) {
    if random.within(0, 7) > 0 {
        return;
    }
    let minute = random.outside(story.whole.job.window());
    let host = random.within(1, story.whole.job.hosts);
    let mut elements = story.whole.products[host as usize - 1].clone();
    if random.within(0, 1) == 0 {
        elements.fill(random.within(0, story.whole.q - 1));
    }
    story.answers_at(minute, host, &elements);
}

/// A host that sent its true product sends it with another first element, with another last one, and
/// with another bit in the last; then its true product again.
pub fn answers_otherwise(story: &mut Story, host: u32) {
    let (truth, q) = (&story.whole.products[host as usize - 1], story.whole.q);
    let last = truth.len() - 1;
    let bits = (0..17).map(|bit| truth[last] ^ 1 << bit);
    let another_bit = bits.clone().find(|&element| element < q).expect("a bit");
    let others = [
        (0, (truth[0] + 1) % q),
        (last, (truth[last] + q - 1) % q),
        (last, another_bit),
    ];
    for (at, element) in others {
        let mut elements = truth.clone();
        elements[at] = element;
        story.answers(host, &elements);
    }
    story.answers_truly(host);
}

/// The ways to damage the bytes of any message, with the numbers that are due.
const DAMAGES: [(u32, fn(&mut Vec<u8>)); 21] = [
    (17, |bytes| bytes.clear()),
    (17, |bytes| bytes.truncate(15)),
    (18, |bytes| bytes[0] = 0x4E),
    (18, |bytes| bytes[2] = 0x6F),
    (19, |bytes| bytes[3] = 1),
    (19, |bytes| bytes[4] = 2),
    (16, |bytes| bytes[5] = 0),
    (16, |bytes| bytes[5] = 4),
    (1, |bytes| bytes[6] = 0),
    (1, |bytes| bytes[6] = 5),
    (12, |bytes| bytes[7] = 0),
    (12, |bytes| bytes[7] = 65),
    (2, |bytes| bytes[8..10].fill(0)),
    (2, |bytes| bytes[10..12].fill(0xFF)),
    (6, |bytes| bytes[8..12].copy_from_slice(&[0x10, 1, 0, 1])),
    (20, |bytes| bytes.truncate(bytes.len() - 1)),
    (20, |bytes| bytes.truncate(16)),
    (20, |bytes| bytes.push(0)),
    (20, |bytes| bytes.extend([0; 4])),
    (14, |bytes| bytes[16] = 0x80),
    (14, |bytes| {
        bytes.iter_mut().rev().take(4).for_each(|byte| *byte = 0xFF)
    }),
];

/// A message of any host arrives damaged, at any minute.
fn damaged(random: &mut Random, story: &mut Story) {
    let (due, damage) = DAMAGES[random.index(DAMAGES.len())];
    let mut call = story.arrival(random);
    call.message = story.whole.message(random.within(1, story.whole.job.hosts));
    damage(&mut call.message);
    story.changes_nothing(call, due);
}

/// A message arrives at any minute that is fit for another job: another kind, job number, modulus, or
/// other sizes. Its elements are all 0, which every modulus allows.
fn foreign(random: &mut Random, story: &mut Story) {
    let own = story.whole.fields(random.within(1, story.whole.job.hosts));
    let Fields { rows, columns, .. } = own;
    let mut fields = own;
    match random.within(0, 6) {
        0 => fields.kind = random.within(1, 2),
        1 => fields.job_number = own.job_number.wrapping_add(1),
        2 => fields.job_number = own.job_number.swap_bytes() ^ 1,
        3 => fields.modulus = modulus_in_turn(own.modulus),
        4 if rows != columns => (fields.rows, fields.columns) = (columns, rows),
        5 => fields.columns = columns + 1,
        _ => fields.rows = rows + 1,
    }
    let mut call = story.arrival(random);
    call.message = message(&fields, &vec![0; (fields.rows * fields.columns) as usize]);
    story.changes_nothing(call, 22);
}

/// A message arrives at any minute that is fit but for a host above N; where N is 64 there is none,
/// and the next number is no host of any job.
fn above(random: &mut Random, story: &mut Story) {
    let hosts = story.whole.job.hosts;
    let host = if random.within(0, 1) == 0 {
        hosts + 1
    } else {
        64.max(hosts + 1)
    };
    let mut call = story.arrival(random);
    let elements = &story.whole.products[0];
    call.message = message(&story.whole.fields(host), elements);
    story.changes_nothing(call, 12);
}

/// A call is given a store that is a block or an element too long or too short; an arrival has a
/// fit message.
fn wrong_store(random: &mut Random, story: &mut Story, act: Act) {
    let mut call = story.next(act);
    let host = random.within(1, story.whole.job.hosts);
    if act == Act::Arrive {
        call.message = story.whole.message(host);
    }
    let (length, block) = (call.store.len(), story.whole.products[0].len());
    let lengths = [length - block, length - 1, length + 1, length + block];
    call.store.resize(lengths[random.index(4)].min(BUFFER), 0);
    if call.store.len() != length {
        story.changes_nothing(call, 13);
    }
}

/// An arrival or a decoding is given a heard bit above N; where N is 64, a decoding is made.
fn unknown_heard(random: &mut Random, story: &mut Story) {
    let hosts = story.whole.job.hosts;
    if hosts == 64 {
        return story.decodes();
    }
    let act = [Act::Arrive, Act::Decode][random.index(2)];
    let mut call = story.next(act);
    if act == Act::Arrive {
        call.message = story.whole.message(random.within(1, hosts));
    }
    call.heard |= 1 << random.within(hosts, 63);
    story.changes_nothing(call, 21);
}

/// A decoding is given a table of another length.
fn wrong_table(random: &mut Random, story: &mut Story) {
    let mut call = story.next(Act::Decode);
    let length = call.room;
    call.room = [length - 1, length + 1, 2 * length, 0][random.index(4)];
    story.changes_nothing(call, 13);
}

/// The sheet's example of 17 answers out of 20, document 000's worked example in layout 2, the case of
/// 02, U2, in layout 3 and others with X_A above X_B and below it, the largest groups kept ignorant,
/// and jobs with up to 64 hosts; up to two hosts are false.
fn large_groups(random: &mut Random) -> Vec<JobCall> {
    let lines = [
        [2, 4, 4, 4, 2, 2, 2, 2, 2, 20],
        [3, 2, 2, 8, 1, 2, 8, 1, 1, 27],
        [3, 4, 3, 2, 2, 3, 2, 2, 3, 25],
        [2, 2, 3, 1, 1, 1, 1, 16, 16, 40],
        [3, 3, 2, 2, 3, 2, 2, 7, 7, 38],
        [2, 2, 2, 3, 2, 2, 3, 2, 2, 63],
        [3, 1, 1, 2, 1, 1, 1, 1, 1, 64],
        [2, 8, 6, 1, 8, 6, 1, 1, 1, 64],
        [2, 4, 4, 4, 2, 2, 2, 5, 5, 25],
        [3, 2, 4, 6, 2, 2, 2, 7, 5, 29],
        [2, 4, 2, 2, 2, 2, 2, 5, 6, 28],
        [3, 2, 3, 4, 2, 3, 2, 7, 8, 38],
        [2, 2, 5, 4, 2, 5, 2, 14, 11, 64],
        [4, 4, 4, 4, 2, 2, 2, 2, 2, 20],
        [4, 2, 3, 1, 1, 1, 1, 16, 16, 40],
        [4, 3, 2, 4, 3, 2, 2, 7, 7, 38],
        [4, 8, 6, 1, 8, 6, 1, 1, 1, 64],
    ];
    let mut calls = Vec::new();
    for (i, line) in lines.into_iter().enumerate() {
        let points = draw_points(random, line, i as u32);
        let whole = WholeJob::drawn(random, line, points);
        calls.extend(disturbed(random, &whole, i % 3, 40));
    }
    calls
}

/// Matrices and masks each all 0 or all q - 1, for all moduli, with job numbers at the ends of
/// their range; every point of q = 13 is used.
fn fillings(random: &mut Random) -> Vec<JobCall> {
    let mut calls = Vec::new();
    for (modulus, q) in primes() {
        for (round, job_number) in (0..).zip([0, 1, 1 << 31, u32::MAX]) {
            let line = [modulus, 4, 2, 3, 2, 1, 1, 1, 2, 12];
            let [matrix, mask] = [round / 2, round % 2].map(|way| way * (q - 1));
            let sides = [[8, 4], [6, 12]].map(|[elements, masks]| Contents {
                matrix: vec![matrix; elements],
                masks: vec![mask; masks],
            });
            let points = draw_points(random, line, 3);
            let job = Job::of(&line, random.window());
            let whole = WholeJob::of(job, job_number, points, sides);
            calls.extend(disturbed(random, &whole, 0, 6));
        }
    }
    calls
}

/// Large stores: blocks of 1365 and of 1024 elements, 63 needed of 64 hosts for a table of 49 blocks;
/// sums over 16384 products; and blocks of 4096. One host sends its message again, then others that
/// differ from it in the first or in the last element.
fn large_blocks(random: &mut Random) -> Vec<JobCall> {
    let lines = [
        [3, 35, 2, 39, 1, 1, 1, 1, 1, 3],
        [2, 32, 3, 32, 1, 1, 1, 1, 1, 4],
        [3, 56, 2, 56, 7, 1, 7, 1, 1, 64],
        [3, 1, 16384, 1, 1, 4, 1, 1, 1, 10],
        [1, 2, 8192, 1, 1, 4, 1, 1, 1, 9],
        [3, 64, 1, 64, 1, 1, 1, 1, 1, 3],
        [4, 32, 3, 32, 1, 1, 1, 1, 1, 4],
    ];
    let mut calls = Vec::new();
    for line in lines {
        let points = draw_points(random, line, 3);
        let whole = WholeJob::drawn(random, line, points);
        let mut story = Story::begun(random, &whole);
        let order = random.order(line[9]);
        let (last, first) = order.split_last().expect("a host");
        first.iter().for_each(|&host| story.answers_truly(host));
        story.answers_truly(first[0]);
        story.decodes();
        story.answers_truly(*last);
        story.ends();
        answers_otherwise(&mut story, first[0]);
        story.tells();
        calls.extend(story.calls);
    }
    calls
}
