//! Cases of arrivals by themselves, each from hosts heard and a store of its own.
//!
//!   expected  all of them
//!   drawn     an arrival in which nothing is wrong

use super::faults::{heard_before, limits, spoilt, spoilt_once, HEARD, LARGE, SMALL};
use super::format::ALREADY_IN;
use crate::calls::damage;
use crate::calls::messages::FIELDS;
use crate::cases::faults::{border_elements, Expected, Fault};
use crate::sheet::job_call::{Act, JobCall};
use crate::sheet::message::{message, Fields, HEADER};
use crate::sheet::plan::{known_prime, moduli, primes, Line};
use crate::sheet::random::Random;
use crate::sheet::whole_job::{written, WholeJob};

/// All cases; what is due is known from the way they are made.
pub fn expected(random: &mut Random) -> Expected<JobCall> {
    let groups = [
        fault_pairs(random),
        faults_stored(random),
        damaged(random),
        foreign(random),
        lengths(random),
        elements(random),
        heard_numbers(random),
        limits(Act::Arrive),
        long_messages(random),
    ];
    groups.concat()
}

/// An arrival at a job with points 1..N: anything is in the store, hosts 1, 2 and 5 are heard, and
/// the message is a host's true product, at a minute of the window.
pub fn drawn(random: &mut Random, line: Line, host: u32) -> JobCall {
    let whole = WholeJob::drawn(random, line, (1..=line[9]).collect());
    let mut call = whole.call(Act::Arrive);
    call.store = random.words(call.store.len());
    call.heard = 0b10011;
    call.message = whole.message(host);
    call.minute = random.inside(call.job.window());
    call
}

/// The faults of an arrival of host 3 at `SMALL` or `LARGE` that are no faults of its plan, in the
/// order of the tests; the last, a message that is in already, is none.
const FAULTS: [Fault<JobCall>; 35] = [
    (21, |call| call.heard |= 1 << 10),
    (21, |call| call.heard = u64::MAX),
    (13, |call| call.store.truncate(79)),
    (13, |call| call.store.truncate(72)),
    (13, |call| call.store.push(0)),
    (17, |call| call.message.clear()),
    (17, |call| call.message.truncate(15)),
    (18, |call| call.message[1] = 0x64),
    (19, |call| call.message[4] = 0),
    (16, |call| call.message[5] = 4),
    (1, |call| call.message[6] = 5),
    (1, |call| call.message[6] = 0),
    (1, |call| call.message[6] = 255),
    (12, |call| call.message[7] = 0),
    (12, |call| call.message[7] = 65),
    (2, |call| sizes(call, 0, 4)),
    (6, |call| sizes(call, 64, 65)),
    (20, |call| call.message.truncate(44)),
    (20, |call| call.message.push(0)),
    (14, |call| call.message[44] = 0x80),
    (14, |call| call.message[6] = 1),
    (22, |call| call.message[5] = 1),
    (22, |call| call.message[6] = 3),
    (22, other_modulus),
    (22, |call| sizes(call, 4, 2)),
    (22, |call| sizes(call, 1, 8)),
    (22, |call| call.message[15] ^= 1),
    (12, |call| call.message[7] = 11),
    (12, |call| call.message[7] = 64),
    (30, |call| call.minute = call.job.opening - 1),
    (30, |call| call.minute = call.job.closing),
    (30, |call| call.minute = 0),
    (30, |call| call.minute = u32::MAX),
    (23, |call| {
        heard_before(call);
        call.store[16] ^= 1;
    }),
    (ALREADY_IN, heard_before),
];

/// Makes the modulus number of a message 4 where it is 2, and 2 where it is 4.
fn other_modulus(call: &mut JobCall) {
    call.message[6] = 6 - call.message[6];
}

/// Sets rows and columns in a message.
fn sizes(call: &mut JobCall, rows: u16, columns: u16) {
    call.message[8..10].copy_from_slice(&rows.to_be_bytes());
    call.message[10..12].copy_from_slice(&columns.to_be_bytes());
}

/// An arrival of host 3 at `SMALL` or `LARGE`, with elements below 257; some element is above 12, so
/// that the message has 14 when its modulus is 13, and is fit for all other moduli. It comes in the
/// last minute of a short window.
fn third_host(random: &mut Random, line: Line) -> JobCall {
    let mut call = drawn(random, line, 3);
    (call.job.opening, call.job.closing, call.minute) = (43200, 43230, 43229);
    let mut elements = random.elements(8, 257);
    elements[3] = 200;
    let bytes = elements.iter().flat_map(|element| element.to_be_bytes());
    call.message.splice(HEADER.., bytes);
    call
}

/// Each fault alone and in pairs at `SMALL`, and alone at `LARGE`.
fn fault_pairs(random: &mut Random) -> Expected<JobCall> {
    let bases = [SMALL, LARGE].map(|line| third_host(random, line));
    let mut calls = spoilt(&bases[0], &FAULTS);
    calls.extend(spoilt_once(&bases[1], &FAULTS));
    calls.extend(bases.map(|base| (base, 0)));
    calls
}

/// Each fault that leaves message and store their lengths and the host one of the job's, and no
/// fault: the host is heard, and its block holds the elements of that message, faulty ones too.
fn faults_stored(random: &mut Random) -> Expected<JobCall> {
    let bases = [SMALL, LARGE].map(|line| third_host(random, line));
    bases.iter().flat_map(stored_with_faults).collect()
}

/// These arrivals, from one in which nothing is wrong.
fn stored_with_faults(base: &JobCall) -> Expected<JobCall> {
    let lengths = |call: &JobCall| (call.message.len(), call.store.len());
    let mut calls = vec![(base.clone(), ALREADY_IN)];
    let others = |number: u32| ![23, ALREADY_IN].contains(&number);
    for (due, fault) in FAULTS.into_iter().filter(|fault| others(fault.0)) {
        let mut call = base.clone();
        fault(&mut call);
        if lengths(&call) == lengths(base) && (1..=10).contains(&call.message[7]) {
            calls.push((call, due));
        }
    }
    calls.iter_mut().for_each(|(call, _)| heard_before(call));
    calls
}

/// The damaged messages of reading, given to a job with their number, modulus and sizes, inside its
/// window and outside it. Those that reading allows are fit but for their host 64, or are not this
/// job's.
fn damaged(random: &mut Random) -> Expected<JobCall> {
    let base = JobCall {
        job_number: FIELDS.job_number,
        ..drawn(random, SMALL, 3)
    };
    let readings = damage::single_faults(random).into_iter();
    let readings = readings.filter(|(call, _)| call.room >= 4096 && call.message.len() < 100);
    let mut calls = Vec::new();
    for (i, (reading, due)) in readings.enumerate() {
        let message = reading.message;
        let is_outside = i % 3 == 1;
        let due = if due == 0 {
            due_of_fit(&message, is_outside)
        } else {
            due
        };
        let mut call = JobCall {
            message,
            ..base.clone()
        };
        if is_outside {
            call.minute = call.job.closing;
        }
        calls.push((call, due));
    }
    calls
}

/// What is due for a message that reading allows: the headers that differ from that of the
/// reading cases at most in the host are the job's.
fn due_of_fit(bytes: &[u8], is_outside: bool) -> u32 {
    let mut header = message(&FIELDS, &[]);
    header[7] = bytes[7];
    if bytes[..16] != header {
        22
    } else if bytes[7] > 10 {
        12
    } else if is_outside {
        30
    } else {
        23
    }
}

/// Ways in which the fields of a message can be those of another job.
const FOREIGN: [fn(&mut Fields); 12] = [
    |fields| fields.kind = 1,
    |fields| fields.kind = 2,
    |fields| fields.job_number = 0,
    |fields| fields.job_number = u32::MAX,
    |fields| fields.job_number ^= 1 << 31,
    |fields| fields.job_number ^= 1 << 16,
    |fields| (fields.rows, fields.columns) = (4, 2),
    |fields| (fields.rows, fields.columns) = (8, 1),
    |fields| (fields.rows, fields.columns) = (1, 8),
    |fields| fields.rows = 3,
    |fields| fields.columns = 3,
    |fields| (fields.rows, fields.columns) = (4, 8),
];

/// The fields of fit messages that are not this job's: another modulus, and all those ways.
fn foreign_fields(own: Fields) -> Vec<Fields> {
    let moduli = moduli().filter(|&modulus| modulus != own.modulus);
    let mut others: Vec<Fields> = moduli.map(|modulus| Fields { modulus, ..own }).collect();
    others.extend(FOREIGN.map(|change| {
        let mut fields = own;
        change(&mut fields);
        fields
    }));
    others
}

/// Fit messages that are not this job's, from hosts heard and not heard and from host numbers above
/// N, with any elements of the message's own field, inside the window and outside it.
fn foreign(random: &mut Random) -> Expected<JobCall> {
    let mut calls = Vec::new();
    for line in [SMALL, LARGE] {
        let base = drawn(random, line, 3);
        let own = Fields {
            modulus: line[0],
            job_number: base.job_number,
            ..FIELDS
        };
        for other in foreign_fields(own) {
            for host in [1, 3, 10, 11, 64] {
                let fields = Fields { host, ..other };
                let q = known_prime(fields.modulus);
                let elements = random.elements((fields.rows * fields.columns) as usize, q);
                let mut call = base.clone();
                call.message = written(&fields, &elements);
                call.minute = random.any_minute(call.job.window());
                calls.push((call, 22));
            }
        }
    }
    calls
}

/// Stores of wrong lengths, for a message that is fit and for one that is none.
fn lengths(random: &mut Random) -> Expected<JobCall> {
    let mut calls = Vec::new();
    for line in [SMALL, [3, 6, 2, 2, 2, 1, 1, 1, 2, 7]] {
        let base = drawn(random, line, 3);
        let length = base.store.len();
        let block = length / line[9] as usize;
        for wrong in [
            0,
            1,
            block,
            length - block,
            length - 1,
            length + 1,
            length + block,
        ] {
            let mut call = base.clone();
            call.store.resize(wrong, 0);
            calls.push((call.clone(), 13));
            call.message = vec![0x4D];
            calls.push((call, 13));
        }
    }
    calls
}

/// Elements at the border of the field, for all moduli; a block all 0 and one all q - 1.
fn elements(random: &mut Random) -> Expected<JobCall> {
    let mut calls = Vec::new();
    for (modulus, q) in primes() {
        let mut line = SMALL;
        line[0] = modulus;
        let base = drawn(random, line, 3);
        let block = random.elements(8, q);
        let mut blocks = border_elements(&block, q, 14);
        blocks.extend([(vec![0; 8], 0), (vec![q - 1; 8], 0)]);
        for (elements, due) in blocks {
            let mut call = base.clone();
            call.message.truncate(16);
            let bytes = elements.iter().flat_map(|element| element.to_be_bytes());
            call.message.extend(bytes);
            calls.push((call, due));
        }
    }
    calls
}

/// Numbers of hosts heard at and beyond N: the lowest host and host N send an answer, which the
/// store holds or holds not.
fn heard_numbers(random: &mut Random) -> Expected<JobCall> {
    let mut calls = Vec::new();
    for (hosts, heard, above) in HEARD {
        for (host, is_stored) in [(1, false), (hosts, false), (1, true), (hosts, true)] {
            let mut call = drawn(random, [2, 1, 1, 1, 1, 1, 1, 1, 1, hosts], host);
            if is_stored {
                heard_before(&mut call);
            }
            call.heard = heard;
            let due = match heard >> (host - 1) & 1 {
                _ if above => 21,
                0 => 0,
                _ if is_stored => ALREADY_IN,
                _ => 23,
            };
            calls.push((call, due));
        }
    }
    calls
}

/// Messages of 4096 and of 4097 elements.
fn long_messages(random: &mut Random) -> Expected<JobCall> {
    let base = drawn(random, SMALL, 3);
    let mut calls = Vec::new();
    for (rows, columns, length, due) in [(64, 64, 16_400, 22), (1, 4097, 16_404, 6)] {
        let mut call = base.clone();
        call.message.resize(length, 0);
        sizes(&mut call, rows, columns);
        calls.push((call, due));
    }
    calls
}
