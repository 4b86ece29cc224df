//! One stage of a job, made once by a contestant and timed for both.
//!
//!   Stage    the stages
//!   measure  times a stage

use crate::calls::{Calls, Plain};
use crate::library::Library;
use crate::race::{race, Contestant, Times};
use crate::work::{header, run, Room, Work};
use plain::share::Matrix;
use std::hint::black_box;

/// The stages.
#[derive(Clone, Copy)]
pub enum Stage {
    Plan,
    Share,
    Product,
    Answer,
    Write,
    Read,
    Arrival,
    Repeated,
    Decoding,
    Whole,
}

impl Stage {
    /// The stage's name.
    pub fn name(self) -> &'static str {
        match self {
            Stage::Plan => "planning",
            Stage::Share => "share of A",
            Stage::Product => "product, bytes in and out",
            Stage::Answer => "host's whole part",
            Stage::Write => "message written",
            Stage::Read => "message read",
            Stage::Arrival => "arrival",
            Stage::Repeated => "arrival repeated",
            Stage::Decoding => "decoding",
            Stage::Whole => "whole job",
        }
    }
}

/// Lets the last host's answer arrive in time.
fn arrive(calls: &impl Calls, work: &Work, heard: u64, room: &mut Room) -> Result<(), u32> {
    let Work {
        job,
        points,
        minute,
        ..
    } = black_box(work);
    let after = calls.arrive(
        job,
        points,
        heard,
        &mut room.store,
        &room.answer_message,
        *minute,
    )?;
    black_box(after);
    Ok(())
}

/// Makes the last host's share of A.
fn share(calls: &impl Calls, work: &Work, room: &mut Room) -> Result<(), u32> {
    let Work {
        job,
        points,
        a,
        a_masks,
        ..
    } = black_box(work);
    let out = &mut room.shares[0];
    calls.share(Matrix::A, job, points, job.hosts, a, a_masks, out)
}

/// Makes the last host's whole part.
fn answer(calls: &impl Calls, room: &mut Room) -> Result<(), u32> {
    let [a, b] = &room.messages;
    let written = calls.answer(a, b, &mut room.answer_message)?;
    assert_eq!(black_box(written), room.answer_message.len());
    Ok(())
}

/// Makes a stage once, in the buffers of a job that has been run.
fn make(stage: Stage, calls: &impl Calls, work: &Work, room: &mut Room) -> Result<(), u32> {
    let Work { job, points, .. } = black_box(work);
    let [rows, inner, _] = work.block;
    match stage {
        Stage::Plan => calls.plan(job, points).map(|values| {
            black_box(values);
        }),
        Stage::Share => share(calls, work, room),
        Stage::Product => {
            let [a, b] = [0, 1].map(|i| &room.messages[i][16..]);
            calls.product_of_bytes(job.modulus, work.block, a, b, &mut room.answer_bytes)
        }
        Stage::Answer => answer(calls, room),
        Stage::Write => {
            let fields = header(job, 1, job.hosts, rows, inner);
            calls.write(&fields, &room.shares[0], &mut room.messages[0])
        }
        Stage::Read => calls
            .read(&room.messages[0], &mut room.blocks[0])
            .map(|header| {
                black_box(header);
            }),
        Stage::Arrival => arrive(calls, work, 0, room),
        Stage::Repeated => arrive(calls, work, 1 << (job.hosts - 1), room),
        Stage::Decoding => calls.decode(job, points, room.heard, &room.store, &mut room.table),
        Stage::Whole => run(calls, work, room),
    }
}

/// A contestant's buffers after the whole job has been run, and the last host's answer is in the store.
fn after_run(calls: &impl Calls, work: &Work) -> Room {
    let mut room = Room::new(work);
    run(calls, work, &mut room).expect("the job is run");
    arrive(calls, work, 0, &mut room).expect("the answer is taken");
    room
}

/// Times a stage for both, in the same buffers, after both had the same results.
pub fn measure(stage: Stage, work: &Work) -> Times {
    let (mut room, mut other) = (after_run(&Library, work), after_run(&Plain, work));
    let fit = "no stage is refused";
    make(stage, &Library, work, &mut room).expect(fit);
    make(stage, &Plain, work, &mut other).expect(fit);
    assert!(room == other, "two stages differ");
    race(&mut |contestant| {
        match contestant {
            Contestant::Library => make(stage, &Library, work, &mut room),
            Contestant::Plain => make(stage, &Plain, work, &mut room),
        }
        .expect(fit);
    })
}
