//! The library's calls: the functions of libmukerihe_bank.a and of libmukerihe.a.

use crate::calls::{Calls, Outcome};
use plain::message::Header;
use plain::plan::Job;
use plain::share::Matrix;

/// The libraries' functions.
#[path = "../../include/mukerihe.rs"]
mod libraries;

use libraries::{
    mukerihe_answer, mukerihe_arrive, mukerihe_decode, mukerihe_draw, mukerihe_multiply,
    mukerihe_page, mukerihe_plan, mukerihe_product, mukerihe_read, mukerihe_share_a,
    mukerihe_share_b, mukerihe_write,
};

/// What stands in a place for one number before a call; a refused call leaves it there.
const UNTOLD: u32 = 0xA5A5_A5A5;

/// The words of a job, as the library takes them.
fn words(job: &Job) -> [u32; 13] {
    [
        job.modulus,
        job.t,
        job.s,
        job.r,
        job.m,
        job.p,
        job.n,
        job.xa,
        job.xb,
        job.hosts,
        job.number,
        job.opening,
        job.closing,
    ]
}

/// The words of a message's fields, as the library takes them.
fn field_words(header: &Header) -> [u32; 6] {
    [
        header.kind,
        header.modulus,
        header.host,
        header.rows,
        header.columns,
        header.number,
    ]
}

/// The fields of a message by their words.
fn header_of([kind, modulus, host, rows, columns, number]: [u32; 6]) -> Header {
    Header {
        kind,
        modulus,
        host,
        rows,
        columns,
        number,
    }
}

/// What was told by a call that returned a number; a refused one must have told nothing.
fn told<T: PartialEq + Copy>(number: u32, told: T, untold: T) -> Result<T, u32> {
    assert!(
        number == 0 || told == untold,
        "a refused call tells something"
    );
    outcome(number).map(|()| told)
}

/// What a returned number means.
fn outcome(number: u32) -> Outcome {
    match number {
        0 => Ok(()),
        refusal => Err(refusal),
    }
}

/// The calls of the library.
pub struct Library;

impl Calls for Library {
    fn plan(&self, job: &Job, points: &[u32]) -> Result<[u32; 5], u32> {
        let (job, mut values) = (words(job), [UNTOLD; 5]);
        let number = unsafe {
            mukerihe_plan(
                job.as_ptr(),
                job.len(),
                points.as_ptr(),
                points.len(),
                values.as_mut_ptr(),
                values.len(),
            )
        };
        told(number, values, [UNTOLD; 5])
    }

    fn share(
        &self,
        matrix: Matrix,
        job: &Job,
        points: &[u32],
        host: u32,
        elements: &[u32],
        masks: &[u32],
        out: &mut [u32],
    ) -> Outcome {
        let job = words(job);
        let share = match matrix {
            Matrix::A => mukerihe_share_a,
            Matrix::B => mukerihe_share_b,
        };
        outcome(unsafe {
            share(
                job.as_ptr(),
                job.len(),
                points.as_ptr(),
                points.len(),
                host,
                elements.as_ptr(),
                elements.len(),
                masks.as_ptr(),
                masks.len(),
                out.as_mut_ptr(),
                out.len(),
            )
        })
    }

    fn product(
        &self,
        modulus: u32,
        [rows, inner, columns]: [u32; 3],
        a: &[u32],
        b: &[u32],
        out: &mut [u32],
    ) -> Outcome {
        outcome(unsafe {
            mukerihe_multiply(
                modulus,
                rows,
                inner,
                columns,
                a.as_ptr(),
                a.len(),
                b.as_ptr(),
                b.len(),
                out.as_mut_ptr(),
                out.len(),
            )
        })
    }

    fn product_of_bytes(
        &self,
        modulus: u32,
        [rows, inner, columns]: [u32; 3],
        a: &[u8],
        b: &[u8],
        out: &mut [u8],
    ) -> Outcome {
        outcome(unsafe {
            mukerihe_product(
                modulus,
                rows,
                inner,
                columns,
                a.as_ptr(),
                a.len(),
                b.as_ptr(),
                b.len(),
                out.as_mut_ptr(),
                out.len(),
            )
        })
    }

    fn answer(&self, a: &[u8], b: &[u8], out: &mut [u8]) -> Result<usize, u32> {
        let mut written = usize::MAX;
        let number = unsafe {
            mukerihe_answer(
                a.as_ptr(),
                a.len(),
                b.as_ptr(),
                b.len(),
                out.as_mut_ptr(),
                out.len(),
                &mut written,
            )
        };
        told(number, written, usize::MAX)
    }

    fn write(&self, header: &Header, elements: &[u32], out: &mut [u8]) -> Outcome {
        let fields = field_words(header);
        outcome(unsafe {
            mukerihe_write(
                fields.as_ptr(),
                fields.len(),
                elements.as_ptr(),
                elements.len(),
                out.as_mut_ptr(),
                out.len(),
            )
        })
    }

    fn read(&self, message: &[u8], out: &mut [u32]) -> Result<Header, u32> {
        let mut fields = [UNTOLD; 6];
        let number = unsafe {
            mukerihe_read(
                message.as_ptr(),
                message.len(),
                out.as_mut_ptr(),
                out.len(),
                fields.as_mut_ptr(),
                fields.len(),
            )
        };
        told(number, fields, [UNTOLD; 6]).map(header_of)
    }

    fn arrive(
        &self,
        job: &Job,
        points: &[u32],
        heard: u64,
        store: &mut [u32],
        message: &[u8],
        minute: u32,
    ) -> Result<u64, u32> {
        let job = words(job);
        let (mut after, mut already) = (heard, UNTOLD);
        let number = unsafe {
            mukerihe_arrive(
                job.as_ptr(),
                job.len(),
                points.as_ptr(),
                points.len(),
                &mut after,
                store.as_mut_ptr(),
                store.len(),
                message.as_ptr(),
                message.len(),
                minute,
                &mut already,
            )
        };
        let due = match number {
            0 => u32::from(after == heard),
            _ => UNTOLD,
        };
        assert_eq!(already, due, "an arrival tells something else");
        told(number, after, heard)
    }

    fn decode(
        &self,
        job: &Job,
        points: &[u32],
        heard: u64,
        store: &[u32],
        table: &mut [u32],
    ) -> Outcome {
        let job = words(job);
        outcome(unsafe {
            mukerihe_decode(
                job.as_ptr(),
                job.len(),
                points.as_ptr(),
                points.len(),
                heard,
                store.as_ptr(),
                store.len(),
                table.as_mut_ptr(),
                table.len(),
            )
        })
    }

    fn draw(&self, modulus: u32, words: &[u32], out: &mut [u32]) -> Result<usize, u32> {
        let mut used = usize::MAX;
        let number = unsafe {
            mukerihe_draw(
                modulus,
                words.as_ptr(),
                words.len(),
                out.as_mut_ptr(),
                out.len(),
                &mut used,
            )
        };
        told(number, used, usize::MAX)
    }

    fn page(&self, modulus: u32, t: u32, r: u32, table: &[u32], out: &mut [u8]) -> Outcome {
        outcome(unsafe {
            mukerihe_page(
                modulus,
                t,
                r,
                table.as_ptr(),
                table.len(),
                out.as_mut_ptr(),
                out.len(),
            )
        })
    }
}
