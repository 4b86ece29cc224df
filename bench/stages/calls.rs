//! The calls of a job, the drawing of masks and the page, by the library and in plain Rust.

use plain::answer::answer;
use plain::arrival::arrive;
use plain::decode::decode;
use plain::masks::draw_masks;
use plain::message::{read_message, write_message, Header};
use plain::page::write_page;
use plain::plan::{plan, Job};
use plain::product::{product, product_of_bytes};
use plain::share::{share, Matrix};

/// The outcome of a call: done, or the number of the refusal.
pub type Outcome = Result<(), u32>;

/// One who makes the calls.
pub trait Calls {
    /// Layout, K, and rows, inner and columns of the blocks.
    fn plan(&self, job: &Job, points: &[u32]) -> Result<[u32; 5], u32>;

    fn share(
        &self,
        matrix: Matrix,
        job: &Job,
        points: &[u32],
        host: u32,
        elements: &[u32],
        masks: &[u32],
        out: &mut [u32],
    ) -> Outcome;

    fn product(
        &self,
        modulus: u32,
        sizes: [u32; 3],
        a: &[u32],
        b: &[u32],
        out: &mut [u32],
    ) -> Outcome;

    fn product_of_bytes(
        &self,
        modulus: u32,
        sizes: [u32; 3],
        a: &[u8],
        b: &[u8],
        out: &mut [u8],
    ) -> Outcome;

    fn answer(&self, a: &[u8], b: &[u8], out: &mut [u8]) -> Result<usize, u32>;

    fn write(&self, header: &Header, elements: &[u32], out: &mut [u8]) -> Outcome;

    fn read(&self, message: &[u8], out: &mut [u32]) -> Result<Header, u32>;

    fn arrive(
        &self,
        job: &Job,
        points: &[u32],
        heard: u64,
        store: &mut [u32],
        message: &[u8],
        minute: u32,
    ) -> Result<u64, u32>;

    fn decode(
        &self,
        job: &Job,
        points: &[u32],
        heard: u64,
        store: &[u32],
        table: &mut [u32],
    ) -> Outcome;

    fn draw(&self, modulus: u32, words: &[u32], out: &mut [u32]) -> Result<usize, u32>;

    fn page(&self, modulus: u32, t: u32, r: u32, table: &[u32], out: &mut [u8]) -> Outcome;
}

/// The calls in plain Rust.
pub struct Plain;

impl Calls for Plain {
    fn plan(&self, job: &Job, points: &[u32]) -> Result<[u32; 5], u32> {
        let plan = plan(job, points)?;
        let [rows, inner, columns] = [plan.rows, plan.inner, plan.columns].map(|size| size as u32);
        Ok([plan.layout.number, plan.layout.needed, rows, inner, columns])
    }

    fn share(
        &self,
        matrix: Matrix,
        job: &Job,
        points: &[u32],
        host: u32,
        elements: &[u32],
        masks: &[u32],
        out: &mut [u32],
    ) -> Outcome {
        share(matrix, job, points, host, elements, masks, out)
    }

    fn product(
        &self,
        modulus: u32,
        sizes: [u32; 3],
        a: &[u32],
        b: &[u32],
        out: &mut [u32],
    ) -> Outcome {
        product(modulus, sizes, a, b, out)
    }

    fn product_of_bytes(
        &self,
        modulus: u32,
        sizes: [u32; 3],
        a: &[u8],
        b: &[u8],
        out: &mut [u8],
    ) -> Outcome {
        product_of_bytes(modulus, sizes, a, b, out)
    }

    fn answer(&self, a: &[u8], b: &[u8], out: &mut [u8]) -> Result<usize, u32> {
        answer(a, b, out)
    }

    fn write(&self, header: &Header, elements: &[u32], out: &mut [u8]) -> Outcome {
        write_message(header, elements, out)
    }

    fn read(&self, message: &[u8], out: &mut [u32]) -> Result<Header, u32> {
        read_message(message, out)
    }

    fn arrive(
        &self,
        job: &Job,
        points: &[u32],
        heard: u64,
        store: &mut [u32],
        message: &[u8],
        minute: u32,
    ) -> Result<u64, u32> {
        arrive(job, points, heard, store, message, minute)
    }

    fn decode(
        &self,
        job: &Job,
        points: &[u32],
        heard: u64,
        store: &[u32],
        table: &mut [u32],
    ) -> Outcome {
        decode(job, points, heard, store, table)
    }

    fn draw(&self, modulus: u32, words: &[u32], out: &mut [u32]) -> Result<usize, u32> {
        draw_masks(modulus, words, out)
    }

    fn page(&self, modulus: u32, t: u32, r: u32, table: &[u32], out: &mut [u8]) -> Outcome {
        write_page(modulus, t, r, table, out)
    }
}
