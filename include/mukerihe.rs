//! The functions of both libraries for Rust: include/mukerihe.h and include/mukerihe_bank.h say what they
//! take, what they return, and what their pointers must be.
//!
//! A program brings them in with `#[path = "../include/mukerihe.rs"] mod mukerihe;` by its own path, and links
//! what it calls: `-l static=mukerihe_bank -l static=mukerihe`.

#![allow(dead_code)]

#[rustfmt::skip]
extern "C" {
    pub fn mukerihe_plan(
        job: *const u32, job_length: usize, points: *const u32, points_length: usize,
        values: *mut u32, values_length: usize,
    ) -> u32;

    pub fn mukerihe_draw(
        modulus: u32, words: *const u32, words_length: usize, out: *mut u32, out_length: usize,
        used: *mut usize,
    ) -> u32;

    pub fn mukerihe_share_a(
        job: *const u32, job_length: usize, points: *const u32, points_length: usize, host: u32,
        elements: *const u32, elements_length: usize, masks: *const u32, masks_length: usize,
        out: *mut u32, out_length: usize,
    ) -> u32;

    pub fn mukerihe_share_b(
        job: *const u32, job_length: usize, points: *const u32, points_length: usize, host: u32,
        elements: *const u32, elements_length: usize, masks: *const u32, masks_length: usize,
        out: *mut u32, out_length: usize,
    ) -> u32;

    pub fn mukerihe_write(
        fields: *const u32, fields_length: usize, elements: *const u32, elements_length: usize,
        out: *mut u8, out_length: usize,
    ) -> u32;

    pub fn mukerihe_read(
        message: *const u8, message_length: usize, elements: *mut u32, elements_length: usize,
        fields: *mut u32, fields_length: usize,
    ) -> u32;

    pub fn mukerihe_arrive(
        job: *const u32, job_length: usize, points: *const u32, points_length: usize,
        heard: *mut u64, store: *mut u32, store_length: usize, message: *const u8,
        message_length: usize, minute: u32, already: *mut u32,
    ) -> u32;

    pub fn mukerihe_decode(
        job: *const u32, job_length: usize, points: *const u32, points_length: usize, heard: u64,
        store: *const u32, store_length: usize, table: *mut u32, table_length: usize,
    ) -> u32;

    pub fn mukerihe_multiply(
        modulus: u32, rows: u32, inner: u32, columns: u32, a: *const u32, a_length: usize,
        b: *const u32, b_length: usize, out: *mut u32, out_length: usize,
    ) -> u32;

    pub fn mukerihe_signed(modulus: u32, element: u32, value: *mut i64) -> u32;

    pub fn mukerihe_element(modulus: u32, value: i64, element: *mut u32) -> u32;

    pub fn mukerihe_page_length(t: u32, r: u32) -> usize;

    pub fn mukerihe_page(
        modulus: u32, t: u32, r: u32, table: *const u32, table_length: usize,
        out: *mut u8, out_length: usize,
    ) -> u32;

    pub fn mukerihe_product(
        modulus: u32, rows: u32, inner: u32, columns: u32, a: *const u8, a_length: usize,
        b: *const u8, b_length: usize, out: *mut u8, out_length: usize,
    ) -> u32;

    pub fn mukerihe_answer(
        a: *const u8, a_length: usize, b: *const u8, b_length: usize,
        out: *mut u8, out_length: usize, written: *mut usize,
    ) -> u32;
}
