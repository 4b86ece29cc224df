//! The stages of a job in plain Rust: the same calls, tests and results as the proved crates, in
//! ordinary safe code. The benchmarks run it beside the library. It shares no code with the proved
//! crates, nor with the reference program.
//!
//!   field     elements modulo a prime that the compiler knows
//!   plan      a job's numbers and points, tested; the layout; K
//!   share     the shares of A and of B
//!   product   a host's product, on elements and on bytes
//!   message   messages, written and read
//!   answer    a host's whole part, messages in and out
//!   arrival   an answer taken into the store
//!   decode    the table from the answers
//!   masks     masks drawn from random words
//!   page      the table as lines of text
//!   for_c     the product on bytes for a C program
//!
//! A refused call returns the sheet's number as an error, and leaves every buffer as it was.

pub mod answer;
pub mod arrival;
pub mod decode;
mod field;
mod for_c;
pub mod masks;
pub mod message;
pub mod page;
pub mod plan;
pub mod product;
pub mod share;

/// The most elements that a block holds.
const MOST: usize = 4096;
