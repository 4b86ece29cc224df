//! Every stage of a job, masks drawn and pages, by the library and in plain Rust, timed by turns. Prints
//! tables of medians and of their ratios; with the word `once` the times of one process.
//!
//!   calls     the calls of a job, the drawing of masks and the page, and plain Rust's
//!   library   the library's calls
//!   work      a job, and how it goes from the plan to the table
//!   agree     both give the same outcomes, refused calls too
//!   stage     one stage made by both
//!   drawing   masks drawn by both
//!   page      pages written by both
//!   race      two contestants timed by turns
//!   cases     what is timed
//!   report    the tables
//!
//! Link it with libmukerihe_bank.a, libmukerihe.a and the plain Rust program of docs/src/plain.

mod agree;
mod calls;
mod cases;
mod drawing;
mod library;
mod page;
mod race;
#[allow(dead_code)]
#[path = "../../docs/src/sheet/random.rs"]
mod random;
mod report;
mod stage;
mod work;

/// Times the stages once, or checks that both agree and prints the tables.
fn main() {
    if std::env::args().nth(1).as_deref() == Some("once") {
        report::print_times();
    } else {
        agree::check();
        report::print_tables();
    }
}
