//! The reference program: what the proved code must give, worked out from the papers alone.
//!
//! It shares no code and no table with the proved crates. Each subject is a subcommand that
//! checks itself, then writes its cases and what is due to them.
//!
//!   sheet     the sheet's calls: plans, shares, products, messages, arrivals, decodings, signed
//!             reading, masks, pages, a host's whole part, the lister's text
//!   cases     what the makers of cases have in common
//!   lister    the subcommand `lister`: inputs of the plan lister
//!   calls     the subcommand `calls`: shares, products, messages, signed reading, masks, pages,
//!             plans and a host's whole part
//!   jobs      the subcommand `jobs`: arrivals and decodings, alone and in whole jobs
//!   texts     the subcommand `texts`: whole jobs as plain texts
//!   drawings  the subcommand `drawings`: masks to draw as plain texts
//!   command   the subcommand `command`: jobs for the command `mukerihe`, as files
//!
//! The folder plain is no part of it: that is the plain Rust program of the benchmarks.

mod calls;
mod cases;
mod command;
mod drawings;
mod jobs;
mod lister;
mod sheet;
mod texts;

/// Picks the subject named on the command line.
fn main() {
    let words: Vec<String> = std::env::args().skip(1).collect();
    let words: Vec<&str> = words.iter().map(String::as_str).collect();
    match words.as_slice() {
        ["lister", stdin_file, stdout_file] => lister::write_files(stdin_file, stdout_file),
        ["calls", stdin_file, stdout_file] => calls::write_files(stdin_file, stdout_file),
        ["jobs", stdin_file, stdout_file] => jobs::write_files(stdin_file, stdout_file),
        ["texts", folder] => texts::write_folder(folder),
        ["drawings", folder] => drawings::write_folder(folder),
        ["command", folder] => command::write_folder(folder),
        _ => {
            eprintln!("usage: reference lister|calls|jobs STDIN_FILE STDOUT_FILE");
            eprintln!("       reference texts|drawings|command FOLDER");
            std::process::exit(2);
        }
    }
}
