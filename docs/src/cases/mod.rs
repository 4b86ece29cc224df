//! What the makers of cases have in common.
//!
//!   counts         how many cases there are of each kind, held to floors
//!   draw           random plans
//!   faults         calls with faults put in, one or two at once
//!   windows        windows and minutes
//!   tokens         the tokens of a plain text, and the numbers among them
//!   forms          texts of the same tokens in all forms
//!   number_faults  texts with a fault in a number
//!   folder         texts and what must be printed for them, as the files of a folder
//!   save           writes a file

pub mod counts;
pub mod draw;
pub mod faults;
pub mod folder;
pub mod forms;
pub mod number_faults;
pub mod tokens;
pub mod windows;

/// Writes a whole file.
pub fn save(file: &str, bytes: &[u8]) {
    std::fs::write(file, bytes).expect("the file cannot be written");
}
