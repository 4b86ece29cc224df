//! What ends the command early, with its exit status.
//!
//!   Fault        a text and the status that goes with it
//!   Done         what a step gives, or its fault
//!   refused      1, refused, by a number of the sheet or in words
//!   wrong_use    2, the command is not used as it should be
//!   no_file      3, a file, a folder, standard output or the random source
//!   too_few      4, too few answers yet
//!   wrong_table  5, the table failed the check
//!   warn         a warning, on standard error

use std::io::{stderr, Write};

/// What ends the command early.
pub struct Fault {
    status: u8,
    pub text: String,
}

/// What a step gives, or its fault.
pub type Done<T> = Result<T, Fault>;

/// Refused, by a number of the sheet or in words.
pub fn refused(text: impl Into<String>) -> Fault {
    fault(1, text)
}

/// The command is not used as it should be.
pub fn wrong_use(text: impl Into<String>) -> Fault {
    fault(2, text)
}

/// A file, a folder, standard output or the random source.
pub fn no_file(text: impl Into<String>) -> Fault {
    fault(3, text)
}

/// Too few answers yet.
pub fn too_few(text: impl Into<String>) -> Fault {
    fault(4, text)
}

/// The table failed the check.
pub fn wrong_table(text: impl Into<String>) -> Fault {
    fault(5, text)
}

/// A fault with its status.
fn fault(status: u8, text: impl Into<String>) -> Fault {
    let text = text.into();
    Fault { status, text }
}

impl Fault {
    /// Says on standard error what is wrong, and gives the exit status. Where standard error cannot
    /// be written either, the status says it alone.
    pub fn told(&self) -> u8 {
        match stderr().write_all(format!("mukerihe: {}\n", self.text).as_bytes()) {
            Ok(()) | Err(_) => self.status,
        }
    }

    /// The same fault with more to say.
    pub fn and(mut self, more: &str) -> Fault {
        self.text.push_str("\nmukerihe: ");
        self.text.push_str(more);
        self
    }
}

/// A warning, on standard error.
pub fn warn(text: &str) -> Done<()> {
    stderr()
        .write_all(format!("mukerihe: warning: {text}\n").as_bytes())
        .map_err(|error| no_file(format!("standard error: {error}")))
}
