//! What the command says on standard output.
//!
//!   Told  lines that are kept until they are sent, all at once

use crate::fault::{no_file, Done};
use std::fs::File;
use std::io::{stdout, Write};
use std::os::unix::io::AsFd;

/// Lines for standard output. They are kept until `send`, which says where they cannot be written.
#[derive(Default)]
pub struct Told {
    text: String,
}

impl Told {
    /// A line more.
    pub fn line(&mut self, line: impl AsRef<str>) {
        self.text.push_str(line.as_ref());
        self.text.push('\n');
    }

    /// Writes all lines that are kept. It writes to the descriptor itself: the standard library's
    /// own output takes a write to one that cannot be written for done.
    pub fn send(&mut self) -> Done<()> {
        let descriptor = stdout().as_fd().try_clone_to_owned();
        descriptor
            .map(File::from)
            .and_then(|mut output| output.write_all(self.text.as_bytes()))
            .map_err(|error| no_file(format!("standard output: {error}")))?;
        self.text.clear();
        Ok(())
    }
}
