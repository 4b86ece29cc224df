//! Files that are read: regular ones, up to a limit.
//!
//!   read          a whole file of at most so many bytes
//!   read_message  a message: its bytes, or the front of a file that is longer than any

use crate::fault::{no_file, refused, Done};
use crate::sys::MOST_MESSAGE;
use crate::text::shown;
use std::fs::{File, FileType, OpenOptions};
use std::io::Read;
use std::os::unix::fs::{FileTypeExt, OpenOptionsExt};
use std::path::Path;

/// A pipe without a writer, and a device that is not ready, are opened at once all the same.
const O_NONBLOCK: i32 = 0o4000;

/// A terminal does not become the command's own.
const O_NOCTTY: i32 = 0o400;

/// Opens a regular file.
fn open(path: &Path) -> Done<File> {
    let failed = |error| no_file(format!("{}: {error}", shown(path)));
    let flags = O_NONBLOCK | O_NOCTTY;
    let opened = OpenOptions::new().read(true).custom_flags(flags).open(path);
    let file = opened.map_err(failed)?;
    let kind = file.metadata().map_err(failed)?.file_type();
    if kind.is_file() {
        return Ok(file);
    }
    let name = shown(path);
    let kind = file_kind(kind);
    Err(no_file(format!("{name}: {kind}; expected a regular file")))
}

/// What a file is that is no regular one.
fn file_kind(kind: FileType) -> &'static str {
    if kind.is_dir() {
        "a folder"
    } else if kind.is_fifo() {
        "a pipe"
    } else {
        "a device or the like"
    }
}

/// The first bytes of a file, at most so many.
fn front(path: &Path, most: usize) -> Done<Vec<u8>> {
    let mut bytes = Vec::new();
    open(path)?
        .take(u64::try_from(most).unwrap_or(u64::MAX))
        .read_to_end(&mut bytes)
        .map_err(|error| no_file(format!("{}: {error}", shown(path))))?;
    Ok(bytes)
}

/// A whole file of at most so many bytes.
pub fn read(path: &Path, most: usize) -> Done<Vec<u8>> {
    let bytes = front(path, most.saturating_add(1))?;
    if bytes.len() > most {
        let name = shown(path);
        return Err(refused(format!("{name}: more than {most} bytes")));
    }
    Ok(bytes)
}

/// A message. Of a file that is longer than any message one byte more is read: no message has so
/// many, and reading refuses it by the number that it has for the whole file.
pub fn read_message(path: &Path) -> Done<Vec<u8>> {
    front(path, MOST_MESSAGE + 1)
}
