//! mukerihe show MESSAGE: a message's header, and the first number of reading that fits it.
//!
//!   run  the command

use crate::answers::kind_name;
use crate::arguments::{self, Usage};
use crate::fault::{refused, Done};
use crate::files;
use crate::primes;
use crate::sys::{self, MOST_MESSAGE};
use crate::text::shown;
use crate::told::Told;
use crate::words::by;
use std::ffi::OsString;
use std::path::PathBuf;

/// How it is used.
const USAGE: Usage = Usage {
    text: "mukerihe show MESSAGE",
    flags: &[],
    valued: &[],
};

/// The number in some bytes of a header, the highest first.
fn number(message: &[u8], from: usize, length: usize) -> u32 {
    let bytes = message.iter().skip(from).take(length);
    bytes.fold(0_u32, |number, &byte| number << 8 | u32::from(byte))
}

/// The fields in the bytes of a header, whatever they hold: of a message that reading refuses.
fn fields_of(message: &[u8]) -> [u32; sys::FIELD_WORDS] {
    [
        number(message, 5, 1),
        number(message, 6, 1),
        number(message, 7, 1),
        number(message, 8, 2),
        number(message, 10, 2),
        number(message, 12, 4),
    ]
}

/// The lines of a header.
fn lines([kind, modulus, host, rows, columns, number]: [u32; sys::FIELD_WORDS]) -> [String; 5] {
    let prime = match primes::prime_of(modulus) {
        Some(prime) => format!("prime {prime}"),
        None => "no prime".to_string(),
    };
    [
        format!("kind {kind}: {}", kind_name(kind)),
        format!("modulus number {modulus}: {prime}"),
        format!("host {host}"),
        format!("{rows} by {columns} elements"),
        format!("job {number:08x} (number {number})"),
    ]
}

/// The size of a file, as far as it was read.
fn size(message: &[u8]) -> String {
    match message.len() {
        length if length > MOST_MESSAGE => format!("more than {MOST_MESSAGE} bytes"),
        length => format!("{length} bytes"),
    }
}

/// Shows a message.
pub fn run(arguments: Vec<OsString>) -> Done<()> {
    let [path] = arguments::exactly(arguments::operands(arguments, &USAGE)?, &USAGE)?;
    let path = PathBuf::from(path);
    let message = files::read_message(&path)?;
    let read = sys::read(&message);
    let mut told = Told::default();
    told.line(format!("{}: {}", shown(&path), size(&message)));
    if message.len() >= 16 {
        let fields = read.unwrap_or_else(|_| fields_of(&message));
        lines(fields).iter().for_each(|line| told.line(line));
    }
    if read.is_ok() {
        told.line("a fit message");
    }
    told.send()?;
    read.map(|_| ())
        .map_err(|number| refused(format!("{}: {}", shown(&path), by(number))))
}
