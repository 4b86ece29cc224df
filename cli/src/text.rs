//! Text of files and names.
//!
//!   text_of     the bytes of a file as text: UTF-8, without the mark at the front
//!   shown       a path, with control characters and bytes that are no UTF-8 escaped
//!   shown_name  a name from a file, in quotes, with control characters escaped
//!   whole       a whole number
//!   whole_32    a whole number of 32 bits
//!   joined      numbers with a blank between two

use crate::fault::{refused, Done, Fault};
use std::ffi::OsStr;
use std::os::unix::ffi::OsStrExt;

/// The mark that some programs put at the front of UTF-8.
const MARK: [u8; 3] = [0xEF, 0xBB, 0xBF];

/// The bytes of a file as text. UTF-16, a byte 0, a lone CR and what is no UTF-8 are refused.
pub fn text_of(mut bytes: Vec<u8>, file: &str) -> Done<String> {
    if bytes.starts_with(&[0xFF, 0xFE]) || bytes.starts_with(&[0xFE, 0xFF]) {
        return Err(refused(format!("{file}: this is UTF-16; save it as UTF-8")));
    }
    if let Some(at) = bytes.iter().position(|&byte| byte == 0) {
        let why = "a byte 0; if this is UTF-16, save it as UTF-8";
        return Err(fault_at(file, &bytes, at, why));
    }
    if let Some(at) = lone_return(&bytes) {
        let why = "a lone CR; save it with line ends LF or CR LF";
        return Err(fault_at(file, &bytes, at, why));
    }
    if bytes.starts_with(&MARK) {
        bytes.drain(..MARK.len());
    }
    String::from_utf8(bytes).map_err(|error| {
        let at = error.utf8_error().valid_up_to();
        fault_at(file, error.as_bytes(), at, "no UTF-8; save it as UTF-8")
    })
}

/// A fault at a byte of a file: its line is told.
fn fault_at(file: &str, bytes: &[u8], at: usize, why: &str) -> Fault {
    let ends = bytes.iter().take(at).filter(|&&byte| byte == b'\n');
    refused(format!("{file}, line {}: {why}", ends.count() + 1))
}

/// Where a CR stands that no LF follows.
fn lone_return(bytes: &[u8]) -> Option<usize> {
    let after = bytes.iter().skip(1).chain([&0]);
    let mut pairs = bytes.iter().zip(after);
    pairs.position(|(&byte, &next)| byte == b'\r' && next != b'\n')
}

/// A path as it is shown: control characters, and bytes that are no UTF-8, are escaped.
pub fn shown(path: impl AsRef<OsStr>) -> String {
    let mut rest = path.as_ref().as_bytes();
    let mut text = String::new();
    while let Err(error) = std::str::from_utf8(rest) {
        let (fit, unfit) = rest.split_at(error.valid_up_to());
        let wrong = error.error_len().unwrap_or(unfit.len());
        text.push_str(&visible(&String::from_utf8_lossy(fit)));
        text.push_str(&unfit.iter().take(wrong).map(hex).collect::<String>());
        rest = unfit.get(wrong..).unwrap_or_default();
    }
    text.push_str(&visible(&String::from_utf8_lossy(rest)));
    text
}

/// A byte as it is shown where it is no UTF-8.
fn hex(byte: &u8) -> String {
    format!("\\x{byte:02x}")
}

/// The most letters of a name that are shown.
const SHOWN: usize = 60;

/// A name from a file as it is shown: in quotes, control characters escaped, a long one cut.
pub fn shown_name(name: &str) -> String {
    let front: String = name.chars().take(SHOWN).collect();
    let rest = if front.len() < name.len() { ".." } else { "" };
    format!("\"{}{rest}\"", visible(&front))
}

/// A text with what cannot be seen escaped.
fn visible(text: &str) -> String {
    let escaped = text.escape_debug().to_string();
    escaped.replace("\\'", "'").replace("\\\"", "\"")
}

/// A whole number: digits alone, without a needless 0 at the front; or what is wrong with it.
pub fn whole(text: &str) -> Result<u64, &'static str> {
    if text.is_empty() || !text.bytes().all(|byte| byte.is_ascii_digit()) {
        return Err("is no whole number");
    }
    if text.len() > 1 && text.starts_with('0') {
        return Err("has a needless 0 at its front");
    }
    text.parse().map_err(|_| "is too large")
}

/// A whole number of 32 bits, or what is wrong with it.
pub fn whole_32(text: &str) -> Result<u32, &'static str> {
    u32::try_from(whole(text)?).map_err(|_| "is too large, at most 4294967295")
}

/// Numbers with a blank between two.
pub fn joined(numbers: &[u32]) -> String {
    let texts: Vec<String> = numbers.iter().map(u32::to_string).collect();
    texts.join(" ")
}
