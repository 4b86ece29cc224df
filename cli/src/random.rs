//! Random words, from the system or from a file, and what is drawn from them.
//!
//!   Source  where random words come from
//!   number  a fresh job number

use crate::fault::{no_file, refused, Done, Fault};
use crate::files;
use crate::outputs::{give_name, place_of, sync_folder};
use crate::sys;
use crate::text::shown;
use crate::words::{by, TOO_FEW_WORDS};
use std::ffi::OsString;
use std::fs;
use std::io::ErrorKind;
use std::path::{Path, PathBuf};

/// How many words more than elements are asked for, should some be skipped.
const SPARE: usize = 16;

/// How often the system is asked where too few of its words are usable. Even once is rarer than one
/// in 2^100.
const TURNS: u32 = 8;

/// The most bytes of a file of random words. No job draws more than 311,296 elements: masks of 2 · 16
/// blocks of 4096, and a V of 16384 by 11.
const MOST_WORDS: usize = 16 * 1024 * 1024;

/// The ending of a file whose words were used.
const SPENT: &str = ".spent";

/// Fills a buffer from the system's random source. Short reads and interrupted ones go on; there is
/// no other source.
fn fill_from_system(mut rest: &mut [u8]) -> Done<()> {
    let failed = |why: &str| no_file(format!("the system's random source: {why}"));
    while !rest.is_empty() {
        match sys::random(rest) {
            Ok(0) => return Err(failed("it gives nothing")),
            Ok(count) => {
                rest = rest
                    .get_mut(count..)
                    .ok_or_else(|| failed("a wrong count"))?
            }
            Err(error) if error.kind() == ErrorKind::Interrupted => {}
            Err(error) => return Err(failed(&error.to_string())),
        }
    }
    Ok(())
}

/// The words that bytes stand for, 4 bytes each, the highest first.
fn words_of(bytes: &[u8]) -> Vec<u32> {
    let word = |four: &[u8]| {
        four.iter()
            .fold(0_u32, |word, &byte| word << 8 | u32::from(byte))
    };
    bytes.chunks(4).map(word).collect()
}

/// So many words of the system's random source.
fn system_words(count: usize) -> Done<Vec<u32>> {
    let mut bytes = vec![0; count.saturating_mul(4)];
    fill_from_system(&mut bytes)?;
    Ok(words_of(&bytes))
}

/// A fresh job number.
pub fn number() -> Done<u32> {
    let mut bytes = [0; 4];
    fill_from_system(&mut bytes)?;
    Ok(u32::from_be_bytes(bytes))
}

/// Where random words come from: the system, or a file, with those that are left.
pub enum Source {
    System,
    File { path: PathBuf, words: Vec<u32> },
}

/// The name of a file whose words were used.
fn spent_name(path: &Path) -> PathBuf {
    let mut name = OsString::from(path);
    name.push(SPENT);
    PathBuf::from(name)
}

/// Refuses a file whose words were used, and a link: renaming it would leave the words as they are.
fn must_be_fresh(path: &Path) -> Done<()> {
    let name = shown(path);
    if name.ends_with(SPENT) || fs::symlink_metadata(spent_name(path)).is_ok() {
        return Err(refused(format!(
            "{name}: these words were spent; no word is used twice"
        )));
    }
    match fs::symlink_metadata(path) {
        Err(error) => Err(no_file(format!("{name}: {error}"))),
        Ok(about) if about.file_type().is_symlink() => {
            Err(no_file(format!("{name}: a link; expected the file itself")))
        }
        Ok(_) => Ok(()),
    }
}

impl Source {
    /// The words of a file, or the system's where there is none.
    pub fn of(path: Option<&Path>) -> Done<Source> {
        let path = match path {
            None => return Ok(Source::System),
            Some(path) => path.to_path_buf(),
        };
        must_be_fresh(&path)?;
        let bytes = files::read(&path, MOST_WORDS)?;
        if bytes.len() & 3 != 0 {
            let name = shown(&path);
            return Err(refused(format!("{name}: expected words of 4 bytes each")));
        }
        let words = words_of(&bytes);
        Ok(Source::File { path, words })
    }

    /// Draws so many elements.
    pub fn draw(&mut self, modulus: u32, count: usize) -> Done<Vec<u32>> {
        match self {
            Source::System => draw_from_system(modulus, count),
            Source::File { path, words } => draw_from_file(modulus, count, path, words),
        }
    }

    /// Gives the file of words its spent name: no other run can use them then.
    pub fn spend(&self) -> Done<()> {
        match self {
            Source::System => Ok(()),
            Source::File { path, .. } => {
                give_name(path, &spent_name(path))?;
                let synced = sync_folder(&place_of(path)?.0);
                synced.map_err(|fault| self.with_words(fault))
            }
        }
    }

    /// A fault after which the file of words is spent.
    pub fn with_words(&self, fault: Fault) -> Fault {
        match self.told() {
            None => fault,
            Some(line) => fault.and(&line),
        }
    }

    /// What becomes of the file of words, in a line.
    pub fn told(&self) -> Option<String> {
        match self {
            Source::System => None,
            Source::File { path, .. } => {
                let spent = shown(spent_name(path));
                Some(format!("words: used, and now {spent}; destroy them"))
            }
        }
    }
}

/// Draws from words of the system.
fn draw_from_system(modulus: u32, count: usize) -> Done<Vec<u32>> {
    let mut out = vec![0; count];
    for _ in 0..TURNS {
        let words = system_words(count.saturating_add(SPARE))?;
        match sys::draw(modulus, &words, &mut out) {
            Ok(_) => return Ok(out),
            Err(TOO_FEW_WORDS) => {}
            Err(number) => return Err(refused(by(number))),
        }
    }
    let why = by(TOO_FEW_WORDS);
    Err(no_file(format!("the system's random source: {why}")))
}

/// Draws from the words of a file, and leaves those that were not used.
fn draw_from_file(modulus: u32, count: usize, path: &Path, words: &mut Vec<u32>) -> Done<Vec<u32>> {
    let mut out = vec![0; count];
    let drawn = sys::draw(modulus, words, &mut out);
    let used = drawn.map_err(|number| {
        let (name, left) = (shown(path), words.len());
        refused(format!(
            "{name}: {}; {left} are left and {count} wanted",
            by(number)
        ))
    })?;
    words.drain(..used.min(words.len()));
    Ok(out)
}
