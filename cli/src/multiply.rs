//! mukerihe multiply A.mdo B.mdo [ANSWER]: the host's part.
//!
//!   run  the command

use crate::answers::kind_name;
use crate::arguments::{self, Usage};
use crate::fault::{refused, Done, Fault};
use crate::files;
use crate::outputs::{made_all_the_same, NewFile};
use crate::primes;
use crate::sys;
use crate::text::shown;
use crate::told::Told;
use crate::words::by;
use std::ffi::OsString;
use std::path::{Path, PathBuf};

/// How it is used.
const USAGE: Usage = Usage {
    text: "mukerihe multiply A.mdo B.mdo [ANSWER]",
    flags: &[],
    valued: &[],
};

/// What a message says of itself, in words.
fn told_of([kind, modulus, host, rows, columns, number]: [u32; sys::FIELD_WORDS]) -> String {
    let (kind, prime) = (
        kind_name(kind),
        primes::prime_of(modulus).unwrap_or_default(),
    );
    format!("{kind}, job {number:08x}, host {host}, prime {prime}, {rows} by {columns}")
}

/// Why two messages get no answer: which of them cannot be read, or what each is.
fn fault_of(number: u32, (a_path, a): (&Path, &[u8]), (b_path, b): (&Path, &[u8])) -> Fault {
    let (a_name, b_name) = (shown(a_path), shown(b_path));
    match (sys::read(a), sys::read(b)) {
        (Err(_), _) => refused(format!("{a_name}: {}", by(number))),
        (_, Err(_)) => refused(format!("{b_name}: {}", by(number))),
        (Ok(a), Ok(b)) => {
            let (a, b) = (told_of(a), told_of(b));
            refused(format!("{}\n{a_name}: {a}\n{b_name}: {b}", by(number)))
        }
    }
}

/// The name of an answer's file where none is given, by its job number and its host.
fn answer_name(answer: &[u8]) -> Done<PathBuf> {
    let fields = sys::read(answer).map_err(|number| refused(by(number)))?;
    let [_, _, host, _, _, number] = fields;
    Ok(PathBuf::from(format!("{number:08x}-{host:02}.answer.mdo")))
}

/// Multiplies two shares.
pub fn run(arguments: Vec<OsString>) -> Done<()> {
    let mut operands = arguments::operands(arguments, &USAGE)?;
    let third = match operands.len() {
        3 => operands.pop().map(PathBuf::from),
        _ => None,
    };
    let [a_path, b_path] = arguments::exactly(operands, &USAGE)?.map(PathBuf::from);
    let a = files::read_message(&a_path)?;
    let b = files::read_message(&b_path)?;
    let made = sys::answer(&a, &b);
    let answer = made.map_err(|number| fault_of(number, (&a_path, &a), (&b_path, &b)))?;
    let path = match third {
        Some(path) => path,
        None => answer_name(&answer)?,
    };
    let file = NewFile::write(&path, &answer)?;
    let (name, bytes) = (shown(&path), answer.len());
    let mut told = Told::default();
    told.line(format!("{name}: the answer, {bytes} bytes"));
    told.send()?;
    file.name()?;
    told.line(format!("send back {name} only, then delete both shares"));
    told.send().map_err(|fault| made_all_the_same(fault, &path))
}
