//! FOLDER/job: the job as it was shared. It is secret, and is read as strictly as it was written.
//!
//!   JOB_NAME     the file's name in FOLDER
//!   MOST_SHARED  the most bytes of the file
//!   Shared       the job, how its numbers are read, its names and its check; as text
//!   read         reads the file

use crate::check::{self, Check};
use crate::fault::{refused, Done};
use crate::files;
use crate::job::Job;
use crate::primes;
use crate::text::{joined, shown, whole_32};
use std::path::Path;

/// The file's name in FOLDER.
pub const JOB_NAME: &str = "job";

/// The most bytes of the file.
pub const MOST_SHARED: usize = 64 * 1024 * 1024;

/// The first line: what this is.
const TITLE: &str = "mukerihe: a job as it was shared, version 1";

/// The second line: how to keep it.
const WARNING: &str = "secret, as A and B are: keep it until the table is decoded, then remove it";

/// The job as it was shared: its numbers, the signed reading, whether entries may be no whole
/// numbers, A's row names, B's column names and the check.
pub struct Shared {
    pub job: Job,
    pub signed: bool,
    pub wrapped: bool,
    pub row_names: Vec<String>,
    pub column_names: Vec<String>,
    pub check: Check,
}

/// Two sums over all bytes before the last line: a turned bit shows, and so do two bytes that were
/// exchanged. Up to 64 MB the second is below 2^60.
fn sums(text: &str) -> (u64, u64) {
    let add = |(one, two): (u64, u64), byte: u8| {
        let one = one.saturating_add(u64::from(byte));
        (one, two.saturating_add(one))
    };
    text.bytes().fold((0, 0), add)
}

/// A name in one line: a backslash and control characters are escaped.
fn escaped(name: &str) -> String {
    let letter = |letter: char| match letter {
        '\\' => "\\\\".to_string(),
        letter if letter.is_control() => letter.escape_unicode().to_string(),
        letter => letter.to_string(),
    };
    name.chars().map(letter).collect()
}

/// The name that an escaped one stands for.
fn unescaped(text: &str) -> Option<String> {
    let mut parts = text.split('\\');
    let mut name = parts.next()?.to_string();
    while let Some(part) = parts.next() {
        if part.is_empty() {
            name.push('\\');
            name.push_str(parts.next()?);
            continue;
        }
        let (code, rest) = part.strip_prefix("u{")?.split_once('}')?;
        name.push(char::from_u32(u32::from_str_radix(code, 16).ok()?)?);
        name.push_str(rest);
    }
    Some(name)
}

/// A line `name = value`.
fn line(name: &str, value: impl AsRef<str>) -> String {
    format!("{name} = {}\n", value.as_ref())
}

/// Names, how many and a line each.
fn name_lines(title: &str, names: &[String]) -> String {
    let lines = names.iter().map(|name| line("name", escaped(name)));
    let count = line(title, names.len().to_string());
    std::iter::once(count).chain(lines).collect()
}

/// A matrix, a line a row.
fn matrix_lines(name: &str, elements: &[u32], columns: usize) -> String {
    let rows = elements.chunks(columns.max(1));
    rows.map(|row| line(name, joined(row))).collect()
}

/// Yes or no.
fn yes(value: bool) -> &'static str {
    if value {
        "yes"
    } else {
        "no"
    }
}

impl Shared {
    /// The lines with the job's numbers.
    fn number_lines(&self) -> String {
        let job = &self.job;
        let prime = primes::prime_of(job.modulus).unwrap_or_default();
        let window = job
            .window
            .map_or("none".to_string(), |window| joined(&window));
        [
            line("number", format!("{:08x}", job.number)),
            line("prime", prime.to_string()),
            line("sizes", joined(&job.sizes)),
            line("cuts", joined(&job.cuts)),
            line("groups", joined(&job.groups)),
            line("points", joined(&job.points)),
            line("window", window),
            line("signed", yes(self.signed)),
            line("wrapped", yes(self.wrapped)),
        ]
        .concat()
    }

    /// The file as text.
    pub fn text(&self) -> String {
        let body = [
            format!("{TITLE}\n{WARNING}\n"),
            self.number_lines(),
            name_lines("row_names", &self.row_names),
            name_lines("column_names", &self.column_names),
            matrix_lines("v", &self.check.secret, self.check.columns),
            matrix_lines("abv", &self.check.product, self.check.columns),
        ]
        .concat();
        let (one, two) = sums(&body);
        body + &line("sums", format!("{one} {two}"))
    }
}

/// The lines of the file, one after another.
struct SharedLines<'a> {
    lines: std::str::Lines<'a>,
}

impl<'a> SharedLines<'a> {
    /// The value in the next line, which has this name.
    fn value(&mut self, name: &str) -> Option<&'a str> {
        let (found, value) = self.lines.next()?.split_once(" = ")?;
        Some(value).filter(|_| found == name)
    }

    /// The numbers in the next line.
    fn numbers(&mut self, name: &str) -> Option<Vec<u32>> {
        let numbers = self.value(name)?.split(' ');
        numbers.map(|text| whole_32(text).ok()).collect()
    }

    /// So many numbers in the next line.
    fn exactly<const COUNT: usize>(&mut self, name: &str) -> Option<[u32; COUNT]> {
        self.numbers(name)?.try_into().ok()
    }

    /// Names: how many, and a line each; as many as there are rows or columns, or none.
    fn names(&mut self, title: &str, most: u32) -> Option<Vec<String>> {
        let [count] = self.exactly(title)?;
        if count != 0 && count != most {
            return None;
        }
        (0..count).map(|_| unescaped(self.value("name")?)).collect()
    }

    /// A matrix of so many rows and columns.
    fn matrix(&mut self, name: &str, rows: u32, columns: usize) -> Option<Vec<u32>> {
        let row = |_| self.numbers(name).filter(|row| row.len() == columns);
        let rows: Option<Vec<Vec<u32>>> = (0..rows).map(row).collect();
        rows.map(|rows| rows.concat())
    }

    /// A job's numbers.
    fn job(&mut self) -> Option<Job> {
        let number = u32::from_str_radix(self.value("number")?, 16).ok()?;
        let [prime] = self.exactly("prime")?;
        let modulus = primes::modulus_of(prime)?;
        let sizes = self.exactly("sizes")?;
        let cuts = self.exactly("cuts")?;
        let groups = self.exactly("groups")?;
        let points = self.numbers("points")?;
        let window = match self.value("window")? {
            "none" => None,
            minutes => {
                let (opening, closing) = minutes.split_once(' ')?;
                Some([whole_32(opening).ok()?, whole_32(closing).ok()?])
            }
        };
        Some(Job {
            modulus,
            sizes,
            cuts,
            groups,
            hosts: u32::try_from(points.len()).ok()?,
            points,
            number,
            window,
        })
    }

    /// The whole file.
    fn shared(&mut self) -> Option<Shared> {
        if self.lines.next()? != TITLE || self.lines.next()? != WARNING {
            return None;
        }
        let job = self.job()?;
        let columns = check::columns(primes::prime_of(job.modulus)?);
        let [t, _, r] = job.sizes;
        Some(Shared {
            signed: self.value("signed")? == yes(true),
            wrapped: self.value("wrapped")? == yes(true),
            row_names: self.names("row_names", t)?,
            column_names: self.names("column_names", r)?,
            check: Check {
                columns,
                secret: self.matrix("v", r, columns)?,
                product: self.matrix("abv", t, columns)?,
            },
            job,
        })
    }
}

/// Reads FOLDER/job. It is taken where it is, byte for byte, what would be written for it.
pub fn read(folder: &Path) -> Done<Shared> {
    let path = folder.join(JOB_NAME);
    let file = shown(&path);
    let bytes = files::read(&path, MOST_SHARED)?;
    let text = std::str::from_utf8(&bytes).unwrap_or_default();
    let mut lines = SharedLines {
        lines: text.lines(),
    };
    let as_written = |shared: &Shared| shared.text().as_bytes() == bytes;
    let shared = lines.shared().filter(as_written);
    shared.ok_or_else(|| {
        let why = "it is not as `mukerihe share` wrote it: damaged, edited or of another version";
        refused(format!("{file}: {why}"))
    })
}
