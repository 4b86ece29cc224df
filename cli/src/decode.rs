//! mukerihe decode FOLDER TABLE ANSWER..: takes the answers, checks the table and writes it.
//!
//!   run  the command

use crate::answers::{self, Arrivals, Decoded};
use crate::arguments::{self, Usage};
use crate::check::Matrix;
use crate::fault::{refused, wrong_table, Done};
use crate::job::length;
use crate::outputs::{made_all_the_same, must_be_free, same_place, warn_of_left_overs, NewFile};
use crate::primes;
use crate::shared::{self, Shared, JOB_NAME};
use crate::sys;
use crate::table;
use crate::text::shown;
use crate::told::Told;
use crate::words::by;
use std::ffi::OsString;
use std::path::{Path, PathBuf};

/// How it is used.
const USAGE: Usage = Usage {
    text: "mukerihe decode [--page FILE] FOLDER TABLE [--minute N] ANSWER..",
    flags: &[],
    valued: &["--minute", "--page"],
};

/// The columns of a job's table.
fn columns(shared: &Shared) -> usize {
    let [_, _, r] = shared.job.sizes;
    length(r)
}

/// The table passes the check that `share` made.
fn must_pass(shared: &Shared, decoded: &Decoded, arrivals: &Arrivals) -> Done<()> {
    let matrix = Matrix {
        columns: columns(shared),
        elements: &decoded.table,
    };
    let passes = shared.check.passes(shared.job.modulus, matrix);
    if passes.map_err(|number| refused(by(number)))? {
        return Ok(());
    }
    Err(wrong_table(format!(
        "this is not the table of this job, and it is not written. It was decoded from the answers \
         of the hosts {}, and at least one of them is wrong; with spare answers, give others first",
        arrivals.used(decoded)
    )))
}

/// The entries of a table, as elements or by their signed reading.
fn entries(shared: &Shared, table: &[u32]) -> Done<Vec<i64>> {
    let entry = |&element: &u32| match shared.signed {
        true => sys::signed(shared.job.modulus, element),
        false => Ok(i64::from(element)),
    };
    let all: Result<Vec<i64>, u32> = table.iter().map(entry).collect();
    all.map_err(|number| refused(by(number)))
}

/// The page of a table. It has elements alone, so it is refused where an entry is below 0.
fn page(shared: &Shared, table: &[u32], entries: &[i64]) -> Done<Vec<u8>> {
    if entries.iter().any(|&entry| entry < 0) {
        return Err(refused(
            "--page: an entry is below 0, and a page has no sign; nothing is written",
        ));
    }
    let [t, _, r] = shared.job.sizes;
    let page = sys::page(shared.job.modulus, t, r, table);
    page.map_err(|number| refused(by(number)))
}

/// Writes the table, and the page where one is wanted; the table gets its name last.
fn write(
    shared: &Shared,
    table: &[u32],
    paths: (&Path, Option<&Path>),
    told: &mut Told,
) -> Done<()> {
    let (path, page_path) = paths;
    let entries = entries(shared, table)?;
    let (rows, names) = (&shared.row_names, &shared.column_names);
    let text = table::written(&entries, columns(shared), rows, names);
    let page_file = match page_path {
        Some(path) => Some(NewFile::write(path, &page(shared, table, &entries)?)?),
        None => None,
    };
    let table_file = NewFile::write(path, text.as_bytes())?;
    told.send()?;
    if let (Some(file), Some(path)) = (page_file, page_path) {
        file.name()?;
        told.line(format!("{}: the page", shown(path)));
    }
    table_file.name()?;
    told.line(format!("{}: the table; it passed the check", shown(path)));
    told.send().map_err(|fault| made_all_the_same(fault, path))
}

/// What is told of a table whose entries may be no whole numbers.
fn wrap_line(shared: &Shared) -> Option<String> {
    let prime = primes::prime_of(shared.job.modulus).unwrap_or_default();
    let line = format!(
        "shared with --wrap: entries are remainders by {prime}, and may be no whole numbers"
    );
    Some(line).filter(|_| shared.wrapped)
}

/// Decodes a table. What was told of the answers is sent whatever becomes of it.
pub fn run(arguments: Vec<OsString>) -> Done<()> {
    let mut given = answers::given(arguments, 2, &USAGE)?;
    let operands = std::mem::take(&mut given.operands);
    let [folder, path] = arguments::exactly(operands, &USAGE)?.map(PathBuf::from);
    if let Some(page) = &given.page {
        if same_place(page, &path)? {
            return Err(USAGE.fault("the page and the table have one name"));
        }
    }
    let shared = shared::read(&folder)?;
    given.must_fit(&shared.job, &USAGE)?;
    must_be_free(&path)?;
    given.page.as_deref().map_or(Ok(()), must_be_free)?;
    warn_of_left_overs(&path)?;
    let plan = shared.job.plan(&shown(folder.join(JOB_NAME)))?;
    let mut arrivals = Arrivals::new(&shared.job, &plan);
    let mut told = Told::default();
    let taken = arrivals.take_all(&given.answers, &mut told);
    let written = taken.and_then(|()| {
        let decoded = arrivals.decoded()?;
        must_pass(&shared, decoded, &arrivals)?;
        wrap_line(&shared).iter().for_each(|line| told.line(line));
        let paths = (path.as_path(), given.page.as_deref());
        write(&shared, &decoded.table, paths, &mut told)
    });
    told.send().and(written)
}
