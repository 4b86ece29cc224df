//! mukerihe share JOB A B FOLDER: what each host gets, and the job as it was shared.
//!
//!   run  the command

use crate::arguments::{self, Item, Usage};
use crate::bound;
use crate::check::{self, Check};
use crate::fault::{refused, warn, Done};
use crate::job::{self, count, length, Job, JobFile, Names, Plan};
use crate::outputs::{made_all_the_same, warn_of_left_overs, NewFolder};
use crate::plan::{message_bytes, plan_line};
use crate::primes;
use crate::random::{self, Source};
use crate::shared::{Shared, JOB_NAME, MOST_SHARED};
use crate::sys::{self, Side};
use crate::table::{self, Table};
use crate::text::shown;
use crate::told::Told;
use crate::words::by;
use std::ffi::{OsStr, OsString};
use std::path::{Path, PathBuf};

/// How it is used.
const USAGE: Usage = Usage {
    text: "mukerihe share [--transpose-b] [--signed] [--wrap] [--number N] [--words FILE] \
            JOB A B FOLDER",
    flags: &["--transpose-b", "--signed", "--wrap"],
    valued: &["--number", "--words"],
};

/// What is wanted: the options.
#[derive(Default)]
struct Wanted {
    transpose_b: bool,
    signed: bool,
    wrap: bool,
    number: Option<u32>,
    words: Option<PathBuf>,
}

/// A and B.
struct Tables {
    a: Table,
    b: Table,
}

impl Wanted {
    /// Reads the arguments: the options, and the paths of JOB, A, B and FOLDER.
    fn read(arguments: Vec<OsString>) -> Done<(Wanted, [PathBuf; 4])> {
        let mut wanted = Wanted::default();
        let mut operands = Vec::new();
        for item in arguments::items(arguments, &USAGE)? {
            match item {
                Item::Flag("--transpose-b") => wanted.transpose_b = true,
                Item::Flag("--signed") => wanted.signed = true,
                Item::Flag(_) => wanted.wrap = true,
                Item::Value(option, value) => wanted.set(option, &value)?,
                Item::Operand(operand) => operands.push(operand),
            }
        }
        let paths = arguments::exactly(operands, &USAGE)?.map(PathBuf::from);
        Ok((wanted, paths))
    }

    /// Sets an option that has a value.
    fn set(&mut self, option: &str, value: &OsStr) -> Done<()> {
        match option {
            "--number" if self.number.is_none() => {
                self.number = Some(arguments::number(option, value, &USAGE)?);
            }
            "--words" if self.words.is_none() => self.words = Some(PathBuf::from(value)),
            _ => return Err(USAGE.fault(&format!("{option} is given twice"))),
        }
        Ok(())
    }

    /// Reads a table of so many rows and columns.
    fn table(&self, path: &Path, job: &Job, sizes: [u32; 2], names: Names) -> Done<Table> {
        let [rows, columns] = sizes;
        table::read(&table::Shape {
            path,
            rows,
            columns,
            names,
            modulus: job.modulus,
            signed: self.signed,
        })
    }

    /// Reads A and B. With --transpose-b the file of B holds its columns as rows.
    fn tables(&self, file: &JobFile, a_path: &Path, b_path: &Path) -> Done<Tables> {
        let job = &file.job;
        let [t, s, r] = job.sizes;
        let a = self.table(a_path, job, [t, s], file.names_a)?;
        let b = match self.transpose_b {
            true => self.table(b_path, job, [r, s], file.names_b)?.transposed(),
            false => self.table(b_path, job, [s, r], file.names_b)?,
        };
        table::same_markers((&a, a_path), (&b, b_path))?;
        Ok(Tables { a, b })
    }

    /// What was read of A and B, a line each.
    fn read_lines(&self, file: &JobFile, a_path: &Path, b_path: &Path) -> [String; 2] {
        let [t, s, r] = file.job.sizes;
        let (a_name, a_names) = (shown(a_path), file.names_a.words());
        let (b_name, b_names) = (shown(b_path), file.names_b.words());
        let b_sizes = match self.transpose_b {
            true => format!("{r} by {s}, taken transposed"),
            false => format!("{s} by {r}"),
        };
        [
            format!("A: {a_name}, {t} by {s}, with {a_names}"),
            format!("B: {b_name}, {b_sizes}, with {b_names}"),
        ]
    }

    /// How large an entry may be, and whether it may then be no whole number, which is refused
    /// unless --wrap insists.
    fn bound(&self, job: &Job, tables: &Tables) -> Done<(u128, bool)> {
        let bound = bound::bound(job.modulus, self.signed, &tables.a, &tables.b)?;
        match bound::must_be_whole(job.modulus, self.signed, bound) {
            Ok(()) => Ok((bound, false)),
            Err(fault) if !self.wrap => Err(fault),
            Err(_) => {
                warn(
                    "--wrap: entries may be no whole numbers of A times B, only their remainders",
                )?;
                Ok((bound, true))
            }
        }
    }

    /// The job number: a fresh one, or the one that is given, with a warning.
    fn number(&self) -> Done<u32> {
        match self.number {
            None => random::number(),
            Some(number) => {
                warn("--number: answers of two runs under one number are not told apart by it")?;
                Ok(number)
            }
        }
    }
}

/// A job with its tables and masks.
struct Sharing<'a> {
    job: &'a Job,
    plan: &'a Plan,
    tables: &'a Tables,
    masks_a: Vec<u32>,
    masks_b: Vec<u32>,
}

impl Sharing<'_> {
    /// The message of a host's share of a side.
    fn message(&self, side: Side, host: u32) -> Result<Vec<u8>, u32> {
        let plan = self.plan;
        let (kind, rows, columns, matrix, masks) = match side {
            Side::A => (1, plan.rows, plan.inner, &self.tables.a, &self.masks_a),
            Side::B => (2, plan.inner, plan.columns, &self.tables.b, &self.masks_b),
        };
        let mut share = vec![0; count([rows, columns])];
        let words = self.job.words();
        let job = (&words, self.job.points.as_slice());
        sys::share(side, job, host, (&matrix.elements, masks), &mut share)?;
        let fields = [kind, self.job.modulus, host, rows, columns, self.job.number];
        let mut message = vec![0; message_bytes(rows, columns)];
        sys::write(&fields, &share, &mut message)?;
        Ok(message)
    }

    /// Writes what a host gets to its folder.
    fn send(&self, folder: &NewFolder, host: u32) -> Done<()> {
        let by_number = |number| refused(format!("host {host}: {}", by(number)));
        let a = self.message(Side::A, host).map_err(by_number)?;
        let b = self.message(Side::B, host).map_err(by_number)?;
        let place = format!("send/{host:02}");
        let start = format!("{place}/{:08x}-{host:02}", self.job.number);
        folder.folder(&place)?;
        folder.file(&format!("{start}.a.mdo"), &a)?;
        folder.file(&format!("{start}.b.mdo"), &b)?;
        folder.sync(&place)
    }

    /// Writes the whole folder.
    fn fill(&self, folder: &NewFolder, text: &str) -> Done<()> {
        folder.file(JOB_NAME, text.as_bytes())?;
        folder.folder("send")?;
        for host in 1..=self.job.hosts {
            self.send(folder, host)?;
        }
        folder.sync("send")?;
        folder.sync("")
    }
}

impl<'a> Sharing<'a> {
    /// A job with its tables, and masks that are drawn: those of A first, then those of B.
    fn drawn(job: &'a Job, plan: &'a Plan, tables: &'a Tables, source: &mut Source) -> Done<Self> {
        let [xa, xb] = job.groups.map(length);
        let a_length = xa.saturating_mul(count([plan.rows, plan.inner]));
        let b_length = xb.saturating_mul(count([plan.inner, plan.columns]));
        Ok(Sharing {
            job,
            plan,
            tables,
            masks_a: source.draw(job.modulus, a_length)?,
            masks_b: source.draw(job.modulus, b_length)?,
        })
    }
}

/// The check of a job's table; its secret matrix is drawn.
fn check_of(job: &Job, tables: &Tables, source: &mut Source) -> Done<Check> {
    let columns = check::columns(primes::prime_of(job.modulus).unwrap_or_default());
    let secret = source.draw(job.modulus, tables.b.columns.saturating_mul(columns))?;
    let (a, b) = (tables.a.matrix(), tables.b.matrix());
    let check = Check::of(job.modulus, (a, b), secret, columns);
    check.map_err(|number| refused(by(number)))
}

/// What is told before the folder gets its name.
fn told_of(sharing: &Sharing, bound: u128, read: &[String]) -> Told {
    let (job, mut told) = (sharing.job, Told::default());
    read.iter().for_each(|line| told.line(line));
    let prime = primes::prime_of(job.modulus).unwrap_or_default();
    told.line(format!("job {:08x} (number {})", job.number, job.number));
    told.line(plan_line(job, sharing.plan));
    told.line(format!(
        "prime {prime}; no entry of A times B is larger than {bound}"
    ));
    told
}

/// Makes FOLDER, whole or not at all. What is to be told is told before it gets its name.
fn make(path: &Path, text: &str, sharing: &Sharing, source: &Source, mut told: Told) -> Done<()> {
    let folder = NewFolder::make(path)?;
    let filled = sharing.fill(&folder, text).and_then(|()| told.send());
    let spent = filled.and_then(|()| source.spend());
    spent.map_err(|fault| folder.removed(fault))?;
    let named = folder.name().map_err(|fault| folder.removed(fault));
    named.map_err(|fault| source.with_words(fault))?;
    let name = shown(path);
    let hosts = sharing.job.hosts;
    told.line(format!(
        "{name}/send/01 to {hosts:02}: each for its host, and for no other"
    ));
    told.line(format!(
        "{name} is as secret as A and B: keep it until the table is decoded"
    ));
    source.told().iter().for_each(|line| told.line(line));
    let ended = folder.named().and_then(|()| told.send());
    ended.map_err(|fault| made_all_the_same(fault, path))
}

/// Shares a job.
pub fn run(arguments: Vec<OsString>) -> Done<()> {
    let (wanted, [job_path, a_path, b_path, path]) = Wanted::read(arguments)?;
    NewFolder::must_be_free(&path)?;
    warn_of_left_overs(&path)?;
    let mut file = job::read(&job_path)?;
    let plan = file.job.plan(&shown(&job_path))?;
    let tables = wanted.tables(&file, &a_path, &b_path)?;
    let (bound, wrapped) = wanted.bound(&file.job, &tables)?;
    let mut source = Source::of(wanted.words.as_deref())?;
    file.job.number = wanted.number()?;
    let sharing = Sharing::drawn(&file.job, &plan, &tables, &mut source)?;
    let shared = Shared {
        check: check_of(&file.job, &tables, &mut source)?,
        job: file.job.clone(),
        signed: wanted.signed,
        wrapped,
        row_names: tables.a.row_names.clone(),
        column_names: tables.b.column_names.clone(),
    };
    let text = shared.text();
    if text.len() > MOST_SHARED {
        return Err(refused("the names of rows and columns are too long"));
    }
    let read = wanted.read_lines(&file, &a_path, &b_path);
    let told = told_of(&sharing, bound, &read);
    make(&path, &text, &sharing, &source, told)
}
