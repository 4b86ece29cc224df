//! A job, and the file JOB that describes one.
//!
//!   Job        a job's numbers, points and window
//!   Plan       what a job needs
//!   Names      which names a table has
//!   JobFile    what JOB says
//!   read       reads JOB
//!   length     a size as the length of a list
//!   count      how many elements a matrix has

use crate::fault::{refused, Done, Fault};
use crate::files;
use crate::primes;
use crate::sys;
use crate::text::{shown, shown_name, text_of, whole_32};
use crate::words::{by, BAD_HOSTS, TOO_FEW_HOSTS};
use std::path::Path;

/// The most bytes of JOB.
const MOST_JOB: usize = 64 * 1024;

/// The most points that are counted up for `hosts = N`: more than any job may have, so that N is
/// judged by the plan and no long list is made first.
const MOST_POINTS: u32 = 255;

/// The window of a job that names none: it is open at minute 0, at which all answers then come.
const ALWAYS: [u32; 2] = [0, u32::MAX];

/// A job's numbers, points and window. In a job that a plan takes, `points` is `hosts` long.
#[derive(Clone)]
pub struct Job {
    pub modulus: u32,
    pub sizes: [u32; 3],
    pub cuts: [u32; 3],
    pub groups: [u32; 2],
    pub hosts: u32,
    pub points: Vec<u32>,
    pub number: u32,
    pub window: Option<[u32; 2]>,
}

/// What a job needs: the number of its layout, K, and rows, inner and columns of its blocks.
pub struct Plan {
    pub layout: u32,
    pub needed: u32,
    pub rows: u32,
    pub inner: u32,
    pub columns: u32,
}

impl Job {
    /// The job's words, as the library takes them.
    pub fn words(&self) -> [u32; sys::JOB_WORDS] {
        let [t, s, r] = self.sizes;
        let [m, p, n] = self.cuts;
        let [xa, xb] = self.groups;
        let [opening, closing] = self.window.unwrap_or(ALWAYS);
        [
            self.modulus,
            t,
            s,
            r,
            m,
            p,
            n,
            xa,
            xb,
            self.hosts,
            self.number,
            opening,
            closing,
        ]
    }

    /// What the job needs, or why it is refused.
    pub fn plan(&self, file: &str) -> Done<Plan> {
        let planned = sys::plan(&self.words(), &self.points);
        let [layout, needed, rows, inner, columns] = planned.map_err(|number| {
            let more = match number {
                TOO_FEW_HOSTS => self.more_hosts(),
                _ => String::new(),
            };
            refused(format!("{file}: {}{more}", by(number)))
        })?;
        Ok(Plan {
            layout,
            needed,
            rows,
            inner,
            columns,
        })
    }

    /// How many hosts would be enough where there are too few, in words.
    fn more_hosts(&self) -> String {
        let larger = Job {
            modulus: primes::last(),
            ..self.clone()
        };
        match (self.enough_hosts(), larger.enough_hosts()) {
            (Some(hosts), _) => format!(" ({hosts} hosts would do)"),
            (None, Some(hosts)) => format!(" ({hosts} hosts with a larger prime would do)"),
            (None, None) => {
                " (no number of hosts would do: fewer cuts or smaller groups)".to_string()
            }
        }
    }

    /// The first number of hosts with which the plan is not refused for being too few, unless it is
    /// refused for being too many.
    fn enough_hosts(&self) -> Option<u32> {
        let with = |hosts: u32| {
            let points: Vec<u32> = (1..=hosts).collect();
            let job = Job {
                hosts,
                ..self.clone()
            };
            (hosts, sys::plan(&job.words(), &points))
        };
        let mut counts = (self.hosts.saturating_add(1)..=MOST_POINTS).map(with);
        let first = counts.find(|(_, planned)| *planned != Err(TOO_FEW_HOSTS));
        let (hosts, planned) = first?;
        Some(hosts).filter(|_| planned != Err(BAD_HOSTS))
    }
}

/// Which names a table has: in front of its rows, and above its columns.
#[derive(Clone, Copy)]
pub struct Names {
    pub rows: bool,
    pub columns: bool,
}

impl Names {
    /// Which names there are, in words.
    pub fn words(self) -> &'static str {
        match (self.rows, self.columns) {
            (false, false) => "no names",
            (true, false) => "names of rows",
            (false, true) => "names of columns",
            (true, true) => "names of rows and columns",
        }
    }
}

/// What JOB says.
pub struct JobFile {
    pub job: Job,
    pub names_a: Names,
    pub names_b: Names,
}

/// The names of JOB, each with what is expected in its line.
const EXPECTED: [(&str, &str); 10] = [
    ("prime", "prime = q"),
    ("sizes", "sizes = t s r"),
    ("cuts", "cuts = m p n"),
    ("groups", "groups = X_A X_B"),
    ("hosts", "hosts = N"),
    ("points", "points = a point for each host"),
    ("opening", "opening = minute"),
    ("closing", "closing = minute"),
    ("names_a", "names_a = none, rows, columns or both"),
    ("names_b", "names_b = none, rows, columns or both"),
];

/// What is expected in the line of a name.
fn expected(name: &str) -> &'static str {
    let found = EXPECTED.iter().find(|(known, _)| *known == name);
    found.map_or("name = value", |(_, form)| form)
}

/// A line `name = value`, with its number.
#[derive(Clone, Copy)]
struct Line<'a> {
    at: usize,
    name: &'a str,
    value: &'a str,
}

/// All lines of JOB.
struct JobLines<'a> {
    file: &'a str,
    lines: Vec<Line<'a>>,
}

impl<'a> JobLines<'a> {
    /// The lines of a text; empty ones and comments are left out.
    fn of(file: &'a str, text: &'a str) -> Done<JobLines<'a>> {
        let lines = Vec::new();
        let mut all = JobLines { file, lines };
        for (before, raw) in text.lines().enumerate() {
            if let Some(line) = all.line(before + 1, raw)? {
                all.lines.push(line);
            }
        }
        Ok(all)
    }

    /// A line; none where nothing stands in it.
    fn line(&self, at: usize, raw: &'a str) -> Done<Option<Line<'a>>> {
        let bare = raw.split('#').next().unwrap_or_default().trim();
        if bare.is_empty() {
            return Ok(None);
        }
        let first = bare.split_whitespace().next().unwrap_or_default();
        let (name, value) = bare.split_once('=').unwrap_or((first, ""));
        let (name, value) = (name.trim(), value.trim());
        let line = Line { at, name, value };
        if !EXPECTED.iter().any(|(known, _)| *known == name) {
            return Err(self.unknown(line));
        }
        if let Some(earlier) = self.get(name) {
            let why = format!("{name} is given in line {} already", earlier.at);
            return Err(self.fault(line, &why));
        }
        if value.is_empty() {
            return Err(self.fault(line, &format!("expected {}", expected(name))));
        }
        Ok(Some(line))
    }

    /// A fault in a line.
    fn fault(&self, line: Line, why: &str) -> Fault {
        refused(format!("{}, line {}: {why}", self.file, line.at))
    }

    /// The fault of a line whose name is not known.
    fn unknown(&self, line: Line) -> Fault {
        let names: Vec<&str> = EXPECTED.iter().map(|(name, _)| *name).collect();
        let why = format!(
            "{} is no name of a job; expected one of {}",
            shown_name(line.name),
            names.join(", ")
        );
        self.fault(line, &why)
    }

    /// The line of a name, where there is one.
    fn get(&self, name: &str) -> Option<Line<'a>> {
        self.lines.iter().copied().find(|line| line.name == name)
    }

    /// The line of a name.
    fn need(&self, name: &str) -> Done<Line<'a>> {
        let missing = || refused(format!("{}: no line {}", self.file, expected(name)));
        self.get(name).ok_or_else(missing)
    }

    /// The numbers in a line.
    fn numbers(&self, line: Line) -> Done<Vec<u32>> {
        let number = |text: &str| {
            whole_32(text).map_err(|wrong| {
                let form = expected(line.name);
                let why = format!("{} {wrong}; expected {form}", shown_name(text));
                self.fault(line, &why)
            })
        };
        line.value.split_whitespace().map(number).collect()
    }

    /// The numbers in a line that has so many.
    fn exactly<const COUNT: usize>(&self, line: Line) -> Done<[u32; COUNT]> {
        let numbers = self.numbers(line)?;
        <[u32; COUNT]>::try_from(numbers).map_err(|numbers| {
            let (count, form) = (numbers.len(), expected(line.name));
            let why = format!("numbers: {count}, expected {COUNT}: {form}");
            self.fault(line, &why)
        })
    }

    /// The modulus number of the prime.
    fn modulus(&self) -> Done<u32> {
        let line = self.need("prime")?;
        let [given] = self.exactly(line)?;
        primes::modulus_of(given).ok_or_else(|| {
            let why = match primes::prime_of(given) {
                Some(prime) => format!("{given} is a modulus number; write prime = {prime}"),
                None => format!("{given} is none of the primes {}", primes::listed()),
            };
            self.fault(line, &why)
        })
    }

    /// The number of hosts, and their points.
    fn points(&self) -> Done<(u32, Vec<u32>)> {
        match (self.get("hosts"), self.get("points")) {
            (Some(_), Some(line)) => {
                let why = "hosts is given as well; expected hosts (with points 1 to N) or points";
                Err(self.fault(line, why))
            }
            (None, Some(line)) => {
                let points = self.numbers(line)?;
                let hosts = u32::try_from(points.len()).unwrap_or(u32::MAX);
                Ok((hosts, points))
            }
            _ => {
                let [hosts] = self.exactly(self.need("hosts")?)?;
                Ok((hosts, (1..=hosts.min(MOST_POINTS)).collect()))
            }
        }
    }

    /// The window, where the job names one.
    fn window(&self) -> Done<Option<[u32; 2]>> {
        if self.get("opening").is_none() && self.get("closing").is_none() {
            return Ok(None);
        }
        let [opening] = self.exactly(self.need("opening")?)?;
        let [closing] = self.exactly(self.need("closing")?)?;
        Ok(Some([opening, closing]))
    }

    /// Which names a table has; none where nothing is said.
    fn names(&self, name: &str) -> Done<Names> {
        let (rows, columns) = match self.get(name).map(|line| (line, line.value)) {
            None | Some((_, "none")) => (false, false),
            Some((_, "rows")) => (true, false),
            Some((_, "columns")) => (false, true),
            Some((_, "both")) => (true, true),
            Some((line, _)) => {
                let why = format!("expected {}", expected(name));
                return Err(self.fault(line, &why));
            }
        };
        Ok(Names { rows, columns })
    }
}

/// Reads JOB. Its job number is 0 until one is drawn.
pub fn read(path: &Path) -> Done<JobFile> {
    let file = shown(path);
    let text = text_of(files::read(path, MOST_JOB)?, &file)?;
    let lines = JobLines::of(&file, &text)?;
    let modulus = lines.modulus()?;
    let sizes = lines.exactly(lines.need("sizes")?)?;
    let cuts = lines.exactly(lines.need("cuts")?)?;
    let groups = lines.exactly(lines.need("groups")?)?;
    let (hosts, points) = lines.points()?;
    let job = Job {
        modulus,
        sizes,
        cuts,
        groups,
        hosts,
        points,
        number: 0,
        window: lines.window()?,
    };
    Ok(JobFile {
        job,
        names_a: lines.names("names_a")?,
        names_b: lines.names("names_b")?,
    })
}

/// A size as the length of a list.
pub fn length(size: u32) -> usize {
    usize::try_from(size).unwrap_or(usize::MAX)
}

/// How many elements a matrix of so many rows and columns has.
pub fn count([rows, columns]: [u32; 2]) -> usize {
    length(rows).saturating_mul(length(columns))
}
