//! Answers as they come in, one after another.
//!
//!   kind_name  what a kind of message is
//!   Answer     a file, and the minute at which it came
//!   Given      the arguments of `heard` and `decode`
//!   given      reads them
//!   Arrivals   the answers taken so far
//!   Decoded    a table, and the hosts from whose answers it is decoded

use crate::arguments::{self, Item, Usage};
use crate::fault::{no_file, refused, too_few, Done, Fault};
use crate::files;
use crate::job::{count, Job, Plan};
use crate::primes;
use crate::sys;
use crate::text::{joined, shown};
use crate::told::Told;
use crate::words::{by, ANSWER_DIFFERS, FOREIGN, OUTSIDE_WINDOW, TOO_FEW_HEARD};
use std::ffi::OsString;
use std::path::PathBuf;

/// The kind of an answer's message.
const ANSWER_KIND: u32 = 3;

/// What a kind of message is.
pub fn kind_name(kind: u32) -> &'static str {
    match kind {
        1 => "a share of A",
        2 => "a share of B",
        ANSWER_KIND => "an answer",
        _ => "no kind",
    }
}

/// A file, and the minute at which it came.
pub struct Answer {
    path: PathBuf,
    minute: Option<u32>,
}

/// The arguments of `heard` and `decode`: the operands before the answers, the answers, whether a
/// minute was given, and the page's file.
pub struct Given {
    pub operands: Vec<OsString>,
    pub answers: Vec<Answer>,
    minuted: bool,
    pub page: Option<PathBuf>,
}

/// Reads the arguments; so many operands come before the answers. A minute holds for the answers
/// after it.
pub fn given(arguments: Vec<OsString>, before: usize, usage: &Usage) -> Done<Given> {
    let (operands, answers) = (Vec::new(), Vec::new());
    let mut given = Given {
        operands,
        answers,
        minuted: false,
        page: None,
    };
    let mut minute = None;
    for item in arguments::items(arguments, usage)? {
        match item {
            Item::Operand(operand) if given.operands.len() < before => given.operands.push(operand),
            Item::Operand(operand) => given.answers.push(Answer {
                path: PathBuf::from(operand),
                minute,
            }),
            Item::Value("--minute", value) => {
                minute = Some(arguments::number("--minute", &value, usage)?);
                given.minuted = true;
            }
            Item::Value(_, value) if given.page.is_none() => given.page = Some(value.into()),
            Item::Value(option, _) => return Err(usage.fault(&format!("{option} is given twice"))),
            Item::Flag(_) => {}
        }
    }
    Ok(given)
}

impl Given {
    /// Where the job has a window each answer has a minute, and elsewhere none is given.
    pub fn must_fit(&self, job: &Job, usage: &Usage) -> Done<()> {
        let without = self.answers.iter().any(|answer| answer.minute.is_none());
        match job.window {
            Some([opening, closing]) if without => {
                let last = closing.saturating_sub(1);
                let why = format!("the job has a window, minute {opening} to {last}");
                let need = "--minute N is needed before the first answer";
                Err(usage.fault(&format!("{why}: {need}")))
            }
            None if self.minuted => {
                let why = "the job has no window, so --minute is not taken";
                Err(usage.fault(why))
            }
            _ => Ok(()),
        }
    }
}

/// The answers taken so far: the hosts heard and the store; the table, from the moment at which enough
/// were heard, with the hosts heard then; second answers that differ; whether a file could not be read.
pub struct Arrivals<'a> {
    job: &'a Job,
    plan: &'a Plan,
    words: [u32; sys::JOB_WORDS],
    heard: u64,
    store: Vec<u32>,
    decoded: Option<Decoded>,
    differing: Vec<String>,
    unread: bool,
}

/// A table, and the hosts from whose answers it is decoded.
pub struct Decoded {
    heard: u64,
    pub table: Vec<u32>,
}

impl<'a> Arrivals<'a> {
    /// None yet.
    pub fn new(job: &'a Job, plan: &'a Plan) -> Arrivals<'a> {
        let block = count([plan.rows, plan.columns]);
        let store = vec![0; block.saturating_mul(job.points.len())];
        Arrivals {
            job,
            plan,
            words: job.words(),
            heard: 0,
            store,
            decoded: None,
            differing: Vec::new(),
            unread: false,
        }
    }

    /// Takes an answer, and says in a line what becomes of it.
    fn take(&mut self, answer: &Answer) -> Done<String> {
        let message = match files::read_message(&answer.path) {
            Ok(message) => message,
            Err(fault) => {
                self.unread = true;
                return Ok(format!("not read: {}", fault.text));
            }
        };
        let arrived = sys::arrive(
            (&self.words, self.job.points.as_slice()),
            &mut self.heard,
            &mut self.store,
            &message,
            answer.minute.unwrap_or_default(),
        );
        let what = match arrived {
            Ok(true) => "already in".to_string(),
            Ok(false) if self.decoded.is_some() => "spare".to_string(),
            Ok(false) => format!("taken, {} of {}", self.count(), self.plan.needed),
            Err(number) => self.refusal(number, &message, answer),
        };
        self.decode()?;
        let (name, host) = (shown(&answer.path), host_of(&message));
        Ok(format!("{name}: {host}{what}"))
    }

    /// Takes all answers, and says what becomes of each, and then which hosts are heard.
    pub fn take_all(&mut self, answers: &[Answer], told: &mut Told) -> Done<()> {
        for answer in answers {
            told.line(self.take(answer)?);
        }
        self.summary().iter().for_each(|line| told.line(line));
        Ok(())
    }

    /// Decodes the table as soon as enough are heard: what comes later is judged, and changes nothing
    /// in it.
    fn decode(&mut self) -> Done<()> {
        if self.decoded.is_some() {
            return Ok(());
        }
        let [t, _, r] = self.job.sizes;
        let mut table = vec![0; count([t, r])];
        let job = (&self.words, self.job.points.as_slice());
        let heard = self.heard;
        match sys::decode(job, heard, &self.store, &mut table) {
            Ok(()) => self.decoded = Some(Decoded { heard, table }),
            Err(TOO_FEW_HEARD) => {}
            Err(number) => return Err(refused(by(number))),
        }
        Ok(())
    }

    /// The table, or the fault of too few answers.
    pub fn decoded(&self) -> Done<&Decoded> {
        self.decoded.as_ref().ok_or_else(|| self.too_few())
    }

    /// How many hosts are heard.
    fn count(&self) -> u32 {
        self.heard.count_ones()
    }

    /// What is said of a refused answer.
    fn refusal(&mut self, number: u32, message: &[u8], answer: &Answer) -> String {
        let more = match number {
            FOREIGN => self.foreign(message),
            OUTSIDE_WINDOW => self.outside(answer),
            _ => String::new(),
        };
        if number == ANSWER_DIFFERS {
            let (name, host) = (shown(&answer.path), host_of(message));
            let line = format!("{name}: {host}{}", by(number));
            self.differing.push(line);
        }
        format!("{}{more}", by(number))
    }

    /// The fields of a message that are not this job's.
    fn foreign(&self, message: &[u8]) -> String {
        let [kind, modulus, _, rows, columns, number] = sys::read(message).unwrap_or_default();
        let prime = |modulus| primes::prime_of(modulus).unwrap_or_default();
        let (job, plan) = (self.job, self.plan);
        let told = [
            (
                kind != ANSWER_KIND,
                format!("{}, expected an answer", kind_name(kind)),
            ),
            (
                number != job.number,
                format!("job {number:08x}, expected {:08x}", job.number),
            ),
            (
                modulus != job.modulus,
                format!("prime {}, expected {}", prime(modulus), prime(job.modulus)),
            ),
            (
                [rows, columns] != [plan.rows, plan.columns],
                format!(
                    "{rows} by {columns}, expected {} by {}",
                    plan.rows, plan.columns
                ),
            ),
        ];
        let differ = told.iter().filter(|(differs, _)| *differs);
        differ.map(|(_, text)| format!("; {text}")).collect()
    }

    /// The minute of an answer outside the window.
    fn outside(&self, answer: &Answer) -> String {
        let [opening, closing] = self.job.window.unwrap_or_default();
        let (minute, last) = (answer.minute.unwrap_or_default(), closing.saturating_sub(1));
        format!("; minute {minute}, expected {opening} to {last}")
    }

    /// The hosts among those heard, or those that are not among them.
    fn hosts(&self, heard: u64, among: bool) -> String {
        let bit = |host: &u32| heard.checked_shr(host - 1).unwrap_or_default() & 1 == 1;
        let hosts = (1..=self.job.hosts).filter(|host| bit(host) == among);
        match joined(&hosts.collect::<Vec<u32>>()) {
            hosts if hosts.is_empty() => "none".to_string(),
            hosts => hosts,
        }
    }

    /// Lines that are told after all answers.
    fn summary(&self) -> Vec<String> {
        let mut lines = vec![
            format!("heard: {}", self.hosts(self.heard, true)),
            format!("missing: {}", self.hosts(self.heard, false)),
        ];
        let again = self.differing.iter().map(|line| format!("look at {line}"));
        lines.extend(again);
        lines
    }

    /// The hosts from whose answers a table is decoded.
    pub fn used(&self, decoded: &Decoded) -> String {
        self.hosts(decoded.heard, true)
    }

    /// The fault of too few answers. Where one could not be read waiting might be in vain, and that
    /// is the fault.
    fn too_few(&self) -> Fault {
        let (count, needed) = (self.count(), self.plan.needed);
        let lacking = needed.saturating_sub(count);
        let text = format!(
            "{}: {count} of {needed} are in, {lacking} more needed",
            by(TOO_FEW_HEARD)
        );
        match self.unread {
            true => no_file(format!("{text}; some could not be read")),
            false => too_few(text),
        }
    }
}

/// The host that a message is of, in front of what is said of it; nothing where it cannot be read.
fn host_of(message: &[u8]) -> String {
    sys::read(message).map_or(String::new(), |[_, _, host, ..]| format!("host {host} "))
}
