//! What the program of a whole job must print for a text.
//!
//! A text has seven sections (`sections`): the job's thirteen numbers, the last two its window, N points,
//! A, B, A's masks, B's masks, and the hosts whose answers come in, one after another, each with its
//! minute. A UTF-8 mark at its front is skipped. What is tested, in this order; the first that fits is
//! printed:
//!
//!   TEXT TOO LONG        65,536 bytes or more
//!   EXPECTED, NO NUMBER,
//!   NUMBER TOO LARGE     the first fault of the text, with its line and column
//!   SECTION              the section JOB has not 13 numbers
//!   REFUSED n            a plan that is refused; where n is 9, SECTION for the points
//!   JOB TOO LARGE        blocks for all hosts of over 32,768 elements
//!   SECTION              the first of A, B and the masks that has not its count, or the answers if the
//!                        last host has no minute
//!
//! The others get the plan as the lister has it. Then A is shared for all hosts, then B; a refusal
//! is printed and ends it. Then comes a line for each answer, a line with the hosts heard, and the
//! refusal of the decoding, or the table, its signed reading and its page.
//!
//!   printed        all that is printed
//!   TOO_LONG       the line for a text that is too long
//!   count_line     the line for a section that has not its count
//!   odd_line       the line for answers whose last host has no minute
//!   large_line     the line for a job that is too large
//!   needs          how many numbers A, B and the masks need
//!   answer_line    what became of a host's answer
//!   heard_line     the hosts heard
//!   tables         a table, its signed reading and its page

use super::sections::{sections, Section, WORDS};
use crate::cases::tokens::without_mark;
use crate::sheet::arrival::{arrive, Arrived};
use crate::sheet::decode::decode;
use crate::sheet::job_call::{answer_length, Act, JobCall};
use crate::sheet::listing::{self, refused};
use crate::sheet::page::formatted;
use crate::sheet::plan::{refusal, Job, Line};
use crate::sheet::share::{share, Shape, Side};
use crate::sheet::whole_job::{sharing, Contents, WholeJob};

/// A text must be shorter than this.
pub const MOST_TEXT: usize = 65_536;

/// How many numbers the section JOB has.
pub const JOB_NUMBERS: usize = 13;

/// The most elements of blocks for all hosts.
const MOST_ELEMENTS: usize = 32_768;

/// The line for a text that is too long.
pub const TOO_LONG: &str = "TEXT TOO LONG: at most 65535 bytes\n";

/// The line for a section that has not its count.
pub fn count_line(section: usize, has: usize, needs: usize, line: usize) -> String {
    let word = WORDS[section];
    format!("SECTION {word} has {has} numbers and needs {needs}, line {line}\n")
}

/// The line for answers of so many numbers, whose last host has no minute.
pub fn odd_line(has: usize, line: usize) -> String {
    format!("SECTION ANSWERS has {has} numbers and needs a minute after each host, line {line}\n")
}

/// The line for a job whose blocks for all hosts have so many elements.
pub fn large_line(elements: usize) -> String {
    format!("JOB TOO LARGE: its blocks for all hosts have {elements} elements, at most 32768 fit\n")
}

/// What is printed for a text.
pub fn printed(text: &[u8]) -> String {
    if text.len() >= MOST_TEXT {
        return TOO_LONG.into();
    }
    match sections(without_mark(text)) {
        Ok(sections) => printed_for(&sections),
        Err(line) => line,
    }
}

/// What is printed for the sections of a text.
fn printed_for(sections: &[Section]) -> String {
    let job = match tested(sections) {
        Ok(job) => job,
        Err(line) => return line,
    };
    let numbers = |section: usize| sections[section].numbers.clone();
    let plan = listing::reply(&listing::text(&job.line()));
    let sides = [0, 1].map(|side| Contents {
        matrix: numbers(2 + side),
        masks: numbers(4 + side),
    });
    if let Some(number) = share_refusal(&job, &numbers(1), &sides) {
        return plan + &refused(number);
    }
    let whole = WholeJob::of(job, numbers(0)[10], numbers(1), sides);
    plan + &answers_and_table(&whole, &numbers(6))
}

/// The job of the sections of a text, or the line for the first test that fits.
fn tested(sections: &[Section]) -> Result<Job, String> {
    let counted = |section: usize, needs: usize| {
        let Section { line, numbers } = &sections[section];
        match numbers.len() == needs {
            true => Ok(()),
            false => Err(count_line(section, numbers.len(), needs, *line)),
        }
    };
    counted(0, JOB_NUMBERS)?;
    let numbers = &sections[0].numbers;
    let line: Line = numbers[..10].try_into().expect("ten numbers");
    let job = Job::of(&line, [numbers[11], numbers[12]]);
    match refusal(&job, &sections[1].numbers) {
        Some(9) => return Err(counted(1, job.hosts as usize).expect_err("a wrong count")),
        Some(number) => return Err(refused(number)),
        None => {}
    }
    if largest_blocks(&job) > MOST_ELEMENTS {
        return Err(large_line(largest_blocks(&job)));
    }
    let mut others = (2..).zip(needs(&job));
    others.try_for_each(|(section, needs)| counted(section, needs))?;
    let Section { line, numbers } = &sections[6];
    match numbers.len() % 2 {
        0 => Ok(job),
        _ => Err(odd_line(numbers.len(), *line)),
    }
}

/// How many numbers A, B, A's masks and B's masks of an accepted job have.
pub fn needs(job: &Job) -> [usize; 4] {
    let [a, b] = [Side::A, Side::B].map(|side| Shape::of(side, job));
    let matrices = [a.matrix_length(), b.matrix_length()];
    let masks = [a.masks_length(), b.masks_length()];
    [matrices[0], matrices[1], masks[0], masks[1]]
}

/// How many elements an accepted job's A blocks, B blocks or answers for all hosts have, where
/// these are most. Its table has no more.
fn largest_blocks(job: &Job) -> usize {
    let [a, b] = [Side::A, Side::B].map(|side| Shape::of(side, job).block_length());
    let hosts = job.hosts as usize;
    let table = (job.t * job.r) as usize;
    assert!(table <= hosts * answer_length(job));
    hosts * a.max(b).max(answer_length(job))
}

/// The first refusal when A is shared for all hosts, and then B.
fn share_refusal(job: &Job, points: &[u32], sides: &[Contents; 2]) -> Option<u32> {
    let mut sides = [Side::A, Side::B].into_iter().zip(sides);
    sides.find_map(|(side, contents)| {
        let mut hosts = 1..=job.hosts;
        hosts.find_map(|host| share(&sharing(job, points, side, contents, host)).err())
    })
}

/// The lines of the answers, the hosts heard, and the table or its refusal. A table must be A times
/// B.
fn answers_and_table(whole: &WholeJob, order: &[u32]) -> String {
    let mut call = whole.call(Act::Arrive);
    let pairs = order.chunks_exact(2);
    let taken = pairs.map(|pair| take(whole, &mut call, pair[0], pair[1]));
    let lines: String = taken.collect();
    let heard = heard_line(&call.heard_hosts());
    call.act = Act::Decode;
    call.room = whole.table.len();
    let end = match decode(&call) {
        Err(number) => refused(number),
        Ok(table) => {
            assert_eq!(table, whole.table);
            tables(&table, whole.job.r, whole.q)
        }
    };
    [lines, heard, end].concat()
}

/// Takes a host's answer of a minute into the hosts heard and the store of a call, and tells what
/// became of it; once K are heard no more are taken.
fn take(whole: &WholeJob, call: &mut JobCall, host: u32, minute: u32) -> String {
    if call.heard_hosts().len() >= whole.needed {
        return answer_line(host, "late, heard", whole.needed);
    }
    call.minute = minute;
    match arrival(whole, call, host) {
        Err(number) => answer_line(host, "refused", number as usize),
        Ok(Arrived::AlreadyIn) => answer_line(host, "already in, heard", call.heard_hosts().len()),
        Ok(Arrived::Taken { heard, store }) => {
            (call.heard, call.store) = (heard, store);
            answer_line(host, "taken, heard", call.heard_hosts().len())
        }
    }
}

/// The arrival of a host's true product; a host that is none of the job's has no product.
fn arrival(whole: &WholeJob, call: &mut JobCall, host: u32) -> Result<Arrived, u32> {
    if host < 1 || host > whole.job.hosts {
        return Err(12);
    }
    call.message = whole.message(host);
    arrive(call)
}

/// The line that tells what became of a host's answer.
pub fn answer_line(host: u32, words: &str, number: usize) -> String {
    format!("host {host} {words} {number}\n")
}

/// The line with the hosts heard.
pub fn heard_line(hosts: &[u32]) -> String {
    let words: String = hosts.iter().map(|host| format!(" {host}")).collect();
    format!("HEARD{words}\n")
}

/// A table of so many columns as elements, then by its signed reading, then as a page.
pub fn tables(table: &[u32], columns: u32, q: u32) -> String {
    let elements: Vec<i64> = table.iter().copied().map(i64::from).collect();
    let signed: Vec<i64> = elements.iter().map(|&v| signed(v, q.into())).collect();
    let columns = columns as usize;
    let [elements, signed] = [elements, signed].map(|values| rows(&values, columns));
    let page = formatted(table, columns);
    format!("TABLE\n{elements}SIGNED READING\n{signed}PAGE\n{page}")
}

/// The signed reading of an element (01, "Signed reading").
fn signed(element: i64, q: i64) -> i64 {
    if element <= (q - 1) / 2 {
        element
    } else {
        element - q
    }
}

/// Rows of numbers: a tab between two numbers, a line feed after each row.
fn rows(values: &[i64], columns: usize) -> String {
    let row = |row: &[i64]| {
        let cells: Vec<String> = row.iter().map(i64::to_string).collect();
        cells.join("\t") + "\n"
    };
    values.chunks(columns).map(row).collect()
}
