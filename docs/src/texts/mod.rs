//! The subcommand `texts`: gathers texts for the program of a whole job, checks them, and writes
//! each to a file NNNN.in of a folder, and what must be printed for it to NNNN.out.
//!
//!   sections  the sections of a plain text
//!   printed   what the program of a whole job must print for a text
//!   job_text  a job as a text, and what must be printed by a shorter way
//!   jobs      texts of jobs that are carried out
//!   depths    texts of jobs with read depths
//!   pages     texts of jobs with tables of many sizes
//!   forms     texts of all forms and lengths
//!   numbers   texts with a fault in a number
//!   words     texts with a fault in a word
//!   counts    texts with a section that is short or long
//!   refusals  texts of jobs that are refused or too large
//!   windows   texts of jobs with windows of all kinds
//!   short     texts that end too soon, and texts changed by chance

mod counts;
mod depths;
mod forms;
mod job_text;
mod jobs;
mod numbers;
mod pages;
mod printed;
mod refusals;
mod sections;
mod short;
mod windows;
mod words;

use crate::cases::folder::{self, capitals, Case};
use crate::sheet::page_check;
use crate::sheet::plan_check;
use crate::sheet::random::Random;
use crate::sheet::sums_check;
use crate::sheet::window_check;
use printed::printed;

/// The kinds of all that is printed, each with the least count of its texts.
#[rustfmt::skip]
const KINDS: [(&str, u32); 50] = [
    ("expected the end of the text", 9), ("expected the word A", 42),
    ("expected the word ANSWERS", 36), ("expected the word B", 35), ("expected the word JOB", 55),
    ("expected the word MASKS_A", 38), ("expected the word MASKS_B", 36),
    ("expected the word POINTS", 67), ("job too large", 34), ("no number", 179),
    ("number too large", 69), ("plan refused  1", 114), ("plan refused  2", 37),
    ("plan refused  3", 49), ("plan refused  4", 33), ("plan refused  5", 64),
    ("plan refused  6", 19), ("plan refused  7", 26), ("plan refused  8", 38),
    ("plan refused 10", 31), ("plan refused 11", 29), ("plan refused 29", 98),
    ("section A long", 38), ("section A short", 57), ("section ANSWERS odd", 77),
    ("section B long", 36), ("section B short", 45), ("section JOB long", 34),
    ("section JOB short", 42), ("section MASKS_A long", 49), ("section MASKS_A short", 52),
    ("section MASKS_B long", 48), ("section MASKS_B short", 46), ("section POINTS long", 31),
    ("section POINTS short", 58), ("share refused 14", 32), ("share refused 15", 30),
    ("table of 13, layout 1", 153), ("table of 13, layout 2", 28),
    ("table of 2147483647, layout 1", 64), ("table of 2147483647, layout 2", 32),
    ("table of 2147483647, layout 3", 28), ("table of 257, layout 1", 90),
    ("table of 257, layout 2", 32), ("table of 257, layout 3", 29),
    ("table of 65537, layout 1", 49), ("table of 65537, layout 2", 33),
    ("table of 65537, layout 3", 36), ("table refused 24", 130), ("text too long", 10),
];

/// What can become of an answer, with the least count of such answers.
const ANSWERS: [(&str, usize); 5] = [
    ("taken", 7624),
    ("already in", 17412),
    ("refused 12", 17605),
    ("refused 30", 18355),
    ("late", 17719),
];

/// The most texts.
const MOST_TEXTS: usize = 3000;

/// Checks the program, then writes the texts and all that must be printed to a folder.
pub fn write_folder(folder: &str) {
    plan_check::run();
    sums_check::run();
    page_check::run();
    window_check::run();
    let cases = gathered();
    assert!(cases.len() <= MOST_TEXTS);
    cases.iter().for_each(page_back);
    folder::write(folder, &cases, kind, &KINDS);
    report(&cases);
}

/// All texts, each once, with all that must be printed. Those for pages and for windows have
/// generators of their own: no other text changes with them.
fn gathered() -> Vec<Case> {
    let random = &mut Random::new(2029);
    let groups = [
        jobs::jobs(random),
        depths::depths(random),
        forms::forms(),
        numbers::faults(),
        words::words(),
        forms::lengths(),
        counts::counts(random),
        refusals::refusals(random),
        refusals::borders(random),
        refusals::large(),
        short::short(random),
        pages::pages(&mut Random::new(2033)),
        windows::windows(&mut Random::new(2035)),
    ];
    folder::gathered(groups.concat(), short::changed(random), printed)
}

/// Panics unless a table that is printed has its page at the end, and the page reads back to the table.
fn page_back((_, due): &Case) {
    let Some((_, tables)) = due.split_once("\nTABLE\n") else {
        return assert!(!due.contains("PAGE"));
    };
    let (rows, others) = tables.split_once("SIGNED READING\n").expect("signed");
    let (_, page) = others.split_once("PAGE\n").expect("a page");
    let elements: Result<Vec<u32>, _> = rows.split_whitespace().map(str::parse).collect();
    let table = elements.expect("elements");
    let columns = table.len() / rows.lines().count();
    page_check::reads_back(page.as_bytes(), &table, columns as u32);
}

/// The kind of what is printed, by the lines that tell a refusal or the plan.
fn kind(printed: &str) -> String {
    let value = |label: &str| printed.lines().find_map(|line| line.strip_prefix(label));
    let refused = value("REFUSED ");
    match (value("MODULUS "), value("LAYOUT "), refused) {
        (None, _, Some(number)) => format!("plan refused {number:>2}"),
        (Some(_), _, Some("24")) => "table refused 24".into(),
        (Some(_), _, Some(number)) => format!("share refused {number}"),
        (Some(q), Some(layout), None) => format!("table of {q}, layout {layout}"),
        _ => of_line(printed),
    }
}

/// The kind of a single line that is no refusal.
fn of_line(line: &str) -> String {
    let words: Vec<&str> = line.split_whitespace().collect();
    match words[..] {
        ["EXPECTED", "the", "word", word, ..] => format!("expected the word {word}"),
        ["EXPECTED", ..] => "expected the end of the text".into(),
        ["SECTION", "ANSWERS", ..] => "section ANSWERS odd".into(),
        ["SECTION", word, "has", has, _, _, "needs", needs, ..] => {
            let [has, needs] = [has, needs].map(|count| count.trim_end_matches(','));
            let is_short = has.parse::<u32>().ok() < needs.parse().ok();
            format!("section {word} {}", if is_short { "short" } else { "long" })
        }
        _ => capitals(line),
    }
}

/// Prints what becomes of how many answers; panics unless there are so many of each kind.
fn report(cases: &[Case]) {
    for (words, least) in ANSWERS {
        let is_such = |line: &&str| line.starts_with("host ") && line.contains(words);
        let count = |(_, due): &Case| due.lines().filter(is_such).count();
        let answers: usize = cases.iter().map(count).sum();
        println!("answers {words}: {answers}");
        assert!(answers >= least, "answers {words}: not {least}");
    }
}
