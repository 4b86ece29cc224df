//! The tables. Every case is timed in several processes, so that the addresses of buffers, which change
//! from process to process, decide nothing.

use crate::cases::{every_stage, every_stage_in_layout_3, growth, Case, Row, Table};
use crate::drawing::{self, MASKS, SKIPPED};
use crate::page::{self, SIDES};
use crate::race::Times;
use crate::random::Random;
use crate::stage::{measure, Stage};
use crate::work::{prime, Work};
use std::process::Command;

/// How many processes time the cases.
const PROCESSES: usize = 5;

/// The times of a case, process by process.
type Runs = Vec<Times>;

/// All cases with their stages, in the order of the tables.
fn all_cases() -> Vec<(Stage, Case)> {
    let grown = growth().into_iter().flat_map(|table| table.rows);
    let stages = [every_stage(), every_stage_in_layout_3()];
    let rows = stages.into_iter().flatten().chain(grown);
    rows.flat_map(|row| row.cases.into_iter().map(move |case| (row.stage, case)))
        .collect()
}

/// The modulus numbers of the masks that are drawn, and of the tables that are written as pages.
const MODULI: [u32; 4] = [1, 2, 3, 4];

/// Times every case, every drawing and every page and prints the times, a line each.
pub fn print_times() {
    for (stage, case) in all_cases() {
        let mut random = Random::new(u64::from(case.modulus));
        let work = Work::new(&mut random, case.modulus, case.shape, case.block);
        print_line_of_times(measure(stage, &work.expect("the job is planned")));
    }
    for modulus in MODULI {
        print_line_of_times(drawing::measure(modulus));
    }
    for (side, modulus) in pages() {
        print_line_of_times(page::measure(modulus, side));
    }
}

/// The sides of the tables that are written as pages, each with every modulus number.
fn pages() -> impl Iterator<Item = (u32, u32)> {
    SIDES
        .into_iter()
        .flat_map(|side| MODULI.map(|modulus| (side, modulus)))
}

/// Prints the line that another process reads.
fn print_line_of_times(times: Times) {
    let [library, plain] = [times.library, times.plain];
    println!("{} {} {} {}", library[0], library[1], plain[0], plain[1]);
}

/// The times that another process prints.
fn times_of_a_process() -> Vec<Times> {
    let program = std::env::current_exe().expect("this program has a path");
    let output = Command::new(program).arg("once").output();
    let output = output.expect("the program is run again");
    assert!(output.status.success(), "the program failed");
    let text = String::from_utf8(output.stdout).expect("the times are text");
    text.lines().map(times_of_line).collect()
}

/// The times in a line.
fn times_of_line(line: &str) -> Times {
    let mut numbers = line
        .split(' ')
        .map(|word| word.parse().expect("a time is a number"));
    let mut next = || numbers.next().expect("a line has four times");
    Times {
        library: [next(), next()],
        plain: [next(), next()],
    }
}

/// The smallest, the median and the largest of some numbers.
fn spread(numbers: impl Iterator<Item = f64>) -> [f64; 3] {
    let mut numbers: Vec<f64> = numbers.collect();
    numbers.sort_by(f64::total_cmp);
    let last = numbers.len() - 1;
    [numbers[0], numbers[last / 2], numbers[last]]
}

/// Prints the tables.
pub fn print_tables() {
    let processes: Vec<Vec<Times>> = (0..PROCESSES).map(|_| times_of_a_process()).collect();
    let mut cases = (0..processes[0].len()).map(|i| processes.iter().map(|run| run[i]).collect());
    let layout_3 = every_stage_in_layout_3();
    print_stages("Every stage of a 64 × 64 job", &every_stage(), &mut cases);
    print_stages(
        "Every stage, layout 3: groups of 5, 25 of 28 hosts",
        &layout_3,
        &mut cases,
    );
    for table in growth() {
        print_growth(&table, &mut cases);
    }
    print_drawings(&mut cases);
    print_pages(&mut cases);
}

/// Prints the head of a table with a line a stage.
fn print_head(title: &str) {
    println!("\n{title}\n");
    println!("| stage | q | library | plain Rust | ratio | lowest, highest | of fastest |");
    println!("|---|---|---|---|---|---|---|");
}

/// Prints a table of stages, a line a stage.
fn print_stages(title: &str, rows: &[Row], cases: &mut impl Iterator<Item = Runs>) {
    print_head(title);
    for row in rows {
        let runs = cases.next().expect("a case has its times");
        print_line(row.stage.name(), row.cases[0].modulus, &runs);
    }
}

/// Prints the table of the masks that are drawn.
fn print_drawings(cases: &mut impl Iterator<Item = Runs>) {
    let words = MASKS + SKIPPED;
    print_head(&format!(
        "{MASKS} masks from {words} words, {SKIPPED} of them skipped"
    ));
    for modulus in MODULI {
        let runs = cases.next().expect("a drawing has its times");
        print_line("masks drawn", modulus, &runs);
    }
}

/// Prints the table of the pages.
fn print_pages(cases: &mut impl Iterator<Item = Runs>) {
    print_head("The kinship page of a table");
    for (side, modulus) in pages() {
        let runs = cases.next().expect("a page has its times");
        print_line(&format!("page, {side} × {side}"), modulus, &runs);
    }
}

/// Prints the line of a stage: the fastest times of both, the ratio of the medians with its lowest and
/// highest, and the ratio of the fastest rounds.
fn print_line(name: &str, modulus: u32, runs: &Runs) {
    let [library, ..] = spread(runs.iter().map(|times| times.library[1]));
    let [plain, ..] = spread(runs.iter().map(|times| times.plain[1]));
    let [low, ratio, high] = spread(runs.iter().map(|t| t.library[0] / t.plain[0]));
    let [_, fastest, _] = spread(runs.iter().map(|t| t.library[1] / t.plain[1]));
    let q = prime(modulus);
    println!(
        "| {name} | {q} | {library:.2} | {plain:.2} | {ratio:.2} | {low:.2}, {high:.2} | {fastest:.2} |"
    );
}

/// Prints a table of growth: in each cell the library's fastest time, and the ratio of the medians.
fn print_growth(table: &Table, cases: &mut impl Iterator<Item = Runs>) {
    println!("\n{}\n", table.title);
    println!("| stage | q | {} |", table.columns.join(" | "));
    println!("|---|---|{}", "---|".repeat(table.columns.len()));
    for row in &table.rows {
        print!("| {} | {} |", row.stage.name(), prime(row.cases[0].modulus));
        for _ in &row.cases {
            let runs = cases.next().expect("a case has its times");
            let [library, ..] = spread(runs.iter().map(|times| times.library[1]));
            let [_, ratio, _] = spread(runs.iter().map(|t| t.library[0] / t.plain[0]));
            print!(" {library:.2} ({ratio:.2}) |");
        }
        println!();
    }
}
