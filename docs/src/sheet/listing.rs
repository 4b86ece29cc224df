//! The plan lister's text (01, "The plan lister" and refusal 26).

use super::plan::{choose, known_prime, refusal, Job, Line};

/// A line as the lister reads it: single spaces between, one LF at the end.
pub fn text(line: &Line) -> Vec<u8> {
    let words: Vec<String> = line.iter().map(u32::to_string).collect();
    format!("{}\n", words.join(" ")).into_bytes()
}

/// The ten numbers of an input; none if it is malformed, which is refusal 26. The input is the
/// numbers, one space between, one LF at the end and nothing after it.
pub fn parse(input: &[u8]) -> Option<Line> {
    let line = input.strip_suffix(b"\n")?;
    let words = line.split(|&byte| byte == b' ');
    let numbers: Option<Vec<u32>> = words.map(number).collect();
    numbers?.try_into().ok()
}

/// A number of 1 to 5 digits without a needless leading 0: `0` is one, `00` and `01` are not.
fn number(word: &[u8]) -> Option<u32> {
    let right_length = (1..=5).contains(&word.len());
    let needless_zero = word.len() > 1 && word[0] == b'0';
    if !right_length || needless_zero || !word.iter().all(u8::is_ascii_digit) {
        return None;
    }
    Some(
        word.iter()
            .fold(0, |value, digit| value * 10 + u32::from(digit - b'0')),
    )
}

/// What the lister prints for an input.
pub fn reply(input: &[u8]) -> String {
    let Some(line) = parse(input) else {
        return refused(26);
    };
    let job = Job::of_line(&line);
    match lister_refusal(&job) {
        Some(number) => refused(number),
        None => listing(&job),
    }
}

/// The refusal of a plan with the evaluation points 1..N. With these points 9, 10 and 11 never
/// occur: there are N of them, they are distinct and not 0, and the largest, N, is below q when
/// N is at most q - 1; otherwise 7 comes first.
fn lister_refusal(job: &Job) -> Option<u32> {
    let points: Vec<u32> = (1..=job.hosts).collect();
    let number = refusal(job, &points);
    assert!(!matches!(number, Some(9..=11)));
    number
}

/// The line of a refused plan.
pub fn refused(number: u32) -> String {
    format!("REFUSED {number}\n")
}

/// The seven lines of an accepted plan.
fn listing(job: &Job) -> String {
    let q = known_prime(job.modulus);
    let layout = choose(job);
    [
        format!("MODULUS {q}\n"),
        format!("LAYOUT {}\n", layout.number),
        format!("HOSTS {}\n", job.hosts),
        format!("NEEDED {}\n", layout.needed),
        format!(
            "A {} | {}\n",
            spaced(&layout.a_blocks),
            spaced(&layout.a_masks)
        ),
        format!(
            "B {} | {}\n",
            spaced(&layout.b_blocks),
            spaced(&layout.b_masks)
        ),
        format!("C {}\n", spaced(&layout.places)),
    ]
    .concat()
}

/// Numbers with single spaces between.
fn spaced(numbers: &[u32]) -> String {
    let words: Vec<String> = numbers.iter().map(u32::to_string).collect();
    words.join(" ")
}
