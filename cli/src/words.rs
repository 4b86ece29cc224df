//! Words for every number that the libraries return.
//!
//!   by     a refusal by a number: the number and its words
//!   BAD_HOSTS, TOO_FEW_HOSTS, FOREIGN, ANSWER_DIFFERS, TOO_FEW_HEARD, TOO_FEW_WORDS, OUTSIDE_WINDOW
//!          the numbers that the command has more to say about

/// N is not 1 to 64, or not below the prime.
pub const BAD_HOSTS: u32 = 7;

/// K is over N.
pub const TOO_FEW_HOSTS: u32 = 8;

/// A message is not an answer of this job.
pub const FOREIGN: u32 = 22;

/// The host is heard already, with another answer.
pub const ANSWER_DIFFERS: u32 = 23;

/// Fewer than K hosts are heard.
pub const TOO_FEW_HEARD: u32 = 24;

/// There are fewer usable random words than elements wanted.
pub const TOO_FEW_WORDS: u32 = 27;

/// An answer's minute is outside the window.
pub const OUTSIDE_WINDOW: u32 = 30;

/// What a number means.
fn words(number: u32) -> &'static str {
    match number {
        1 => "no such modulus number",
        2 => "a size is not 1 to 16384",
        3 => "a cut (m, p or n) is not 1 to 8",
        4 => "a group (X_A or X_B) is not 1 to 16",
        5 => "a cut does not divide its size: m must divide t, p must divide s, n must divide r",
        6 => "a block would hold more than 4096 elements: cut finer",
        7 => "the number of hosts is not 1 to 64, or not below the prime",
        8 => "more answers are needed than there are hosts",
        9 => "there is not one point for each host",
        10 => "a point is 0, or not below the prime",
        11 => "a point is given twice",
        12 => "no such host",
        13 => "a list has a wrong length",
        14 => "an element is not below the prime",
        15 => "an element of a mask is not below the prime",
        16 => "the kind of message is not 1, 2 or 3",
        17 => "it has fewer than 16 bytes, so it is no message or was cut short",
        18 => "it does not begin with MDO, so it is no message",
        19 => "its version is not 1",
        20 => "its length is not that of its rows and columns: cut short, or something was added",
        _ => later_words(number),
    }
}

/// What a number from 21 on means.
fn later_words(number: u32) -> &'static str {
    match number {
        21 => "a host above the job's is among those heard",
        22 => "it is not an answer of this job",
        23 => "another answer of this host is in already, and stays",
        24 => "too few answers yet",
        25 => "it is outside the range of signed numbers",
        27 => "there are too few usable random words",
        28 => "the page has another length",
        29 => "the opening minute is not before the closing minute",
        30 => "its minute is outside the window",
        1001 => "the first must be a share of A (kind 1), the second a share of B (kind 2)",
        1002 => "the command and its libraries do not belong together",
        1003 => "the two shares have unlike primes",
        1004 => "the two shares are for unlike hosts",
        1005 => "the two shares are of unlike jobs",
        1006 => "A's columns are not B's rows, so the two shares are of unlike jobs",
        _ => "a number that the command does not know",
    }
}

/// A refusal by a number: the number and its words.
pub fn by(number: u32) -> String {
    format!("refused with {number}: {}", words(number))
}
