//! A job as a text, and what must be printed for it by a shorter way: answers told from a list of
//! the hosts heard, and the table straight from A and B, with no shares and no messages.
//!
//!   Answer      a host whose answer comes in, and its minute
//!   JobText     the numbers of a text, section by section
//!   sectioned   the text of sections with these numbers, each in a line
//!   tokens      the words and numbers of sections with these numbers

use super::printed::{answer_line, heard_line, tables};
use super::sections::WORDS;
use crate::cases::folder::Case;
use crate::cases::forms::strewn;
use crate::sheet::listing::{self, refused};
use crate::sheet::plan::{choose, known_prime, Job, Line, Window};
use crate::sheet::random::Random;
use crate::sheet::share::Side;
use crate::sheet::whole_job::{plain, Contents};

/// The numbers of the sections of a text.
pub type Parts = [Vec<u32>; 7];

/// A host whose answer comes in, and its minute.
pub type Answer = [u32; 2];

/// The numbers of a text, section by section; `order` has the answers as they come in.
#[derive(Clone)]
pub struct JobText {
    pub line: Line,
    pub job_number: u32,
    pub window: Window,
    pub points: Vec<u32>,
    pub sides: [Contents; 2],
    pub order: Vec<Answer>,
}

impl JobText {
    /// The sheet's smallest job: 5 with mask 7 times 4 with mask 9 over q = 13. All hosts answer.
    pub fn by_hand() -> JobText {
        let contents = |element, mask| Contents {
            matrix: vec![element],
            masks: vec![mask],
        };
        JobText {
            line: [1, 1, 1, 1, 1, 1, 1, 1, 1, 3],
            job_number: 7,
            window: [2, 9],
            points: vec![1, 2, 3],
            sides: [contents(5, 7), contents(4, 9)],
            order: vec![[3, 2], [1, 8], [2, 5]],
        }
    }

    /// A job with random matrices and masks, all below a number, and a random job number and window;
    /// all hosts answer inside it.
    pub fn drawn(random: &mut Random, line: Line, points: Vec<u32>, below: u32) -> JobText {
        let job = Job::of_line(&line);
        let text = JobText {
            line,
            job_number: random.word(),
            window: random.window(),
            points,
            sides: [Side::A, Side::B].map(|side| Contents::drawn(random, side, &job, below)),
            order: Vec::new(),
        };
        text.answered(&random.order(job.hosts))
    }

    /// The job with answers of these hosts, one after another, at any minutes of the window.
    pub fn answered(&self, hosts: &[u32]) -> JobText {
        let minutes = &mut Random::new(self.job_number.into());
        let answer = |&host: &u32| [host, minutes.inside(self.window)];
        JobText {
            order: hosts.iter().map(answer).collect(),
            ..self.clone()
        }
    }

    /// The job with its numbers and window.
    pub fn job(&self) -> Job {
        Job::of(&self.line, self.window)
    }

    /// The numbers of the sections: the job's numbers, points, A, B, A's masks, B's masks, hosts and
    /// minutes.
    pub fn parts(&self) -> Parts {
        let [a, b] = self.sides.clone();
        let job = self.job().numbers(self.job_number);
        let (points, order) = (self.points.clone(), self.order.concat());
        [job, points, a.matrix, b.matrix, a.masks, b.masks, order]
    }

    /// The text with each section in a line.
    pub fn text(&self) -> Vec<u8> {
        sectioned(&self.parts())
    }

    /// The text with white space, comments and leading zeros by chance.
    pub fn strewn_text(&self, random: &mut Random) -> Vec<u8> {
        strewn(random, &tokens(&self.parts()))
    }

    /// The lines of the plan.
    pub fn plan(&self) -> String {
        listing::reply(&listing::text(&self.line))
    }

    /// All that must be printed for a job that is shared.
    pub fn due(&self) -> String {
        let job = self.job();
        let q = known_prime(job.modulus);
        let needed = choose(&job).needed as usize;
        let (lines, heard) = answers(&job, &self.order, needed);
        let end = if heard.len() < needed {
            refused(24)
        } else {
            tables(&plain(&job, &self.sides, q), job.r, q)
        };
        [self.plan(), lines, heard_line(&heard), end].concat()
    }

    /// The text with each part in a line, and all that must be printed.
    pub fn case(&self) -> Case {
        (self.text(), self.due())
    }
}

/// The lines of the answers, and the hosts heard, lowest first.
fn answers(job: &Job, order: &[Answer], needed: usize) -> (String, Vec<u32>) {
    let (mut lines, mut heard) = (String::new(), Vec::new());
    for &[host, minute] in order {
        lines += &if heard.len() == needed {
            answer_line(host, "late, heard", needed)
        } else if !(1..=job.hosts).contains(&host) {
            answer_line(host, "refused", 12)
        } else if !(job.opening..job.closing).contains(&minute) {
            answer_line(host, "refused", 30)
        } else if heard.contains(&host) {
            answer_line(host, "already in, heard", heard.len())
        } else {
            heard.push(host);
            answer_line(host, "taken, heard", heard.len())
        };
    }
    heard.sort_unstable();
    (lines, heard)
}

/// The words and numbers of sections with these numbers.
pub fn tokens(parts: &Parts) -> Vec<Vec<u8>> {
    let sections = WORDS.iter().zip(parts).map(|(word, numbers)| {
        let numbers = numbers.iter().map(|number| number.to_string().into_bytes());
        [word.as_bytes().to_vec()].into_iter().chain(numbers)
    });
    sections.flatten().collect()
}

/// The text of sections with these numbers, each in a line, with single spaces between.
pub fn sectioned(parts: &Parts) -> Vec<u8> {
    let line = |(word, numbers): (&&str, &Vec<u32>)| {
        let numbers: String = numbers.iter().map(|number| format!(" {number}")).collect();
        format!("{word}{numbers}\n")
    };
    let text: String = WORDS.iter().zip(parts).map(line).collect();
    text.into_bytes()
}
