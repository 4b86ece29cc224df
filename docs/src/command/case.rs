//! A job for the command, with its tables, options and random words, and what is due.
//!
//!   Case  the job

use std::fs::create_dir_all;

use super::matrix::{bound, drawn_names, times, Matrix};
use crate::cases::save;
use crate::jobs::stories::{draw_points, small_line};
use crate::sheet::masks::{draw, Drawing};
use crate::sheet::message::Fields;
use crate::sheet::page::formatted;
use crate::sheet::plan::{choose, known_prime, Job};
use crate::sheet::random::Random;
use crate::sheet::share::{share, Shape, Side};
use crate::sheet::signed::{half, signed_reading, way_back, SignedReading, WayBack};
use crate::sheet::whole_job::{sharing, written, Contents};

/// More words than any of these jobs needs.
const WORDS: usize = 20_000;

/// A job with its tables, options and random words. `wraps` where an entry may be no whole number.
pub struct Case {
    job: Job,
    number: u32,
    points: Vec<u32>,
    windowed: bool,
    signed: bool,
    transposed: bool,
    wraps: bool,
    words: Vec<u32>,
    a: Matrix,
    b: Matrix,
}

/// A side with the kind of its messages, the rows and columns of its blocks, its matrix and its masks.
struct ShareSide {
    side: Side,
    kind: u32,
    sizes: [u32; 2],
    contents: Contents,
}

/// Two matrices that can be multiplied, with numbers up to a size, each with names by chance.
fn drawn_tables(random: &mut Random, job: &Job, most: u32, signed: bool) -> [Matrix; 2] {
    let mut a = Matrix::drawn(random, [job.t, job.s], most, signed);
    let mut b = Matrix::drawn(random, [job.s, job.r], most, signed);
    let markers = drawn_names(random, "m", job.s);
    let rows = drawn_names(random, "lot ", job.t);
    let columns = drawn_names(random, "plot ", job.r);
    let named = [
        (&mut a.row_names, rows),
        (&mut a.column_names, markers.clone()),
        (&mut b.row_names, markers),
        (&mut b.column_names, columns),
    ];
    for (names, drawn) in named {
        if random.within(0, 1) == 1 {
            *names = drawn;
        }
    }
    [a, b]
}

/// Numbers with a blank between two.
fn joined(numbers: &[u32]) -> String {
    let texts: Vec<String> = numbers.iter().map(u32::to_string).collect();
    texts.join(" ")
}

impl Case {
    /// A random job; the round decides on modulus and layout.
    pub fn drawn(random: &mut Random, round: u32) -> Case {
        let line = small_line(random, round);
        let job = Job::of(&line, random.window());
        let q = known_prime(job.modulus);
        let signed = random.within(0, 3) == 0;
        let fits = if signed { half(q) } else { q - 1 };
        let most = [fits, fits.min(2), fits.min(60)][random.index(3)];
        let [a, b] = drawn_tables(random, &job, most, signed);
        Case {
            wraps: bound(&a, &b) > u128::from(fits),
            points: draw_points(random, line, round),
            number: random.word(),
            windowed: random.within(0, 1) == 1,
            signed,
            transposed: random.within(0, 2) == 0,
            words: random.words(WORDS),
            job,
            a,
            b,
        }
    }

    /// B as its file has it.
    fn b_file(&self) -> Matrix {
        match self.transposed {
            true => self.b.transposed(),
            false => self.b.clone(),
        }
    }

    /// The points are 1 to N.
    fn counted(&self) -> bool {
        self.points.iter().copied().eq(1..=self.job.hosts)
    }

    /// The file JOB.
    fn job_text(&self) -> String {
        let job = &self.job;
        let hosts = match self.counted() {
            true => format!("hosts = {}", job.hosts),
            false => format!("points = {}", joined(&self.points)),
        };
        let window = match self.windowed {
            true => format!("opening = {}\nclosing = {}\n", job.opening, job.closing),
            false => String::new(),
        };
        let lines = [
            format!("# a random job\n\nprime = {}", known_prime(job.modulus)),
            format!("sizes = {}", joined(&[job.t, job.s, job.r])),
            format!("cuts={} # m p n", joined(&[job.m, job.p, job.n])),
            format!("\tgroups =  {}", joined(&[job.x_a, job.x_b])),
            format!("names_a = {}", self.a.names_word()),
            format!("names_b = {}", self.b_file().names_word()),
            hosts,
            window,
        ];
        lines.join("\n")
    }

    /// The options of `share`.
    fn share_options(&self) -> String {
        let flags = [
            (self.signed, "--signed\n"),
            (self.transposed, "--transpose-b\n"),
            (self.wraps, "--wrap\n"),
        ];
        let flags: String = flags
            .iter()
            .filter(|flag| flag.0)
            .map(|flag| flag.1)
            .collect();
        format!("--number\n{}\n{flags}", self.number)
    }

    /// The options of `decode`: a minute of the window, if there is one.
    fn decode_options(&self, random: &mut Random) -> String {
        match self.windowed {
            true => format!("--minute\n{}\n", random.inside(self.job.window())),
            false => String::new(),
        }
    }

    /// The elements of a matrix, with masks that are drawn from the front of the words.
    fn contents(&self, side: Side, matrix: &Matrix, words: &mut Vec<u32>) -> Contents {
        let modulus = self.job.modulus;
        let element = |&value: &i64| match self.signed {
            true => way_back(&WayBack { modulus, value }).expect("a number in range"),
            false => u32::try_from(value).expect("an element"),
        };
        let call = Drawing {
            modulus,
            words: words.clone(),
            room: Shape::of(side, &self.job).masks_length(),
        };
        let drawn = draw(&call).expect("enough words");
        words.drain(..drawn.used);
        Contents {
            matrix: matrix.values.iter().map(element).collect(),
            masks: drawn.elements,
        }
    }

    /// The message of a host's share of a side, of a kind and with blocks of so many rows and columns.
    fn message(&self, host: u32, side: &ShareSide) -> Vec<u8> {
        let call = sharing(&self.job, &self.points, side.side, &side.contents, host);
        let [rows, columns] = side.sizes;
        let fields = Fields {
            kind: side.kind,
            modulus: self.job.modulus,
            host,
            rows,
            columns,
            job_number: self.number,
        };
        written(&fields, &share(&call).expect("a fit share"))
    }

    /// Writes the messages of all hosts: A's masks are drawn first, then B's.
    fn write_messages(&self, folder: &str) {
        let (job, number) = (&self.job, self.number);
        let words = &mut self.words.clone();
        let [rows, inner, columns] = [job.t / job.m, job.s / job.p, job.r / job.n];
        let a = ShareSide {
            side: Side::A,
            kind: 1,
            sizes: [rows, inner],
            contents: self.contents(Side::A, &self.a, words),
        };
        let b = ShareSide {
            side: Side::B,
            kind: 2,
            sizes: [inner, columns],
            contents: self.contents(Side::B, &self.b, words),
        };
        for host in 1..=job.hosts {
            let place = format!("{folder}/send/{host:02}");
            create_dir_all(&place).expect("the folder cannot be made");
            for (letter, side) in [("a", &a), ("b", &b)] {
                let name = format!("{place}/{number:08x}-{host:02}.{letter}.mdo");
                save(&name, &self.message(host, side));
            }
        }
    }

    /// The table that is due: A times B in whole numbers, or as remainders where an entry may be none.
    fn table(&self) -> Matrix {
        let (modulus, q) = (self.job.modulus, known_prime(self.job.modulus));
        times(&self.a, &self.b, |exact| {
            if !self.wraps {
                return i64::try_from(exact).expect("a small entry");
            }
            let element = exact.rem_euclid(i128::from(q)) as u32;
            match self.signed {
                true => signed_reading(&SignedReading { modulus, element }).expect("an element"),
                false => i64::from(element),
            }
        })
    }

    /// Writes the job to its folder.
    pub fn write(&self, random: &mut Random, folder: &str) {
        self.write_messages(folder);
        let words = self.words.iter().flat_map(|word| word.to_be_bytes());
        let table = self.table();
        let texts = [
            ("job", self.job_text()),
            ("a", self.a.some_text(random)),
            ("b", self.b_file().some_text(random)),
            ("share", self.share_options()),
            ("decode", self.decode_options(random)),
            ("needed", choose(&self.job).needed.to_string()),
            ("table", table.due_text()),
        ];
        save(&format!("{folder}/words"), &words.collect::<Vec<u8>>());
        for (name, text) in texts {
            save(&format!("{folder}/{name}"), text.as_bytes());
        }
        let elements: Result<Vec<u32>, _> =
            table.values.iter().map(|&v| u32::try_from(v)).collect();
        if let Ok(elements) = elements {
            let page = formatted(&elements, table.columns);
            save(&format!("{folder}/page"), page.as_bytes());
        }
    }

    /// What kinds of job it is.
    pub fn kinds(&self) -> Vec<String> {
        let pick = |is: bool, yes: &str, no: &str| if is { yes } else { no }.to_string();
        let above = self.table().values.iter().all(|&entry| entry >= 0);
        let kinds = [
            format!("layout {}", choose(&self.job).number),
            format!("names_a {}", self.a.names_word()),
            format!("names_b {}", self.b_file().names_word()),
            pick(self.windowed, "window", "no window"),
            pick(self.wraps, "entries as remainders", "entries as they are"),
            pick(self.counted(), "hosts", ""),
            pick(self.signed, "signed", ""),
            pick(self.transposed, "transposed", ""),
            pick(above, "page", ""),
        ];
        kinds.into_iter().filter(|kind| !kind.is_empty()).collect()
    }
}
