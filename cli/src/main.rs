//! The command `mukerihe`: masked kinship tables across machines.
//!
//!   sys        the libraries' calls and the system's
//!   fault      what ends the command early, with its exit status
//!   told       what is said on standard output
//!   words      words for the numbers that the libraries return
//!   arguments  options and operands
//!   text       text of files and names
//!   primes     the primes
//!   files      files that are read
//!   outputs    files and folders that are made
//!   job        a job, and the file JOB
//!   shared     FOLDER/job: the job as it was shared
//!   cells      the cells of a table as text
//!   table      tables as text
//!   bound      how large an entry may be
//!   random     random words, and what is drawn from them
//!   check      the check of a decoded table
//!   answers    answers as they come in
//!   plan, share, multiply, heard, decode, show
//!              the commands
//!
//! Every number of the job sheet comes from the libraries' proved calls. Here are files, words and
//! tables as text.

mod answers;
mod arguments;
mod bound;
mod cells;
mod check;
mod decode;
mod fault;
mod files;
mod heard;
mod job;
mod multiply;
mod outputs;
mod plan;
mod primes;
mod random;
mod share;
mod shared;
mod show;
mod sys;
mod table;
mod text;
mod told;
mod words;

use fault::{no_file, wrong_use, Done};
use std::ffi::OsString;
use std::process::ExitCode;
use text::shown;
use told::Told;

/// What `--version` says.
const VERSION: &str = "mukerihe 0.1.0";

/// A command: it takes the arguments after its name.
type Command = fn(Vec<OsString>) -> Done<()>;

/// The commands by their names.
const COMMANDS: [(&str, Command); 6] = [
    ("plan", plan::run),
    ("share", share::run),
    ("multiply", multiply::run),
    ("heard", heard::run),
    ("decode", decode::run),
    ("show", show::run),
];

/// What `help` says.
const HELP: &str = "\
mukerihe: masked kinship tables. The table A times B is made on machines of many
gardens (hosts), and no group of them up to the agreed size learns A or B.

  mukerihe plan JOB                       what a job needs
  mukerihe share JOB A B FOLDER           FOLDER/send/01, 02, ..: what each host gets
      --transpose-b                       the file B holds B transposed, as A does
      --signed                            numbers may be below 0
      --wrap                              go on where entries may be no whole numbers
      --number N                          a job number of your own, for tests
      --words FILE                        random words from FILE, 4 bytes each
  mukerihe multiply A.mdo B.mdo [ANSWER]  the host's part
  mukerihe heard FOLDER ANSWER..          which hosts are heard, and how many of those needed
  mukerihe decode FOLDER TABLE ANSWER..   the table, checked
      --page FILE                         the table as a page, too
      --minute N                          (heard too) when the answers after it came, where
                                          the job has a window
  mukerihe show MESSAGE                   a message's header
  mukerihe help | --help | --version

`--` ends the options. Exit status: 0 done, 1 refused, 2 wrong use, 3 file or random
source, 4 too few answers yet, 5 the table failed the check. See mukerihe(1).
";

/// Says a text on standard output; no argument may be left.
fn say(text: &str, arguments: &[OsString]) -> Done<()> {
    if let Some(argument) = arguments.first() {
        return Err(wrong_use(format!(
            "too many arguments: {}",
            shown(argument)
        )));
    }
    let mut told = Told::default();
    told.line(text.trim_end());
    told.send()
}

/// Runs a command.
fn run(mut arguments: Vec<OsString>) -> Done<()> {
    if sys::output_was_closed() {
        return Err(no_file("standard output is closed"));
    }
    if arguments.is_empty() {
        return Err(wrong_use("no command; see mukerihe help"));
    }
    let name = arguments.remove(0);
    if let Some((_, command)) = COMMANDS.iter().find(|(known, _)| name == *known) {
        return match arguments == ["--help"] {
            true => say(HELP, &[]),
            false => command(arguments),
        };
    }
    match name.to_str() {
        Some("help" | "--help") => say(HELP, &arguments),
        Some("--version") => say(VERSION, &arguments),
        _ => Err(wrong_use(format!(
            "no such command: {}; see mukerihe help",
            shown(&name)
        ))),
    }
}

/// Runs the command that the arguments name, and ends with its status.
fn main() -> ExitCode {
    match run(std::env::args_os().skip(1).collect()) {
        Ok(()) => ExitCode::SUCCESS,
        Err(fault) => ExitCode::from(fault.told()),
    }
}
