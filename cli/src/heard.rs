//! mukerihe heard FOLDER ANSWER..: the hosts heard, missing and refused; nothing is written.
//!
//!   run  the command

use crate::answers::{self, Arrivals};
use crate::arguments::{self, Usage};
use crate::fault::Done;
use crate::shared::{self, JOB_NAME};
use crate::text::shown;
use crate::told::Told;
use std::ffi::OsString;
use std::path::PathBuf;

/// How it is used.
const USAGE: Usage = Usage {
    text: "mukerihe heard FOLDER [--minute N] ANSWER..",
    flags: &[],
    valued: &["--minute"],
};

/// Tells which hosts are heard. Where too few are it ends with 4, as `decode` would.
pub fn run(arguments: Vec<OsString>) -> Done<()> {
    let mut given = answers::given(arguments, 1, &USAGE)?;
    let operands = std::mem::take(&mut given.operands);
    let [folder] = arguments::exactly(operands, &USAGE)?.map(PathBuf::from);
    let shared = shared::read(&folder)?;
    given.must_fit(&shared.job, &USAGE)?;
    let plan = shared.job.plan(&shown(folder.join(JOB_NAME)))?;
    let mut arrivals = Arrivals::new(&shared.job, &plan);
    let mut told = Told::default();
    let taken = arrivals.take_all(&given.answers, &mut told);
    let enough = taken.and_then(|()| arrivals.decoded().map(|_| ()));
    if enough.is_ok() {
        told.line(format!("enough: {} are needed", plan.needed));
    }
    told.send().and(enough)
}
