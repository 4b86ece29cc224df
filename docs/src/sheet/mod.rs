//! The sheet's calls, worked out from the papers.
//!
//!   random       a small deterministic generator with a fixed seed
//!   plan         a job with its window, the tests of a plan, the three layouts, the recovery threshold
//!                K, the choice
//!   plan_check   the plan against brute force and against the values checked by hand
//!   listing      the plan lister's text in and out
//!   share        the shares of A and of B
//!   product      a host's product
//!   message      messages, written and read
//!   answer       a host's whole part: both its messages in, its answer's out
//!   signed       signed reading and its way back
//!   masks        masks drawn from random words
//!   masks_check  the drawing against values by hand and against a count of all lists of few words
//!   page         the kinship page
//!   page_check   pages against pages by hand and against the formula, and read back
//!   job_call     calls on a job that is under way, and the tests that they make first
//!   arrival      an answer's arrival
//!   interpolate  interpolation, by a system of linear equations
//!   decode       the table, decoded
//!   whole_job    a job with its matrices and masks, its true products and its table
//!   sums_check   sums of products against what they must be where every element is q - 1
//!   window_check
//!                windows against lists of their minutes

pub mod answer;
pub mod arrival;
pub mod decode;
mod interpolate;
pub mod job_call;
pub mod listing;
pub mod masks;
pub mod masks_check;
pub mod message;
pub mod page;
pub mod page_check;
pub mod plan;
pub mod plan_check;
pub mod product;
pub mod random;
pub mod share;
pub mod signed;
pub mod sums_check;
pub mod whole_job;
pub mod window_check;
