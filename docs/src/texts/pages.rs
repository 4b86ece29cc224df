//! Texts of jobs whose tables have columns about one, two and three full panels of a page, and row numbers
//! that get a digit more.
//!
//!   pages  all of them

use super::job_text::JobText;
use crate::cases::draw::modulus_in_turn;
use crate::cases::folder::Case;
use crate::jobs::stories::draw_points;
use crate::sheet::plan::known_prime;
use crate::sheet::random::Random;

/// Tables of all these sizes, the moduli in turn. Elements and masks are below q or below a smaller number:
/// the table's elements have many numbers of digits.
pub fn pages(random: &mut Random) -> Vec<Case> {
    let mut cases = Vec::new();
    for (i, t) in (0..).zip([1, 9, 10, 100]) {
        for (j, r) in (0..).zip([5, 6, 7, 11, 12, 13, 18, 19]) {
            let line = [modulus_in_turn(i + j), t, 1, r, 1, 1, 1, 1, 1, 4];
            let q = known_prime(line[0]);
            let points = draw_points(random, line, j);
            let below = [q, 40, 3000][j as usize % 3].min(q);
            cases.push(JobText::drawn(random, line, points, below).case());
        }
    }
    cases
}
