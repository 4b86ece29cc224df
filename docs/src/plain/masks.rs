//! Masks drawn from random words: the remainders of the usable ones.

use crate::field::{prime, with_prime};

/// Draws as many masks as the output holds; how many words were used, skipped ones counted.
pub fn draw_masks(modulus: u32, words: &[u32], out: &mut [u32]) -> Result<usize, u32> {
    let q = prime(modulus)?;
    with_prime!(q, draw(words, out))
}

/// Whether a word is below the largest multiple of Q that is at most 2^32.
fn is_usable<const Q: u32>(word: u32) -> bool {
    u64::from(word) < (1 << 32) / u64::from(Q) * u64::from(Q)
}

/// Draws masks modulo Q: runs of usable words, one after another, so that the compiler can take several
/// words at once.
fn draw<const Q: u32>(words: &[u32], out: &mut [u32]) -> Result<usize, u32> {
    let used = count_used::<Q>(words, out.len()).ok_or(27_u32)?;
    let mut rest = out;
    for run in words[..used].split(|&word| !is_usable::<Q>(word)) {
        let (front, back) = rest.split_at_mut(run.len());
        for (mask, word) in front.iter_mut().zip(run) {
            *mask = word % Q;
        }
        rest = back;
    }
    Ok(used)
}

/// How many words it takes until so many of them are usable; none where there are fewer. It takes at least
/// as many as are wanted, and as many more as were skipped.
fn count_used<const Q: u32>(words: &[u32], wanted: usize) -> Option<usize> {
    let (mut used, mut left) = (0, wanted);
    while left > 0 {
        let next = words[used..].get(..left)?;
        used += left;
        left = next.iter().filter(|&&word| !is_usable::<Q>(word)).count();
    }
    Some(used)
}
