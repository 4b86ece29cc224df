//! Masks to draw as a text, and what must be printed for it by a walk over the words.
//!
//!   DrawText  the numbers of a text; it is written in one line, in a column, or as `od` writes words

use super::printed::drawn_lines;
use crate::sheet::listing::refused;
use crate::sheet::plan::prime;

/// The numbers of a text: a modulus number, how many elements are wanted, and the words.
pub struct DrawText {
    pub modulus: u32,
    pub wanted: u32,
    pub words: Vec<u32>,
}

impl DrawText {
    /// Three elements modulo 13 from five words, two of them skipped: 5, 0 and 12.
    pub fn by_hand() -> DrawText {
        let top = u32::MAX;
        DrawText {
            modulus: 1,
            wanted: 3,
            words: vec![top, top - 8, 5, 13, top - 9],
        }
    }

    /// The numbers of the text.
    pub fn tokens(&self) -> Vec<Vec<u8>> {
        let numbers = [self.modulus, self.wanted].into_iter();
        let numbers = numbers.chain(self.words.iter().copied());
        numbers
            .map(|number| number.to_string().into_bytes())
            .collect()
    }

    /// The text in one line, with no line end.
    pub fn bare(&self) -> Vec<u8> {
        self.tokens().join(&b' ')
    }

    /// The text with a number in a line.
    pub fn column(&self) -> Vec<u8> {
        [&self.tokens().join(&b'\n')[..], b"\n"].concat()
    }

    /// The text with the words as `od` writes them.
    pub fn by_od(&self) -> Vec<u8> {
        let head = format!("{} {}\n", self.modulus, self.wanted);
        [head, od_lines(&self.words)].concat().into_bytes()
    }

    /// All that must be printed. A word is usable where it and its neighbours by multiples of q are a
    /// whole stretch of q words.
    pub fn due(&self) -> String {
        let Some(q) = prime(self.modulus).map(u64::from) else {
            return refused(1);
        };
        let (mut used, mut elements) = (0, Vec::new());
        while elements.len() < self.wanted as usize {
            let Some(&word) = self.words.get(used) else {
                return refused(27);
            };
            if (u64::from(word) / q + 1) * q <= 1 << 32 {
                elements.push((u64::from(word) % q) as u32);
            }
            used += 1;
        }
        drawn_lines(used, &elements)
    }
}

/// Words as `od -An -v -tu4` writes them: four in a line, each in eleven columns.
fn od_lines(words: &[u32]) -> String {
    let line = |words: &[u32]| {
        let columns: String = words.iter().map(|word| format!("{word:>11}")).collect();
        columns + "\n"
    };
    words.chunks(4).map(line).collect()
}
