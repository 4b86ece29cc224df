//! What the program that draws masks must print for a text.
//!
//! A text is numbers: the modulus number, how many elements are wanted, and the words. A UTF-8 mark at
//! its front is skipped. What is tested, in this order; the first that fits is printed:
//!
//!   TEXT TOO LONG      786,432 bytes or more, the mark counted
//!   NO NUMBER,
//!   NUMBER TOO LARGE   the first fault of the text, with its line and column
//!   EXPECTED           fewer than two numbers
//!   TOO MANY ELEMENTS  more than 65,536 are wanted
//!   REFUSED n          the drawing is refused
//!
//! The others get how many words were used, as a comment, and the elements, one a line.
//!
//!   MOST_TEXT      a text must be shorter than this
//!   MOST_ELEMENTS  the most elements
//!   TOO_LONG, TOO_FEW, TOO_MANY
//!                  the lines for a text that is too long, has too few numbers, wants too many elements
//!   printed        all that is printed
//!   drawn_lines    the lines of a drawing

use crate::cases::tokens::{number, tokens, without_mark};
use crate::sheet::listing::refused;
use crate::sheet::masks::{draw, Drawing};

/// A text must be shorter than this.
pub const MOST_TEXT: usize = 786_432;

/// The most elements.
pub const MOST_ELEMENTS: u32 = 65_536;

/// The line for a text that is too long.
pub const TOO_LONG: &str = "TEXT TOO LONG: at most 786431 bytes\n";

/// The line for a text with fewer than two numbers.
pub const TOO_FEW: &str = "EXPECTED a modulus number and a number of elements\n";

/// The line for a text that wants too many elements.
pub const TOO_MANY: &str = "TOO MANY ELEMENTS: at most 65536\n";

/// What is printed for a text.
pub fn printed(text: &[u8]) -> String {
    if text.len() >= MOST_TEXT {
        return TOO_LONG.into();
    }
    let tokens = tokens(without_mark(text)).into_iter();
    let numbers: Result<Vec<u32>, String> =
        tokens.map(|(begin, token)| number(begin, &token)).collect();
    match numbers {
        Ok(numbers) => printed_for(&numbers),
        Err(line) => line,
    }
}

/// What is printed for the numbers of a text.
fn printed_for(numbers: &[u32]) -> String {
    let [modulus, wanted, words @ ..] = numbers else {
        return TOO_FEW.into();
    };
    if *wanted > MOST_ELEMENTS {
        return TOO_MANY.into();
    }
    let drawing = Drawing {
        modulus: *modulus,
        words: words.to_vec(),
        room: *wanted as usize,
    };
    match draw(&drawing) {
        Ok(drawn) => drawn_lines(drawn.used, &drawn.elements),
        Err(number) => refused(number),
    }
}

/// The lines of a drawing: how many words were used, and the elements.
pub fn drawn_lines(used: usize, elements: &[u32]) -> String {
    let elements: String = elements.iter().map(|v| format!("{v}\n")).collect();
    format!("# USED {used}\n{elements}")
}
