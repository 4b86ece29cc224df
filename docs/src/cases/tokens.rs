//! The tokens of a plain text, and the numbers among them.
//!
//! A UTF-8 mark at the front of a text is skipped. A line ends at a line feed, at a carriage return, or
//! at the two in this order; a # begins a comment, which goes to the end of its line. What is left of a
//! line are tokens, set apart by spaces and tabs. A number is digits, leading zeros allowed, with a value
//! below 2^32.
//!
//!   MARK          the UTF-8 mark
//!   without_mark  a text without the mark at its front
//!   Position      a position in a text, line and column from 1; a column is a byte
//!   lines         the lines of a text
//!   end           the position of a text's end
//!   tokens        the tokens of a text, each with its position
//!   number        the number that a token is, or the line for its first fault
//!   no_number     the line for a byte that is no number's
//!   too_large     the line for a digit by which a value would reach 2^32

use std::mem::take;

/// The UTF-8 mark.
pub const MARK: &[u8] = b"\xef\xbb\xbf";

/// A text without the mark at its front.
pub fn without_mark(text: &[u8]) -> &[u8] {
    text.strip_prefix(MARK).unwrap_or(text)
}

/// A position in a text.
#[derive(Clone, Copy, Debug, PartialEq, Eq)]
pub struct Position {
    pub line: usize,
    pub column: usize,
}

/// The lines of a text, without their ends.
pub fn lines(text: &[u8]) -> Vec<Vec<u8>> {
    let (mut lines, mut line) = (Vec::new(), Vec::new());
    let mut bytes = text.iter().peekable();
    while let Some(&byte) = bytes.next() {
        match byte {
            b'\r' => {
                bytes.next_if_eq(&&b'\n');
                lines.push(take(&mut line));
            }
            b'\n' => lines.push(take(&mut line)),
            _ => line.push(byte),
        }
    }
    lines.push(line);
    lines
}

/// The position of a text's end.
pub fn end(text: &[u8]) -> Position {
    let lines = lines(text);
    Position {
        line: lines.len(),
        column: lines[lines.len() - 1].len() + 1,
    }
}

/// The tokens of a text, each with its position.
pub fn tokens(text: &[u8]) -> Vec<(Position, Vec<u8>)> {
    let mut tokens = Vec::new();
    for (line, bytes) in (1..).zip(lines(text)) {
        let mut column = 1;
        for token in without_comment(&bytes).split(|byte| b" \t".contains(byte)) {
            if !token.is_empty() {
                tokens.push((Position { line, column }, token.to_vec()));
            }
            column += token.len() + 1;
        }
    }
    tokens
}

/// What stands in a line before its comment.
fn without_comment(line: &[u8]) -> &[u8] {
    line.split(|&byte| byte == b'#').next().unwrap_or(line)
}

/// The number that a token is, or the line for its first fault.
pub fn number(begin: Position, token: &[u8]) -> Result<u32, String> {
    let mut value = 0_u32;
    for (column, &byte) in (begin.column..).zip(token) {
        let digit = char::from(byte).to_digit(10);
        let digit = digit.ok_or_else(|| no_number(begin.line, column))?;
        let tens = value.checked_mul(10);
        let more = tens.and_then(|tens| tens.checked_add(digit));
        value = more.ok_or_else(|| too_large(begin.line, column))?;
    }
    Ok(value)
}

/// The line for a byte that is no number's.
pub fn no_number(line: usize, column: usize) -> String {
    format!("NO NUMBER at line {line}, column {column}\n")
}

/// The line for a digit by which a value would reach 2^32.
pub fn too_large(line: usize, column: usize) -> String {
    let largest = u32::MAX;
    format!("NUMBER TOO LARGE at line {line}, column {column}: the largest is {largest}\n")
}
