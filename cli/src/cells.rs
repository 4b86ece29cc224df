//! The cells of a table as text: separators, quoted cells as in RFC 4180, line ends.
//!
//!   Cell   a cell with its place
//!   Wrong  what is wrong, with its place
//!   Cells  a text that gives its cells line by line

use std::borrow::Cow;

/// A cell with its line and its number in the line, both from 1, and whether it stood in quotes.
pub struct Cell<'a> {
    pub text: Cow<'a, str>,
    pub quoted: bool,
    pub line: usize,
    pub column: usize,
}

/// What is wrong, with its place.
pub struct Wrong {
    pub line: usize,
    pub column: usize,
    pub why: &'static str,
}

/// What is left of a text, the separator and the line. A blank as separator stands for any number
/// of them, and blanks at the ends of a line then mean nothing.
pub struct Cells<'a> {
    rest: &'a str,
    separator: char,
    line: usize,
}

/// The separator of a text: what stands in its first line outside quotes, a tab, else a semicolon,
/// else a comma, else blanks.
fn separator_of(text: &str) -> char {
    let mut quoted = false;
    let (mut tab, mut semicolon, mut comma) = (false, false, false);
    for letter in text.chars() {
        match letter {
            '"' => quoted = !quoted,
            _ if quoted => {}
            '\n' => break,
            '\t' => tab = true,
            ';' => semicolon = true,
            ',' => comma = true,
            _ => {}
        }
    }
    match (tab, semicolon, comma) {
        (true, _, _) => '\t',
        (_, true, _) => ';',
        (_, _, true) => ',',
        _ => ' ',
    }
}

/// Where the quote stands that closes a cell: the first that is not doubled.
fn closing_quote(inside: &str) -> Option<usize> {
    let mut from = 0;
    loop {
        let at = from + inside.get(from..)?.find('"')?;
        let after = inside.get(at + 1..)?;
        if !after.starts_with('"') {
            return Some(at);
        }
        from = at + 2;
    }
}

impl<'a> Cells<'a> {
    /// The cells of a text.
    pub fn of(text: &'a str) -> Cells<'a> {
        Cells {
            rest: text,
            separator: separator_of(text),
            line: 1,
        }
    }

    /// Blanks are the separator.
    pub fn by_blanks(&self) -> bool {
        self.separator == ' '
    }

    /// The line at which the text goes on.
    pub fn line(&self) -> usize {
        self.line
    }

    /// The cells of the next line, none at the end of the text. Where there are more than so many,
    /// the rest of the line is left aside.
    pub fn row(&mut self, most: usize) -> Result<Option<Vec<Cell<'a>>>, Wrong> {
        if self.rest.is_empty() {
            return Ok(None);
        }
        let mut cells = Vec::new();
        loop {
            let cell = self.cell(cells.len() + 1)?;
            cells.push(cell);
            if self.line_ends() || cells.len() > most {
                return Ok(Some(cells));
            }
        }
    }

    /// The next cell of a line.
    fn cell(&mut self, column: usize) -> Result<Cell<'a>, Wrong> {
        self.skip_blanks();
        let line = self.line;
        let inside = self.rest.strip_prefix('"');
        let text = match inside {
            Some(inside) => self.quoted(inside, column)?,
            None => self.bare(column)?,
        };
        Ok(Cell {
            text,
            quoted: inside.is_some(),
            line,
            column,
        })
    }

    /// Skips blanks where they are the separator.
    fn skip_blanks(&mut self) {
        if self.by_blanks() {
            self.rest = self.rest.trim_start_matches(' ');
        }
    }

    /// A letter ends a cell. A CR stands before an LF alone.
    fn ends_cell(&self, letter: char) -> bool {
        letter == self.separator || letter == '\n' || letter == '\r'
    }

    /// What is wrong in a cell of this line.
    fn wrong(&self, column: usize, why: &'static str) -> Wrong {
        let line = self.line;
        Wrong { line, column, why }
    }

    /// The text of a cell without quotes.
    fn bare(&mut self, column: usize) -> Result<Cow<'a, str>, Wrong> {
        let end = self.rest.find(|letter| self.ends_cell(letter));
        let (text, rest) = self.rest.split_at(end.unwrap_or(self.rest.len()));
        if text.contains('"') {
            let why = "a quote inside a cell that does not begin with one";
            return Err(self.wrong(column, why));
        }
        self.rest = rest;
        Ok(Cow::Borrowed(text))
    }

    /// The text of a cell in quotes, from after the first; a doubled quote stands for one.
    fn quoted(&mut self, inside: &'a str, column: usize) -> Result<Cow<'a, str>, Wrong> {
        let end = closing_quote(inside);
        let end = end.ok_or_else(|| self.wrong(column, "a quoted cell that is not closed"))?;
        let (text, rest) = inside.split_at(end);
        let rest = rest.strip_prefix('"').unwrap_or(rest);
        if !rest.is_empty() && !rest.starts_with(|letter| self.ends_cell(letter)) {
            return Err(self.wrong(column, "something stands after a closing quote"));
        }
        self.line += text.matches('\n').count();
        self.rest = rest;
        Ok(match text.contains('"') {
            true => Cow::Owned(text.replace("\"\"", "\"")),
            false => Cow::Borrowed(text),
        })
    }

    /// Goes on after a cell: true where the line ends there.
    fn line_ends(&mut self) -> bool {
        self.skip_blanks();
        if let Some(rest) = self.rest.strip_prefix("\r\n") {
            self.next_line(rest);
            return true;
        }
        if let Some(rest) = self.rest.strip_prefix('\n') {
            self.next_line(rest);
            return true;
        }
        if self.rest.is_empty() {
            return true;
        }
        self.rest = self.rest.strip_prefix(self.separator).unwrap_or(self.rest);
        false
    }

    /// Goes on with the next line.
    fn next_line(&mut self, rest: &'a str) {
        self.rest = rest;
        self.line += 1;
    }
}
