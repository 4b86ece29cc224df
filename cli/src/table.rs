//! Tables as text, read and written.
//!
//!   Shape         what a table in a file must be
//!   Table         elements and names
//!   read          reads a table
//!   same_markers  A's columns and B's rows have the same names, in the same order
//!   written       a table as text

use crate::cells::{Cell, Cells, Wrong};
use crate::check::Matrix;
use crate::fault::{refused, Done, Fault};
use crate::files;
use crate::job::{length, Names};
use crate::primes;
use crate::sys;
use crate::text::{shown, shown_name, text_of, whole};
use crate::words::by;
use std::cmp::Ordering;
use std::collections::BTreeMap;
use std::iter::repeat;
use std::path::Path;

/// The most bytes of a table.
const MOST_TABLE: usize = 64 * 1024 * 1024;

/// What a table in a file must be: its rows and columns, its names, and what its elements may be.
pub struct Shape<'a> {
    pub path: &'a Path,
    pub rows: u32,
    pub columns: u32,
    pub names: Names,
    pub modulus: u32,
    pub signed: bool,
}

/// A table: its elements row by row, and its names; a list of names is empty where there are none.
pub struct Table {
    pub columns: usize,
    pub elements: Vec<u32>,
    pub row_names: Vec<String>,
    pub column_names: Vec<String>,
}

impl Table {
    /// The table as a matrix.
    pub fn matrix(&self) -> Matrix<'_> {
        Matrix {
            columns: self.columns,
            elements: &self.elements,
        }
    }

    /// The table with rows and columns exchanged.
    pub fn transposed(self) -> Table {
        let width = self.columns.max(1);
        let column = |at: usize| self.elements.iter().skip(at).step_by(width).copied();
        Table {
            columns: self.elements.len() / width,
            elements: (0..self.columns).flat_map(column).collect(),
            row_names: self.column_names,
            column_names: self.row_names,
        }
    }
}

/// A table that is being read.
struct Reader<'a> {
    file: &'a str,
    shape: &'a Shape<'a>,
    cells: Cells<'a>,
}

/// Reads a table.
pub fn read(shape: &Shape) -> Done<Table> {
    let file = shown(shape.path);
    let text = text_of(files::read(shape.path, MOST_TABLE)?, &file)?;
    let mut reader = Reader {
        file: &file,
        shape,
        cells: Cells::of(&text),
    };
    let column_names = reader.column_names()?;
    let (row_names, elements) = reader.rows()?;
    reader.end()?;
    Ok(Table {
        columns: length(shape.columns),
        elements,
        row_names,
        column_names,
    })
}

impl<'a> Reader<'a> {
    /// A fault at a place.
    fn fault_at(&self, line: usize, column: usize, why: &str) -> Fault {
        let file = self.file;
        refused(format!("{file}, line {line}, column {column}: {why}"))
    }

    /// A fault at a cell.
    fn fault(&self, cell: &Cell, why: &str) -> Fault {
        self.fault_at(cell.line, cell.column, why)
    }

    /// How many cells a line must have.
    fn width(&self) -> usize {
        length(self.shape.columns).saturating_add(usize::from(self.shape.names.rows))
    }

    /// The cells of the next line, as many as there must be; none at the end of the text.
    fn line(&mut self, hint: &str) -> Done<Option<Vec<Cell<'a>>>> {
        let (line, width) = (self.cells.line(), self.width());
        let row = self.cells.row(width);
        let row = row.map_err(|Wrong { line, column, why }| self.fault_at(line, column, why))?;
        let count = row.as_ref().map_or(width, Vec::len);
        let found = match count.cmp(&width) {
            Ordering::Equal => return Ok(row),
            Ordering::Less => format!("{count} of {width} cells"),
            Ordering::Greater => format!("more than {width} cells"),
        };
        let file = self.file;
        Err(refused(format!("{file}, line {line}: {found}{hint}")))
    }

    /// The line of column names, where the table has one. Before them stands a cell that means
    /// nothing, where the table has row names, too.
    fn column_names(&mut self) -> Done<Vec<String>> {
        if !self.shape.names.columns {
            return Ok(Vec::new());
        }
        let hint = match self.shape.names.rows {
            true => "; expected one above the row names, which may be empty, and a name a column",
            false => "; expected a name a column",
        };
        let cells = self.line(hint)?.unwrap_or_default();
        let corner = usize::from(self.shape.names.rows);
        self.distinct(cells.into_iter().skip(corner))
    }

    /// Names, each given once and none of them empty.
    fn distinct(&self, cells: impl Iterator<Item = Cell<'a>>) -> Done<Vec<String>> {
        let mut known: BTreeMap<String, (usize, usize)> = BTreeMap::new();
        let mut names = Vec::new();
        for cell in cells {
            let name = cell.text.to_string();
            if name.trim().is_empty() {
                return Err(self.fault(&cell, "an empty cell; expected a name"));
            }
            if self.cells.by_blanks() && self.width() > 1 && !cell.quoted {
                let why = "with blanks between cells a name must stand in quotes, or use tabs";
                return Err(self.fault(&cell, why));
            }
            let place = (cell.line, cell.column);
            if let Some((line, column)) = known.insert(name.clone(), place) {
                let name = shown_name(&name);
                let first = format!("first in line {line}, column {column}");
                let why = format!("the name {name} is given twice, {first}");
                return Err(self.fault(&cell, &why));
            }
            names.push(name);
        }
        Ok(names)
    }

    /// The rows: their names, and all elements.
    fn rows(&mut self) -> Done<(Vec<String>, Vec<u32>)> {
        let mut names = Vec::new();
        let mut elements = Vec::new();
        for before in 0..self.shape.rows {
            let mut cells = self.row(before)?.into_iter();
            names.extend(cells.by_ref().take(usize::from(self.shape.names.rows)));
            let row: Done<Vec<u32>> = cells.map(|cell| self.element(&cell)).collect();
            elements.extend(row?);
        }
        Ok((self.distinct(names.into_iter())?, elements))
    }

    /// The cells of a row; so many rows stand before it.
    fn row(&mut self, before: u32) -> Done<Vec<Cell<'a>>> {
        let row = self.line("")?;
        row.ok_or_else(|| {
            let (file, rows) = (self.file, self.shape.rows);
            let names = match self.shape.names.columns {
                true => " after the line of names",
                false => "",
            };
            refused(format!("{file}: rows: {before}, expected {rows}{names}"))
        })
    }

    /// Nothing but empty lines comes after the last row.
    fn end(&mut self) -> Done<()> {
        let rows = self.shape.rows;
        let more = format!("a row more than the {rows} that are expected");
        loop {
            let line = self.cells.line();
            match self.cells.row(1) {
                Ok(None) => return Ok(()),
                Ok(Some(row)) if is_empty_line(&row) => {}
                _ => return Err(refused(format!("{}, line {line}: {more}", self.file))),
            }
        }
    }

    /// The element in a cell; blanks around its digits mean nothing.
    fn element(&self, cell: &Cell) -> Done<u32> {
        let text = cell.text.trim_matches(' ');
        self.value(text).map_err(|why| self.fault(cell, &why))
    }

    /// The element that a text stands for, or what is wrong with it.
    fn value(&self, text: &str) -> Result<u32, String> {
        if text.is_empty() {
            return Err("an empty cell; nothing is filled in".to_string());
        }
        let digits = text.strip_prefix('-').unwrap_or(text);
        let below = digits.len() < text.len();
        let size = whole(digits).map_err(|wrong| format!("{} {wrong}", shown_name(text)))?;
        if below && size == 0 {
            return Err(format!("{} has a sign", shown_name(text)));
        }
        match (self.shape.signed, below) {
            (true, _) => self.signed_element(text, size, below),
            (false, true) => Err(format!("{text} is below 0, which needs --signed")),
            (false, false) => self.plain_element(size),
        }
    }

    /// The element of a number as it is. The library judges it by reading it; a number that no word
    /// holds is above every prime, as the largest word is.
    fn plain_element(&self, size: u64) -> Result<u32, String> {
        let element = u32::try_from(size).unwrap_or(u32::MAX);
        let read = sys::signed(self.shape.modulus, element);
        read.map(|_| element).map_err(|number| {
            let prime = primes::prime_of(self.shape.modulus).unwrap_or_default();
            format!("{size}: {} {prime}", by(number))
        })
    }

    /// The element of a number by its signed reading.
    fn signed_element(&self, text: &str, size: u64, below: bool) -> Result<u32, String> {
        let size = i64::try_from(size).unwrap_or(i64::MAX);
        let value = if below { -size } else { size };
        sys::element(self.shape.modulus, value).map_err(|number| {
            let prime = primes::prime_of(self.shape.modulus).unwrap_or_default();
            let most = primes::whole(prime, true);
            format!("{text}: {}, -{most} to {most}", by(number))
        })
    }
}

/// Nothing stands in a line.
fn is_empty_line(row: &[Cell]) -> bool {
    let nothing = |cell: &Cell| !cell.quoted && cell.text.trim().is_empty();
    row.len() == 1 && row.iter().all(nothing)
}

/// A's columns and B's rows have the same names in the same order, where both have names.
pub fn same_markers(a: (&Table, &Path), b: (&Table, &Path)) -> Done<()> {
    let ((a, a_path), (b, b_path)) = (a, b);
    let mut pairs = a.column_names.iter().zip(&b.row_names).enumerate();
    match pairs.find(|(_, (ours, theirs))| ours != theirs) {
        None => Ok(()),
        Some((before, (ours, theirs))) => Err(refused(format!(
            "marker {} is {} in {} and {} in {}: both must have the same markers in one order",
            before + 1,
            shown_name(ours),
            shown(a_path),
            shown_name(theirs),
            shown(b_path)
        ))),
    }
}

/// A name as a cell; in quotes where it could be read otherwise. `alone` where no tab stands in its
/// line, so that its letters could be taken for a separator.
fn name_cell(name: &str, alone: bool) -> String {
    let unlike = |letter| matches!(letter, '\t' | '"' | '\n' | '\r');
    let separates = |letter| matches!(letter, ';' | ',' | ' ');
    if name.contains(unlike) || alone && name.contains(separates) {
        return format!("\"{}\"", name.replace('"', "\"\""));
    }
    name.to_string()
}

/// A table as text: a line a row, a tab between two cells, names where there are any.
pub fn written(
    entries: &[i64],
    columns: usize,
    row_names: &[String],
    column_names: &[String],
) -> String {
    let alone = columns == 1 && row_names.is_empty();
    let mut text = heading(row_names, column_names, alone);
    let names = row_names.iter().map(Some).chain(repeat(None));
    for (row, name) in entries.chunks(columns.max(1)).zip(names) {
        let name = name.map(|name| name_cell(name, false));
        let numbers = row.iter().map(i64::to_string);
        let cells: Vec<String> = name.into_iter().chain(numbers).collect();
        text.push_str(&cells.join("\t"));
        text.push('\n');
    }
    text
}

/// The line of column names, with an empty cell before them where rows have names, too.
fn heading(row_names: &[String], column_names: &[String], alone: bool) -> String {
    if column_names.is_empty() {
        return String::new();
    }
    let corner = if row_names.is_empty() { "" } else { "\t" };
    let cells: Vec<String> = column_names
        .iter()
        .map(|name| name_cell(name, alone))
        .collect();
    format!("{corner}{}\n", cells.join("\t"))
}
