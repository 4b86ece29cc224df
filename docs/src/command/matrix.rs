//! Matrices of whole numbers with names, and tables as text.
//!
//!   Matrix       whole numbers row by row, with names
//!   drawn_names  names, each once
//!   times        A times B
//!   bound        how large an entry of A times B can be

use crate::sheet::random::Random;

/// Whole numbers, row by row, with names; a list of names is empty where there are none.
#[derive(Clone)]
pub struct Matrix {
    pub columns: usize,
    pub values: Vec<i64>,
    pub row_names: Vec<String>,
    pub column_names: Vec<String>,
}

/// What may stand at the end of a name: letters that must be quoted among it.
#[rustfmt::skip]
const TAILS: [&str; 12] = [
    "", "", "", " b", ", c", "; d", " \"e\"", "\tf", " \u{e9}", "\\g", " \n h", "\\u{41}",
];

/// Names, each once.
pub fn drawn_names(random: &mut Random, what: &str, count: u32) -> Vec<String> {
    (1..=count)
        .map(|i| format!("{what}{i}{}", TAILS[random.index(TAILS.len())]))
        .collect()
}

/// A number up to a size, at times below 0 where that may be.
fn drawn_value(random: &mut Random, most: u32, signed: bool) -> i64 {
    let size = i64::from(random.within(0, most));
    match signed && random.within(0, 1) == 1 {
        true => -size,
        false => size,
    }
}

/// A name in quotes.
fn quoted(name: &str) -> String {
    format!("\"{}\"", name.replace('"', "\"\""))
}

impl Matrix {
    /// A matrix without names, of numbers up to a size.
    pub fn drawn(random: &mut Random, sizes: [u32; 2], most: u32, signed: bool) -> Matrix {
        let [rows, columns] = sizes;
        let values = (0..rows * columns).map(|_| drawn_value(random, most, signed));
        Matrix {
            values: values.collect(),
            columns: columns as usize,
            row_names: Vec::new(),
            column_names: Vec::new(),
        }
    }

    /// The rows.
    fn rows(&self) -> impl Iterator<Item = &[i64]> {
        self.values.chunks(self.columns)
    }

    /// A column.
    fn column(&self, at: usize) -> impl Iterator<Item = i64> + '_ {
        self.values.iter().skip(at).step_by(self.columns).copied()
    }

    /// The matrix with rows and columns exchanged.
    pub fn transposed(&self) -> Matrix {
        Matrix {
            columns: self.values.len() / self.columns,
            values: (0..self.columns).flat_map(|at| self.column(at)).collect(),
            row_names: self.column_names.clone(),
            column_names: self.row_names.clone(),
        }
    }

    /// Which names there are, as JOB says it.
    pub fn names_word(&self) -> &'static str {
        match (self.row_names.is_empty(), self.column_names.is_empty()) {
            (true, true) => "none",
            (false, true) => "rows",
            (true, false) => "columns",
            (false, false) => "both",
        }
    }

    /// The cells of a table, line by line; above row names a corner.
    fn cells(&self, corner: &str) -> Vec<Vec<String>> {
        let corner = (!self.row_names.is_empty()).then(|| corner.to_string());
        let heading = corner.into_iter().chain(self.column_names.clone());
        let mut lines: Vec<Vec<String>> = Vec::new();
        if !self.column_names.is_empty() {
            lines.push(heading.collect());
        }
        for (i, row) in self.rows().enumerate() {
            let name = self.row_names.get(i).cloned();
            let numbers = row.iter().map(i64::to_string);
            lines.push(name.into_iter().chain(numbers).collect());
        }
        lines
    }

    /// The table as some program may have written it: with any separator and line end, with or without a
    /// mark at the front, in quotes where they must be, as names between blanks, and elsewhere by chance.
    pub fn some_text(&self, random: &mut Random) -> String {
        let separator = ["\t", ";", ",", " "][random.index(4)];
        let end = ["\n", "\r\n"][random.index(2)];
        let mark = ["", "\u{feff}"][random.index(2)];
        let is_name = |cell: &str| cell.parse::<i64>().is_err();
        let must = |cell: &str| {
            let alone = separator == " " && is_name(cell);
            alone || cell.contains(['"', '\t', ';', ',', ' ', '\n'])
        };
        let mut cell = |cell: String| match must(&cell) || random.within(0, 9) == 0 {
            true => quoted(&cell),
            false => cell,
        };
        let mut line = |cells: Vec<String>| {
            let cells: Vec<String> = cells.into_iter().map(&mut cell).collect();
            cells.join(separator) + end
        };
        let lines: String = self.cells("lot").into_iter().map(&mut line).collect();
        format!("{mark}{lines}")
    }

    /// The table as the command must write it: tabs between cells, an empty corner, and in quotes the
    /// names with a tab, a quote or a line end in them, or, in a line without tabs, with any separator.
    pub fn due_text(&self) -> String {
        let alone = self.columns == 1 && self.row_names.is_empty();
        let must = |cell: &str| {
            cell.contains(['"', '\t', '\n']) || alone && cell.contains([';', ',', ' '])
        };
        let cell = |cell: &String| match must(cell) {
            true => quoted(cell),
            false => cell.clone(),
        };
        let line = |cells: &Vec<String>| {
            let cells: Vec<String> = cells.iter().map(cell).collect();
            cells.join("\t") + "\n"
        };
        self.cells("").iter().map(line).collect()
    }
}

/// A times B, each exact entry as it is to be told, with A's row names and B's column names.
pub fn times(a: &Matrix, b: &Matrix, told: impl Fn(i128) -> i64) -> Matrix {
    let entry = |row: &[i64], at: usize| {
        let pairs = row.iter().zip(b.column(at));
        told(pairs.map(|(&x, y)| i128::from(x) * i128::from(y)).sum())
    };
    let row = |row: &[i64]| {
        (0..b.columns)
            .map(|at| entry(row, at))
            .collect::<Vec<i64>>()
    };
    Matrix {
        columns: b.columns,
        values: a.rows().flat_map(row).collect(),
        row_names: a.row_names.clone(),
        column_names: b.column_names.clone(),
    }
}

/// How large an entry of A times B can be: over A's rows the largest sum of sizes times the largest sizes
/// in B's rows.
pub fn bound(a: &Matrix, b: &Matrix) -> u128 {
    let size = |value: &i64| u128::from(value.unsigned_abs());
    let largest: Vec<u128> = b
        .rows()
        .map(|row| row.iter().map(size).max().unwrap())
        .collect();
    let sum = |row: &[i64]| row.iter().zip(&largest).map(|(x, y)| size(x) * y).sum();
    a.rows().map(sum).max().unwrap()
}
