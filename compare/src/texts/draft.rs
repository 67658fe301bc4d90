//! A table before it is written out: any number may stand in any place that is
//! wide enough for it, so a draft may be wrong in every way but ill-written.

use std::io::Write;

use crate::second::LINE;

pub struct Draft {
    pub count: i64,
    /// What the weights under a C may sum to: one total, or the first and the second
    /// (document 02, Item 5).
    pub totals: Vec<i64>,
    pub lowest: i64,
    pub highest: i64,
    pub lines: Vec<Line>,
}

/// One node line; `None` is a blank field.
#[derive(Clone, Copy)]
pub struct Line {
    pub number: i64,
    pub kind: u8,
    pub parent: Option<i64>,
    pub weight: Option<i64>,
    pub utility: Option<i64>,
}

impl Draft {
    /// A draft without lines.
    pub fn new(totals: Vec<i64>, (lowest, highest): (i64, i64)) -> Draft {
        Draft {
            count: 0,
            totals,
            lowest,
            highest,
            lines: Vec::new(),
        }
    }

    /// The larger total.
    pub fn larger_total(&self) -> i64 {
        *self.totals.iter().max().expect("a total")
    }

    /// Adds a line at its place, counts it, and returns its node number.
    pub fn add(
        &mut self,
        kind: u8,
        parent: Option<i64>,
        weight: Option<i64>,
        utility: Option<i64>,
    ) -> i64 {
        let number = self.lines.len() as i64;
        self.lines.push(Line {
            number,
            kind,
            parent,
            weight,
            utility,
        });
        self.count = number + 1;
        number
    }

    pub fn text(&self) -> Vec<u8> {
        let mut text = Vec::with_capacity(LINE * (1 + self.lines.len()));
        put(&mut text, 4, Some(self.count));
        put_totals(&mut text, &self.totals);
        put(&mut text, 8, Some(self.lowest));
        put(&mut text, 8, Some(self.highest));
        text.push(b'\n');
        for line in &self.lines {
            put(&mut text, 4, Some(line.number));
            text.push(b' ');
            text.push(line.kind);
            put(&mut text, 5, line.parent);
            put(&mut text, 5, line.weight);
            put(&mut text, 8, line.utility);
            text.push(b'\n');
        }
        text
    }
}

/// Writes columns 5 to 8 of the header. A second total has columns 5-6, the first then 7-8.
fn put_totals(text: &mut Vec<u8>, totals: &[i64]) {
    match *totals {
        [total] => put(text, 4, Some(total)),
        [first, second] => {
            put(text, 2, Some(second));
            put(text, 2, Some(first));
        }
        _ => panic!("{totals:?}: there is one total or two"),
    }
}

/// Writes a field, right-justified in its columns.
fn put(text: &mut Vec<u8>, width: usize, value: Option<i64>) {
    let start = text.len();
    match value {
        Some(value) => write!(text, "{value:>width$}").expect("a Vec takes all"),
        None => text.resize(start + width, b' '),
    }
    assert_eq!(text.len(), start + width, "{value:?} in {width} columns");
}
