//! Columns of text, numbers and amounts, two blanks apart.

use crate::output::{Amount, Page};

/// An entry of a column, as it is printed. All entries of a column are of one sort.
pub enum Cell {
    /// Left-justified.
    Text(String),
    /// Right-justified.
    Number(String),
    /// The points right-justified, the grains after them left-justified.
    Amount { points: String, beside: String },
}

impl Cell {
    pub fn number(number: usize) -> Cell {
        Cell::Number(number.to_string())
    }

    pub fn amount(amount: Amount) -> Cell {
        Cell::Amount {
            points: amount.points(),
            beside: amount.beside(),
        }
    }
}

/// A line of a grid.
pub struct Row {
    pub cells: Vec<Cell>,
    /// Whether it stands out on a terminal.
    pub bold: bool,
}

/// How wide a column is.
#[derive(Clone, Copy)]
struct Widths {
    /// Of the points, where the column has amounts.
    points: usize,
    /// Of the grains beside them.
    beside: usize,
    /// Of the whole column.
    all: usize,
}

/// Prints the rows, of which there is at least one, under these headings.
pub fn lay(page: &mut Page, headings: &[&str], rows: &[Row]) {
    let mut columns: Vec<Widths> = headings.iter().map(|head| Widths::of(head)).collect();
    for row in rows {
        for (widths, cell) in columns.iter_mut().zip(&row.cells) {
            widths.fit(cell);
        }
    }

    let heads = headings.iter().zip(&rows[0].cells);
    let heads = heads.map(|(head, below)| match below {
        Cell::Number(_) => Cell::Number(head.to_string()),
        _ => Cell::Text(head.to_string()),
    });
    page.dim(&line(&columns, &heads.collect::<Vec<_>>()));
    page.plain("\n");
    for row in rows {
        let line = line(&columns, &row.cells);
        match row.bold {
            true => page.bold(&line),
            false => page.plain(&line),
        }
        page.plain("\n");
    }
}

fn line(columns: &[Widths], cells: &[Cell]) -> String {
    let cells = columns.iter().zip(cells);
    let cells: Vec<String> = cells.map(|(widths, cell)| widths.justify(cell)).collect();
    cells.join("  ").trim_end().to_string()
}

impl Widths {
    fn of(heading: &str) -> Widths {
        Widths {
            points: 0,
            beside: 0,
            all: heading.len(),
        }
    }

    /// Makes room for an entry.
    fn fit(&mut self, cell: &Cell) {
        let width = match cell {
            Cell::Text(text) | Cell::Number(text) => text.chars().count(),
            Cell::Amount { points, beside } => {
                self.points = self.points.max(points.len());
                self.beside = self.beside.max(beside.len());
                self.points + 1 + self.beside
            }
        };
        self.all = self.all.max(width);
    }

    fn justify(&self, cell: &Cell) -> String {
        let width = self.all;
        match cell {
            Cell::Text(text) => format!("{text:<width$}"),
            Cell::Number(text) => format!("{text:>width$}"),
            Cell::Amount { points, beside } => {
                let amount = format!("{points:>0$} {beside}", self.points);
                format!("{amount:<width$}")
            }
        }
    }
}
