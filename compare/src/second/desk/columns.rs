//! Points to three places or four, and columns of entries.

use std::fmt::Display;

use crate::second::{Table, Total};

/// These grains in points to three places: the nearest thousandth, halves away
/// from zero, and no minus before what rounds to zero.
pub fn points(table: &Table, grains: i64) -> String {
    let grain = i128::from(table.grains);
    let doubled = 2 * 1_000 * i128::from(grains).abs();
    let thousandths = (doubled + grain) / (2 * grain);
    let minus = if grains < 0 && thousandths > 0 {
        "-"
    } else {
        ""
    };
    let (whole, places) = (thousandths / 1_000, thousandths % 1_000);
    format!("{minus}{whole}.{places:03}")
}

/// These thousandths, which are not below zero, in points.
pub fn listed(thousandths: i64) -> String {
    format!("{}.{:03}", thousandths / 1_000, thousandths % 1_000)
}

/// What a decision loses on average, in points to four places: the nearest, halves
/// up. None where there are no decisions.
pub fn average(total: Total) -> Option<String> {
    if total.decisions == 0 {
        return None;
    }
    let exact = 10 * total.sum;
    let (whole, rest) = (exact / total.decisions, exact % total.decisions);
    let nearest = whole + i64::from(2 * rest >= total.decisions);
    Some(format!("{}.{:04}", nearest / 10_000, nearest % 10_000))
}

/// A column; its entries stand in it as they are justified.
pub struct Column {
    heading: String,
    entries: Vec<String>,
}

impl Column {
    /// Left-justified, and so is its heading.
    pub fn of_words(heading: &str, entries: Vec<String>) -> Column {
        let width = width(heading, &entries);
        let justified = |entry: &str| format!("{entry:<width$}");
        Column {
            heading: justified(heading),
            entries: entries.iter().map(|entry| justified(entry)).collect(),
        }
    }

    /// Right-justified, and so is its heading.
    pub fn of_numbers(heading: &str, numbers: impl Iterator<Item = impl Display>) -> Column {
        let entries: Vec<String> = numbers.map(|number| number.to_string()).collect();
        let width = width(heading, &entries);
        let justified = |entry: &str| format!("{entry:>width$}");
        Column {
            heading: justified(heading),
            entries: entries.iter().map(|entry| justified(entry)).collect(),
        }
    }

    /// Points right-justified among themselves, a blank, and grains; the heading
    /// is left-justified.
    pub fn of_amounts(heading: &str, table: &Table, grains: &[i64]) -> Column {
        let points: Vec<String> = grains.iter().map(|&grains| points(table, grains)).collect();
        let width = width("", &points);
        let amounts = points.iter().zip(grains);
        let written = |(points, grains)| format!("{points:>width$} ({grains}g)");
        Column::of_words(heading, amounts.map(written).collect())
    }
}

/// The columns that the widest of these has.
fn width(heading: &str, entries: &[String]) -> usize {
    let widths = entries.iter().map(|entry| entry.chars().count());
    widths.fold(heading.chars().count(), usize::max)
}

/// The headings and then each row of entries, columns two blanks apart.
pub fn side_by_side(columns: &[Column]) -> String {
    let headings = columns.iter().map(|column| column.heading.as_str());
    let mut text = line(headings.collect());
    for row in 0..columns[0].entries.len() {
        let entries = columns.iter().map(|column| column.entries[row].as_str());
        text += &line(entries.collect());
    }
    text
}

fn line(entries: Vec<&str>) -> String {
    format!("{}\n", entries.join("  ").trim_end())
}
