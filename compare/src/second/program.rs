//! The margin program: what it writes for what it reads.

use super::read::{field, read};
use super::search::search;
use super::table::*;

/// Columns of the margin, which stands alone in the first line.
const MARGIN: usize = 14;

/// What the program writes where this stands on its standard input.
pub fn output(input: &[u8]) -> String {
    match answer(input) {
        Ok(answer) => answer,
        Err(refusal) => {
            line("refuse", i64::from(refusal.number)) + &line("line", refusal.line as i64)
        }
    }
}

fn answer(input: &[u8]) -> Result<String, Refusal> {
    let (margin, text) = input.split_at(input.len().min(MARGIN + 1));
    let table = read(text)?;
    let margin = self::margin(margin)?;
    let mut leaves = vec![0; table.leaves];
    let found = search(&table, margin, &mut leaves)?;

    let play = found.play.map_or(0, |play| {
        let up_to_it = &table.nodes[..=play];
        let children = up_to_it.iter().filter(|node| node.parent == Some(0));
        children.count()
    });
    let mut answer = line("low", found.low);
    answer += &line("high", found.high);
    answer += &line("grain", table.grains);
    answer += &line("play", play as i64);
    answer += &line("leaves", found.read as i64);
    for &leaf in &leaves[..found.read] {
        answer += &line("leaf", i64::from(leaf));
    }
    Ok(answer)
}

/// Reads the margin's line. Whether the margin is in range, the search says.
fn margin(line: &[u8]) -> Result<i64, Refusal> {
    let written = match line.split_last() {
        Some((b'\n', columns)) if columns.len() == MARGIN => field(columns),
        _ => Ok(None),
    };
    written.ok().flatten().ok_or(Refusal {
        number: 12,
        line: 0,
    })
}

/// A line of the output: a word left-justified in 6 columns, and a number
/// right-justified in 15.
fn line(word: &str, number: i64) -> String {
    format!("{word:<6}{number:>15}\n")
}
