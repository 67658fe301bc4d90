//! What the tests share: for each call, how the proved engine is held to the
//! second one, or to an answer that is known; and the count of what came of the
//! texts. Everything here fails the test where something differs.

pub mod budget;
pub mod desk;
pub mod indexed;
pub mod judging;
pub mod leaves;
pub mod numbers;
pub mod padded;
pub mod reading;
pub mod recipe;
pub mod reporting;
pub mod rolling;
pub mod searching;
pub mod seen;
pub mod sums;
pub mod tally;
pub mod ties;
pub mod totals;
pub mod turning;
pub mod worth;

use crate::second::{Kind, Mark, Refusal, Table};

/// What the proved engine must return: 0, or the refusal's line and number.
pub fn code<T>(answer: &Result<T, Refusal>) -> u64 {
    match answer {
        Ok(_) => 0,
        Err(refusal) => 100 * refusal.line as u64 + u64::from(refusal.number),
    }
}

/// The number that the proved engine writes for a kind.
pub fn kind_number(kind: Kind) -> u8 {
    match kind {
        Kind::Leaf => 0,
        Kind::Max => 1,
        Kind::Min => 2,
        Kind::Chance => 3,
    }
}

/// The number that the proved engine writes for a mark, or for none.
pub fn mark_number(mark: Option<Mark>) -> u8 {
    match mark {
        None => 0,
        Some(Mark::NoMark) => 1,
        Some(Mark::Doubtful) => 2,
        Some(Mark::Error) => 3,
        Some(Mark::Blunder) => 4,
    }
}

/// From the lowest end to the highest, in grains.
pub fn span(table: &Table) -> i64 {
    (table.highest - table.lowest) * table.grains
}

/// How many children of a root M or N are worth as much as it; 0 elsewhere.
pub fn best_plays(table: &Table, worths: &[i64]) -> usize {
    let nodes = table.nodes.iter().zip(worths);
    let best = nodes.filter(|(node, worth)| node.parent == Some(0) && **worth == worths[0]);
    match table.nodes[0].kind {
        Kind::Max | Kind::Min => best.count(),
        Kind::Chance | Kind::Leaf => 0,
    }
}
