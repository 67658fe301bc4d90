//! The judgement of the play made at the root: refusal 14. A forced play is no
//! decision (document 02, Item 2), and a play is level with the best only where
//! it loses nothing (document 02, Item 8).

use super::table::*;
use super::worth::worths;

#[derive(Clone, Copy, Debug, PartialEq, Eq)]
pub enum Judgement {
    /// There is no choice at the root: it is a C or L, or has a single child.
    NoDecision,
    /// What the play lost, in grains, and how many plays lose nothing.
    Loss { grains: i64, level: usize },
}

/// Judges the play of the root child with this number; the first has number 1.
/// Where there is no choice, every number will do.
pub fn judge(table: &Table, number: i64) -> Result<Judgement, Refusal> {
    let sign = match table.nodes[0].kind {
        Kind::Max => 1,
        Kind::Min => -1,
        Kind::Chance | Kind::Leaf => return Ok(Judgement::NoDecision),
    };
    if root_children(table) == 1 {
        return Ok(Judgement::NoDecision);
    }

    let worths = worths(table);
    let losses: Vec<i64> = table
        .nodes
        .iter()
        .zip(&worths)
        .filter(|(node, _)| node.parent == Some(0))
        .map(|(_, worth)| sign * (worths[0] - worth))
        .collect();

    let mut numbered = (1..).zip(&losses);
    let Some((_, &grains)) = numbered.find(|(child, _)| *child == number) else {
        return Err(Refusal {
            number: 14,
            line: 0,
        });
    };
    let level = losses.iter().filter(|&&loss| loss == 0).count();
    Ok(Judgement::Loss { grains, level })
}
