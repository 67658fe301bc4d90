//! The index of ends, and the search that is lent one (document 02, Item 14): refusals 11
//! and 22.

use super::search::{search_watched, Bounds, Found, Terms};
use super::table::*;

/// The lowest and the highest utility under each node, in points. A leaf has its own
/// utility here, which is no part of the index.
///
/// The nodes are closed from the last to the first: all nodes under a node come after it.
pub fn ends_under(table: &Table) -> Vec<Bounds> {
    let none = Bounds {
        low: i64::MAX,
        high: i64::MIN,
    };
    let mut ends = vec![none; table.nodes.len()];
    for (i, node) in table.nodes.iter().enumerate().rev() {
        if let Some(utility) = node.utility {
            ends[i] = Bounds {
                low: utility,
                high: utility,
            };
        }
        let Bounds { low, high } = ends[i];
        if let Some(parent) = node.parent {
            let above = &mut ends[parent];
            above.low = above.low.min(low);
            above.high = above.high.max(high);
        }
    }
    ends
}

/// Builds the table's index. Each list must have an entry for every node; those of leaves
/// keep what they held.
pub fn index(table: &Table, lows: &mut [i64], highs: &mut [i64]) -> Result<(), Refusal> {
    if lows.len().min(highs.len()) < table.nodes.len() {
        return Err(Refusal {
            number: 11,
            line: 0,
        });
    }
    for (node, ends) in inner_ends(table) {
        lows[node] = ends.low;
        highs[node] = ends.high;
    }
    Ok(())
}

/// Whether this is the table's own index, whatever its entries for leaves.
pub fn is_index(table: &Table, lows: &[i64], highs: &[i64]) -> bool {
    let long = lows.len().min(highs.len()) >= table.nodes.len();
    let own = |(node, ends): (usize, Bounds)| (lows[node], highs[node]) == (ends.low, ends.high);
    long && inner_ends(table).all(own)
}

/// Searches a table to within a margin by its own ends, where the lists lent are its index;
/// otherwise as `search`.
pub fn search_indexed(
    table: &Table,
    margin: i64,
    (lows, highs): (&[i64], &[i64]),
    leaves: &mut [u16],
) -> Result<Found, Refusal> {
    if !is_index(table, lows, highs) {
        return Err(Refusal {
            number: 22,
            line: 0,
        });
    }
    search_watched(table, Terms::indexed(margin), leaves, |_| {})
}

/// The nodes with children, and their entries.
fn inner_ends(table: &Table) -> impl Iterator<Item = (usize, Bounds)> + '_ {
    let ends = ends_under(table).into_iter().enumerate();
    ends.filter(|(node, _)| table.nodes[*node].kind != Kind::Leaf)
}
