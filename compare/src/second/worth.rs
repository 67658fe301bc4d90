//! The exact worth of a table.

use super::table::*;

/// The exact worth of the root, in grains.
pub fn worth(table: &Table) -> i64 {
    worths(table)[0]
}

/// The exact worth of every node, in grains.
///
/// The nodes are closed from the last to the first. All nodes under a node come
/// after it, so its entry is complete when its turn comes, and then goes into
/// its parent's. No entry leaves the range of i64: even a sum that is not yet
/// divided is at most 1,000,000 times 64 to the 5th.
pub fn worths(table: &Table) -> Vec<i64> {
    let mut entries: Vec<i64> = table
        .nodes
        .iter()
        .map(|node| match node.kind {
            Kind::Max => i64::MIN,
            Kind::Min => i64::MAX,
            Kind::Chance => 0,
            Kind::Leaf => node.utility.expect("a leaf has a utility") * table.grains,
        })
        .collect();

    for (i, node) in table.nodes.iter().enumerate().rev() {
        if node.kind == Kind::Chance {
            let sum = entries[i];
            assert_eq!(sum % node.sum, 0, "node {i}: T leaves a remainder");
            entries[i] = sum / node.sum;
        }
        let Some(parent) = node.parent else {
            continue;
        };
        let worth = entries[i];
        let entry = &mut entries[parent];
        match table.nodes[parent].kind {
            Kind::Max => *entry = worth.max(*entry),
            Kind::Min => *entry = worth.min(*entry),
            Kind::Chance => *entry += node.weight.expect("a child of a C has a weight") * worth,
            Kind::Leaf => unreachable!("node {i} is under a leaf"),
        }
    }
    entries
}
