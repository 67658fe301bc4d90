//! A table's tree, drawn with lines.

use margin_engine::{Node, Table};

/// The tree's lines, one for each node.
pub fn lines(table: &Table) -> Vec<String> {
    let nodes = &table.nodes;
    let sums: Vec<i64> = (0..nodes.len()).map(|node| table.sum(node)).collect();
    // For each node above the one drawn, what stands below its corner.
    let mut path: Vec<&str> = Vec::new();
    let mut depths: Vec<usize> = Vec::with_capacity(nodes.len());
    let mut lines = Vec::with_capacity(nodes.len());
    for (number, node) in nodes.iter().enumerate() {
        let mut line = String::new();
        if let Some(parent) = node.parent {
            path.truncate(depths[parent]);
            line.extend(path.iter().copied());
            let last = node.stop == nodes[parent].stop;
            line += if last { "└── " } else { "├── " };
            path.push(if last { "    " } else { "│   " });
        }
        depths.push(path.len());
        line += &label(number, node, &sums);
        lines.push(line);
    }
    lines
}

/// A node in words: its chance under a C, its number, its kind, its utility. A chance is
/// of what the weights under its own C sum to.
fn label(number: usize, node: &Node, sums: &[i64]) -> String {
    let chance = node.weight.zip(node.parent);
    let weight = chance.map(|(weight, parent)| format!("{weight}/{} ", sums[parent]));
    let utility = node.utility.map(|utility| format!(" {utility}"));
    let (weight, utility) = (weight.unwrap_or_default(), utility.unwrap_or_default());
    format!("{weight}{number} {}{utility}", node.kind)
}
