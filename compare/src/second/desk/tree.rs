//! The tree, drawn: a line for each node.

use super::letter;
use crate::second::{Node, Table};

/// The lines of the tree, in the sequence of the nodes.
pub fn lines(table: &Table) -> Vec<String> {
    // What stands before the branches to the children of each node so far.
    let mut stems: Vec<String> = Vec::new();
    let mut lines = Vec::new();
    for (number, node) in table.nodes.iter().enumerate() {
        let (branch, stem) = match node.parent {
            None => (String::new(), String::new()),
            Some(parent) => {
                let last = node.stop == table.nodes[parent].stop;
                let (branch, stem) = if last {
                    ("└── ", "    ")
                } else {
                    ("├── ", "│   ")
                };
                let before = &stems[parent];
                (format!("{before}{branch}"), format!("{before}{stem}"))
            }
        };
        lines.push(branch + &label(table, number, node));
        stems.push(stem);
    }
    lines
}

fn label(table: &Table, number: usize, node: &Node) -> String {
    let mut label = format!("{number} {}", letter(node.kind));
    if let (Some(weight), Some(parent)) = (node.weight, node.parent) {
        label = format!("{weight}/{} {label}", table.nodes[parent].sum);
    }
    if let Some(utility) = node.utility {
        label += &format!(" {utility}");
    }
    label
}
