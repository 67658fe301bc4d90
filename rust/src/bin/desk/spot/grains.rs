//! How the grain count of a table comes to be too great: 18.

use super::{Line, Nodes, SECOND, Spot, TOTAL_AFTER};
use crate::output::grouped;

/// The fault of a table whose lines are all right and whose grain count is not. It has
/// two totals, as one alone comes to no such count.
pub fn too_many(nodes: &Nodes) -> Spot {
    let (total, second) = nodes.totals();
    let [first, second] = [total, second.unwrap_or(1)].map(|total| Uses::of(nodes, total));
    let grains = first.grains() * second.grains();
    Spot {
        line: Line::of(0, nodes.header),
        columns: vec![SECOND, TOTAL_AFTER],
        detail: format!(
            "{} is used {} on the path to node {}, {} {} on that to node {}, so G would be {}",
            first.total,
            times(first.most),
            first.last,
            second.total,
            times(second.most),
            second.last,
            grouped(grains)
        ),
        ..Spot::default()
    }
}

/// How often a total is used on a path, where that is most often.
struct Uses {
    total: i64,
    most: u32,
    /// The last C of it on the first such path.
    last: usize,
}

impl Uses {
    fn of(nodes: &Nodes, total: i64) -> Uses {
        let sums = nodes.sums();
        // Of each node: the C of this total on the path to it, itself counted.
        let mut uses: Vec<u32> = Vec::with_capacity(sums.len());
        let (mut most, mut last) = (0, 0);
        for (node, sum) in sums.iter().enumerate() {
            let above = nodes.parent(node).map_or(0, |parent| uses[parent]);
            let here = above + u32::from(*sum == total);
            if here > most {
                (most, last) = (here, node);
            }
            uses.push(here);
        }
        Uses { total, most, last }
    }

    /// The total to the power of its uses.
    fn grains(&self) -> i64 {
        self.total.pow(self.most)
    }
}

fn times(count: u32) -> String {
    match count {
        1 => "once".to_string(),
        2 => "twice".to_string(),
        _ => format!("{count} times"),
    }
}
