//! Reading a table.

use std::fmt;

use crate::refusal::{Refusal, answered};
use crate::{MOST_NODES, raw};

/// An accepted table.
#[derive(Clone, Debug, PartialEq, Eq)]
#[non_exhaustive]
pub struct Table {
    /// T. The weights under each C sum to it, or to the second total where there is
    /// one.
    pub total: i64,
    /// The second total; `None` where the table has none.
    pub second: Option<i64>,
    /// The lowest end, in points.
    pub lowest: i64,
    /// The highest end, in points.
    pub highest: i64,
    /// K, the most C on a path, whichever total their weights sum to.
    pub chances: i64,
    /// G, the grains in one point: T to the power K. With a second total it is each
    /// total to the power of the most C of it on a path, multiplied.
    pub per_point: i64,
    /// The number of leaves.
    pub leaves: usize,
    /// The nodes by number, the root first.
    pub nodes: Vec<Node>,
}

/// A node of a table.
#[derive(Clone, Copy, Debug, PartialEq, Eq)]
#[non_exhaustive]
pub struct Node {
    /// Who moves here.
    pub kind: Kind,
    /// The node above; none for the root.
    pub parent: Option<usize>,
    /// The weight, under a C.
    pub weight: Option<i64>,
    /// The utility in points, at a leaf.
    pub utility: Option<i64>,
    /// One past the last node under this one.
    pub stop: usize,
}

/// Who moves at a node.
#[derive(Clone, Copy, Debug, PartialEq, Eq)]
pub enum Kind {
    /// MAX, who wants a high worth: M.
    Max,
    /// MIN, who wants a low worth: N.
    Min,
    /// The dice: C.
    Chance,
    /// Nobody, it is a leaf: L.
    Leaf,
}

impl Kind {
    /// The kind that the engine writes as this number.
    pub(crate) fn of(number: u8) -> Kind {
        match number {
            0 => Kind::Leaf,
            1 => Kind::Max,
            2 => Kind::Min,
            _ => Kind::Chance,
        }
    }
}

impl fmt::Display for Kind {
    /// The letter that stands for it in a table.
    fn fmt(&self, f: &mut fmt::Formatter) -> fmt::Result {
        f.write_str(match self {
            Kind::Max => "M",
            Kind::Min => "N",
            Kind::Chance => "C",
            Kind::Leaf => "L",
        })
    }
}

impl Table {
    /// The node numbers of a node's children, in the order of their lines.
    ///
    /// # Panics
    ///
    /// Where the table has no such node.
    pub fn children(&self, node: usize) -> impl Iterator<Item = usize> + '_ {
        let stop = self.nodes[node].stop;
        let below = move |child: usize| (child < stop).then_some(child);
        std::iter::successors(below(node + 1), move |&child| below(self.nodes[child].stop))
    }

    /// What the weights under a node sum to: at a C T or the second total, at any other
    /// node 0. A child's chance is its weight over this.
    ///
    /// # Panics
    ///
    /// Where the table has no such node.
    pub fn sum(&self, node: usize) -> i64 {
        let weights = self
            .children(node)
            .filter_map(|child| self.nodes[child].weight);
        weights.sum()
    }
}

/// Reads a table. A number may have zeros before it, after a minus if it is below 0; the
/// table is the same as with blanks. Refuses 1 to 10 and 18.
///
/// ```
/// use margin_engine::{Kind, read};
///
/// let text = std::fs::read("../examples/b.txt")?;
/// let table = read(&text)?;
/// assert_eq!((table.nodes.len(), table.leaves), (5, 3));
/// assert_eq!((table.lowest, table.highest), (0, 8));
/// assert_eq!((table.total, table.per_point), (4, 4));
/// assert_eq!(table.children(0).collect::<Vec<_>>(), [1, 2]);
///
/// let roll = table.nodes[3];
/// assert_eq!((roll.kind, roll.parent), (Kind::Leaf, Some(2)));
/// assert_eq!((roll.weight, roll.utility), (Some(3), Some(2)));
///
/// // Fifteen first rolls, weight 1 each, and after each play all 21 rolls.
/// let text = std::fs::read("../examples/first-roll.txt")?;
/// let table = read(&text)?;
/// assert_eq!((table.total, table.second), (36, Some(15)));
/// assert_eq!((table.chances, table.per_point), (2, 36 * 15));
/// assert_eq!((table.sum(0), table.children(0).count()), (15, 15));
///
/// // Blanks or zeros before the numbers.
/// let blanks = std::fs::read("../examples/bar.txt")?;
/// let zeros = std::fs::read("../examples/bar-zeros.txt")?;
/// assert_eq!(read(&zeros)?, read(&blanks)?);
/// # Ok::<(), Box<dyn std::error::Error>>(())
/// ```
pub fn read(text: &[u8]) -> Result<Table, Refusal> {
    let mut numbers = [0; 8];
    let mut kinds = [0; MOST_NODES];
    let mut stops = [0; MOST_NODES];
    let mut weights = [0; MOST_NODES];
    let mut heights = [0; MOST_NODES];
    answered(raw::read(
        text,
        &mut numbers,
        &mut kinds,
        &mut stops,
        &mut weights,
        &mut heights,
    ))?;

    let [
        count,
        total,
        lowest,
        highest,
        chances,
        per_point,
        leaves,
        second,
    ] = numbers;
    let mut nodes: Vec<Node> = Vec::with_capacity(count as usize);
    for i in 0..count as usize {
        let kind = Kind::of(kinds[i]);
        // Depth first, the parent is the node before, or the nearest above that
        // whose run of lines is not over.
        let mut parent = i.checked_sub(1);
        while let Some(above) = parent.filter(|&above| nodes[above].stop <= i) {
            parent = nodes[above].parent;
        }
        nodes.push(Node {
            kind,
            parent,
            weight: (weights[i] > 0).then_some(i64::from(weights[i])),
            utility: (kind == Kind::Leaf).then_some(lowest + i64::from(heights[i])),
            stop: usize::from(stops[i]),
        });
    }
    Ok(Table {
        total,
        second: (second > 0).then_some(second),
        lowest,
        highest,
        chances,
        per_point,
        leaves: leaves as usize,
        nodes,
    })
}
