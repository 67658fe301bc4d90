//! The decoded table, and the refusal given in its place.

/// Bytes of a line: 24 characters and a newline.
pub const LINE: usize = 25;

/// The most nodes a table has.
pub const MOST_NODES: usize = 1_024;

/// The greatest total T of a chance node's weights, the first or the second.
pub const MOST_TOTAL: i64 = 64;

/// The greatest grain count (document 02, Item 5).
pub const MOST_GRAINS: i64 = 16_777_216;

/// The ends lie between this and its negative.
pub const FARTHEST_END: i64 = 1_000_000;

/// The most nodes on a path from the root, the root counted.
pub const LONGEST_PATH: usize = 64;

/// The most chance nodes on a path from the root.
pub const MOST_CHANCES: usize = 4;

#[derive(Clone, Copy, Debug, PartialEq, Eq)]
pub enum Kind {
    Max,
    Min,
    Chance,
    Leaf,
}

/// One node line.
#[derive(Clone, Debug, PartialEq, Eq)]
pub struct Node {
    pub kind: Kind,
    pub parent: Option<usize>,
    pub weight: Option<i64>,
    pub utility: Option<i64>,
    /// What the weights of its children sum to: a chance node's own T. 0 at other nodes.
    pub sum: i64,
    /// One past the last node of this node's run: itself and all under it.
    pub stop: usize,
}

/// An accepted table.
#[derive(Clone, Debug, PartialEq, Eq)]
pub struct Table {
    /// The first total, in columns 7-8, or 5-8 where there is no second.
    pub total: i64,
    /// The second, in columns 5-6 (document 02, Item 5); none where they are blank or 0.
    pub second: Option<i64>,
    pub lowest: i64,
    pub highest: i64,
    /// In line order, which is depth-first order.
    pub nodes: Vec<Node>,
    /// K, the greatest number of chance nodes on any path.
    pub chances: u32,
    /// G, the grains in one point: each total to the power of its greatest number of
    /// uses on a path, multiplied.
    pub grains: i64,
    /// The number of leaves.
    pub leaves: usize,
}

impl Table {
    /// The larger of the two totals, or the only one.
    pub fn larger_total(&self) -> i64 {
        self.total.max(self.second.unwrap_or(self.total))
    }

    /// The smaller likewise.
    pub fn smaller_total(&self) -> i64 {
        self.total.min(self.second.unwrap_or(self.total))
    }
}

/// How many children the root has.
pub fn root_children(table: &Table) -> usize {
    let nodes = table.nodes.iter();
    nodes.filter(|node| node.parent == Some(0)).count()
}

/// A refused table: which refusal, and at which line. The header is line 0, and
/// node i is line i + 1.
#[derive(Clone, Copy, Debug, PartialEq, Eq)]
pub struct Refusal {
    pub number: u8,
    pub line: usize,
}
