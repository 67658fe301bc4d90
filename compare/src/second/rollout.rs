//! Rollouts, Algorithm 4 of document 003, on tables without C: refusals 13 and 11.

use super::search::Bounds;
use super::table::*;

/// What the rollouts found.
#[derive(Clone, Copy, Debug, PartialEq, Eq)]
pub struct Rolled {
    pub worth: i64,
    /// How many leaves were read. Their node numbers stand first in the list.
    pub read: usize,
}

/// Rolls out a table until its root is closed. The store must have room for all
/// nodes of the table and gets the bounds of each, as last updated; the list must
/// have room for all leaves and gets the node number of each leaf as it is read.
/// A node of m candidates takes the one whose number, from 0, is the next byte of
/// the policy mod m; past its end, the first.
pub fn rollout(
    table: &Table,
    policy: &[u8],
    store: &mut [Bounds],
    leaves: &mut [u16],
) -> Result<Rolled, Refusal> {
    let refused = |number| Err(Refusal { number, line: 0 });
    if table.chances > 0 {
        return refused(13);
    }
    if leaves.len() < table.leaves {
        return refused(11);
    }
    let Some(store) = store.get_mut(..table.nodes.len()) else {
        return refused(11);
    };

    // Without C a point is one grain.
    store.fill(Bounds {
        low: table.lowest,
        high: table.highest,
    });
    let mut rollouts = Rollouts {
        nodes: &table.nodes,
        policy: policy.iter(),
        store,
    };
    let mut read = 0;
    while !rollouts.store[0].closed() {
        leaves[read] = rollouts.walk() as u16;
        read += 1;
    }
    Ok(Rolled {
        worth: rollouts.store[0].low,
        read,
    })
}

impl Bounds {
    fn closed(self) -> bool {
        self.low >= self.high
    }

    /// What lies within both.
    fn met_with(self, other: Bounds) -> Bounds {
        Bounds {
            low: self.low.max(other.low),
            high: self.high.min(other.high),
        }
    }
}

struct Rollouts<'a> {
    nodes: &'a [Node],
    policy: std::slice::Iter<'a, u8>,
    store: &'a mut [Bounds],
}

impl Rollouts<'_> {
    /// Walks from the root to a leaf, reads it, and updates the path. Returns the
    /// leaf.
    fn walk(&mut self) -> usize {
        let mut path = [0; LONGEST_PATH];
        let mut depth = 0;
        let mut node = 0;
        let mut window = self.store[0];
        while self.nodes[node].kind != Kind::Leaf {
            path[depth] = node;
            depth += 1;
            node = self.choose(node, window);
            window = window.met_with(self.store[node]);
        }

        let utility = self.nodes[node].utility.expect("a leaf has a utility");
        self.store[node] = Bounds {
            low: utility,
            high: utility,
        };
        for &above in path[..depth].iter().rev() {
            self.update(above);
        }
        node
    }

    /// The child to walk to from an inner node with this window.
    fn choose(&mut self, node: usize, window: Bounds) -> usize {
        let open = |child: &usize| !window.met_with(self.store[*child]).closed();
        let mut candidates = children(self.nodes, node).filter(open);
        let chosen = match self.policy.next() {
            None => candidates.next(),
            Some(&byte) => {
                let count = candidates.clone().count();
                candidates.nth(usize::from(byte) % count)
            }
        };
        chosen.expect("a node that is walked to has a candidate")
    }

    /// Takes the bounds of an inner node from those of all its children.
    fn update(&mut self, node: usize) {
        let bounds = children(self.nodes, node).map(|child| self.store[child]);
        let updated = match self.nodes[node].kind {
            Kind::Max => bounds.reduce(|one, other| Bounds {
                low: one.low.max(other.low),
                high: one.high.max(other.high),
            }),
            _ => bounds.reduce(|one, other| Bounds {
                low: one.low.min(other.low),
                high: one.high.min(other.high),
            }),
        };
        self.store[node] = updated.expect("an inner node has a child");
    }
}

/// The children of a node, in line order.
fn children(nodes: &[Node], node: usize) -> impl Iterator<Item = usize> + Clone + '_ {
    let stop = nodes[node].stop;
    let from = move |child: usize| (child < stop).then_some(child);
    std::iter::successors(from(node + 1), move |&child| from(nodes[child].stop))
}
