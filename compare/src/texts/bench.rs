//! The benchmark's tables: fixed shapes in any size, random in their utilities
//! alone. Figures are compared from run to run, so a test holds every byte.

use super::knobs::{self, Kinds, Knobs, Order, Weights, ROLLS, WAYS};

/// The knobs for a table of so many nodes.
pub type Shape = fn(usize) -> Knobs;

/// A root and its leaves.
pub fn flat(nodes: usize) -> Knobs {
    Knobs {
        nodes,
        shape: knobs::Shape::Flat,
        ..Knobs::by_turns()
    }
}

/// Chains of 64 nodes that share the root, the last one shorter where the number
/// of nodes so demands.
pub fn deep(nodes: usize) -> Knobs {
    Knobs {
        nodes,
        shape: knobs::Shape::Chains,
        ..Knobs::by_turns()
    }
}

/// Plays of a root, each followed by the 21 rolls of two dice; plays that are
/// leaves fill up the number of nodes.
pub fn bushy(nodes: usize) -> Knobs {
    Knobs {
        totals: vec![WAYS],
        inner: Kinds::either(1),
        weights: Weights::Dice,
        ..bushy_plain(nodes)
    }
}

/// The same with an N for each C, so that the other side chooses the roll.
pub fn bushy_plain(nodes: usize) -> Knobs {
    Knobs {
        nodes,
        shape: knobs::Shape::Levels(&[1 + ROLLS, 1]),
        ..Knobs::by_turns()
    }
}

/// As `bushy`, and after each roll the other side has three plays, which are leaves.
pub fn replies(nodes: usize) -> Knobs {
    const REPLY: usize = 1 + 3;
    Knobs {
        order: Order::Rolls,
        shape: knobs::Shape::Levels(&[1 + ROLLS * REPLY, REPLY, 1]),
        ..bushy(nodes)
    }
}

/// As `bushy`, and after ten of the rolls the other side has two plays: the first is
/// followed by the 21 rolls again, so that two C stand on a path, the second a leaf.
pub fn rerolls(nodes: usize) -> Knobs {
    const REPLY: usize = 1 + (1 + ROLLS) + 1;
    Knobs {
        shape: knobs::Shape::Levels(&[1 + 10 * REPLY + (ROLLS - 10), REPLY, 1 + ROLLS, 1]),
        ..replies(nodes)
    }
}
