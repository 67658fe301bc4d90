//! Fixed tables of the greatest magnitudes: 1,024 nodes, T 64, the widest ends.

use super::draft::Draft;
use super::knobs::WIDEST;
use crate::second::{FARTHEST_END, MOST_NODES, MOST_TOTAL};

/// The tables below that have four C on a path, at either end.
pub fn four_chances() -> Vec<Vec<u8>> {
    let ends = [-FARTHEST_END, FARTHEST_END];
    let tables = ends.map(|end| [four_deep(end), plays(b'M', end), plays(b'N', end)]);
    tables.concat()
}

/// Chance nodes and leaves alone, each leaf of this utility. Five children of
/// the root are C, each of these has one C below it, and that has another, so
/// that four are on a path. Every C has 64 children of weight 1, but for the
/// root: it lacks a child, as 1,025 nodes would be one too many, and its last
/// weighs 2.
pub fn four_deep(utility: i64) -> Vec<u8> {
    let mut draft = empty();
    add_chance(&mut draft, None, 4, 5, utility);
    draft.lines.truncate(MOST_NODES);
    draft.count = MOST_NODES as i64;
    draft.lines[MOST_NODES - 1].weight = Some(2);
    draft.text()
}

/// A root of this kind, M or N, and its 255 children; the highest end is the
/// best for an M, the lowest for an N:
/// - a C whose leaves are all at the other end, four C on a path;
/// - the same with all leaves at the best end;
/// - the same, but one leaf, with the least chance there is, is a point short;
/// - a leaf at the best end, one a point short of it, and 250 at the other end.
pub fn plays(kind: u8, best: i64) -> Vec<u8> {
    let short = best - best.signum();
    let mut draft = empty();
    let root = add(&mut draft, kind, None, None);
    for utility in [-best, best, best] {
        add_chance(&mut draft, Some(root), 4, 1, utility);
    }
    // The lines of the third C are the last 257: four C, then the deepest leaves.
    let third = draft.lines.len() - 257;
    draft.lines[third + 4].utility = Some(short);
    for utility in [best, short] {
        add(&mut draft, b'L', Some(root), Some(utility));
    }
    add_leaves(&mut draft, root, |_| -best);
    draft.text()
}

/// A root of this kind, M or N, and 1,023 leaves worth their node numbers: none
/// is at an end, so margin 0 reads them all.
pub fn all_read(kind: u8) -> Vec<u8> {
    let mut draft = empty();
    let root = add(&mut draft, kind, None, None);
    add_leaves(&mut draft, root, |node| node);
    draft.text()
}

/// A draft without lines.
fn empty() -> Draft {
    Draft::new(vec![MOST_TOTAL], WIDEST)
}

/// Fills the draft up with leaves under this node, each with a utility by its
/// node number.
fn add_leaves(draft: &mut Draft, parent: i64, utility: impl Fn(i64) -> i64) {
    while draft.lines.len() < MOST_NODES {
        let utility = utility(draft.count);
        add(draft, b'L', Some(parent), Some(utility));
    }
}

/// Adds a C with 64 children. Of these so many are C again, with one C in each
/// level below them, and the others leaves; in the last level all are.
fn add_chance(draft: &mut Draft, parent: Option<i64>, levels: usize, inner: i64, utility: i64) {
    let node = add(draft, b'C', parent, None);
    let inner = if levels > 1 { inner } else { 0 };
    for _ in 0..inner {
        add_chance(draft, Some(node), levels - 1, 1, utility);
    }
    for _ in inner..MOST_TOTAL {
        add(draft, b'L', Some(node), Some(utility));
    }
}

/// Adds a line, with a weight of 1 if it stands under a C, and returns its node
/// number.
fn add(draft: &mut Draft, kind: u8, parent: Option<i64>, utility: Option<i64>) -> i64 {
    let under_chance = parent.is_some_and(|parent| draft.lines[parent as usize].kind == b'C');
    draft.add(kind, parent, under_chance.then_some(1), utility)
}
