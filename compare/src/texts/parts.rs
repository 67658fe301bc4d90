//! Tables whose lines use a part of the scale each: a line has a part of what the line above
//! it has, and its leaves take their utilities from there. So the ends under a line differ
//! much from the table's (document 02, Item 14), and often its window lies to one side of
//! them.

use super::put_utility;
use crate::random::Random;
use crate::second::{self, Kind};

/// This table with other utilities.
pub fn in_parts(mut text: Vec<u8>, random: &mut Random) -> Vec<u8> {
    let table = second::read(&text).expect("a valid table");
    let mut parts: Vec<(i64, i64)> = Vec::with_capacity(table.nodes.len());
    for (i, node) in table.nodes.iter().enumerate() {
        let (low, high) = match node.parent {
            Some(parent) => parts[parent],
            None => (table.lowest, table.highest),
        };
        let (one, other) = (random.between(low, high), random.between(low, high));
        parts.push(match random.below(4) {
            0 => (low, high),
            1 => (low, one),
            2 => (one, high),
            _ => (one.min(other), one.max(other)),
        });
        if node.kind == Kind::Leaf {
            put_utility(&mut text, i, random.pick(&[low, one, other, high]));
        }
    }
    text
}
