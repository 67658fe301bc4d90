//! Tables where much hangs on the windows under C. A leaf at the root narrows the
//! window of one long path, on which a C and a node of the side that is not to move
//! follow each other. The path goes through the heavy child of each C, where the window
//! is narrower than the ends, and the light ones are leaves. Half of the tables have two
//! totals (document 02, Item 5), which take turns at random on that path.

use super::draft::Draft;
use super::grow::parts;
use super::settings::other_than;
use crate::random::Random;
use crate::second::MOST_CHANCES;

/// A table of this sort.
pub fn narrowed(random: &mut Random) -> Vec<u8> {
    let lowest = random.between(-50, 50);
    let highest = lowest + random.pick(&[3, 10, 100, 1_000]);
    let mut totals = vec![random.between(3, 13)];
    if random.one_in(2) {
        totals.push(other_than(totals[0], random, |random| {
            random.between(3, 13)
        }));
    }
    let (root, other) = random.pick(&[(b'M', b'N'), (b'N', b'M')]);
    let mut path = Path {
        draft: Draft::new(totals, (lowest, highest)),
        random,
        other,
    };
    path.add_root(root);
    path.draft.text()
}

struct Path<'a> {
    draft: Draft,
    random: &'a mut Random,
    /// The side that is not to move at the root.
    other: u8,
}

impl Path<'_> {
    fn add_root(&mut self, kind: u8) {
        let root = self.draft.add(kind, None, None, None);
        let chances = 1 + self.random.below(MOST_CHANCES);
        self.add_leaves(root, 1, 2);
        match self.random.one_in(3) {
            true => self.add_chance(root, chances),
            false => self.add_side(root, None, chances),
        }
        self.add_leaves(root, 0, 2);
    }

    /// Adds a node of the other side, with so many C on the path below it.
    fn add_side(&mut self, parent: i64, weight: Option<i64>, chances: usize) {
        let node = self.draft.add(self.other, Some(parent), weight, None);
        if chances > 0 {
            self.add_leaves(node, 0, 1);
            self.add_chance(node, chances);
        }
        self.add_leaves(node, 2, 4);
    }

    /// Adds a C, itself counted among so many on the path.
    fn add_chance(&mut self, parent: i64, chances: usize) {
        let node = self.draft.add(b'C', Some(parent), None, None);
        // All C are on one path, so there are no more grains than with the larger total.
        let total = self.random.pick(&self.draft.totals);
        // From two thirds on.
        let heavy = self.random.between((2 * total + 2) / 3, total - 1);
        let light = (total - heavy) as usize;
        let count = 1 + self.random.below(light.min(4));
        let weights = parts(self.random, light, count);
        let before = self.random.below(count + 1);
        for (i, weight) in weights.iter().enumerate() {
            if i == before {
                self.add_side(node, Some(heavy), chances - 1);
            }
            self.add_leaf(node, Some(*weight as i64));
        }
        if before == count {
            self.add_side(node, Some(heavy), chances - 1);
        }
    }

    fn add_leaves(&mut self, parent: i64, least: i64, most: i64) {
        for _ in 0..self.random.between(least, most) {
            self.add_leaf(parent, None);
        }
    }

    /// Adds a leaf; under a side, in the half of the scale that is the worse for it.
    fn add_leaf(&mut self, parent: i64, weight: Option<i64>) {
        let (lowest, highest) = (self.draft.lowest, self.draft.highest);
        let middle = (lowest + highest).div_euclid(2);
        let (low, high) = match self.draft.lines[parent as usize].kind {
            b'M' => (lowest, middle),
            b'N' => (middle, highest),
            _ => (lowest, highest),
        };
        let utility = self.random.between(low, high);
        self.draft.add(b'L', Some(parent), weight, Some(utility));
    }
}
