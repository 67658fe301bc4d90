//! What is lent to the search as an index: the table's own, or one that is wrong in a known
//! way.

use super::{Index, ENTRY};
use crate::random::Random;
use crate::second::{Kind, Table, FARTHEST_END, MOST_NODES};

/// An index, and of what sorts it is.
pub struct Lent {
    pub index: Index,
    pub sorts: Vec<&'static str>,
}

const LONGER: &str = "an index longer than the nodes";
const LEAVES: &str = "any entries for leaves";

/// The sorts that may be the table's own index.
pub const RIGHT: [&str; 2] = [LONGER, LEAVES];

/// Those that are not, or only by luck.
pub const WRONG: [&str; 16] = [
    "a low one too high",
    "a low one too low",
    "a high one too high",
    "a high one too low",
    "off at the root",
    "off at the last line but leaves",
    "an entry far off",
    "lows and highs exchanged",
    "the table's ends at each line",
    "ends in grains",
    "nothing built",
    "lows alone short",
    "highs alone short",
    "both short",
    "short by a leaf's entry",
    "no index",
];

impl Lent {
    /// Any index for a table; for a refused text lists of any length.
    pub fn next(table: Option<&Table>, random: &mut Random) -> Lent {
        let Some(table) = table else {
            let lengths = [0, 1, random.below(40), MOST_NODES];
            let lengths = (random.pick(&lengths), random.pick(&lengths));
            return Lent {
                index: Index::unbuilt(lengths),
                sorts: Vec::new(),
            };
        };
        let mut lent = Lent {
            index: Index::of(table),
            sorts: Vec::new(),
        };
        let inner = table.nodes.iter().enumerate();
        let inner = inner.filter(|(_, node)| node.kind != Kind::Leaf);
        let inner: Vec<usize> = inner.map(|(node, _)| node).collect();
        match random.below(12) {
            _ if inner.is_empty() => (),
            0..=6 => (),
            7..=9 => lent.put_off(&inner, random),
            10 => lent.put_far_off(&inner, random),
            _ => lent.take_others(table, &inner, random),
        }
        if random.one_in(2) {
            lent.fill_leaves(table, random);
        }
        match random.below(8) {
            0 | 1 => lent.lengthen(random),
            2 => lent.shorten(random),
            _ => (),
        }
        lent
    }

    fn put_off(&mut self, inner: &[usize], random: &mut Random) {
        let last = *inner.last().expect("a line that is no leaf");
        let node = match random.below(4) {
            0 => 0,
            1 => last,
            _ => random.pick(inner),
        };
        let (list, by, sort) = random.pick(&[
            (0, 1, "a low one too high"),
            (0, -1, "a low one too low"),
            (1, 1, "a high one too high"),
            (1, -1, "a high one too low"),
        ]);
        self.index.lists()[list][node] += by;
        self.sorts.push(sort);
        self.sorts.extend((node == 0).then_some("off at the root"));
        let at_last = (node == last).then_some("off at the last line but leaves");
        self.sorts.extend(at_last);
    }

    /// Puts an entry far off, or only by such bits as a narrow number would lose.
    fn put_far_off(&mut self, inner: &[usize], random: &mut Random) {
        let node = random.pick(inner);
        let list = random.below(2);
        let entry = &mut self.index.lists()[list][node];
        let other = match random.below(5) {
            0 => *entry ^ (-1 << random.pick(&[21, 31, 32, 63])),
            1 => *entry ^ (1 << random.pick(&[21, 32, 62])),
            2 => random.pick(&[i64::MIN, i64::MAX, ENTRY]),
            3 => random.between(-FARTHEST_END, FARTHEST_END),
            _ => -*entry,
        };
        *entry = other;
        self.sorts.push("an entry far off");
    }

    /// Takes other numbers for every line but leaves.
    fn take_others(&mut self, table: &Table, inner: &[usize], random: &mut Random) {
        let (way, sort) = random.pick(&[
            (0, "lows and highs exchanged"),
            (1, "the table's ends at each line"),
            (2, "ends in grains"),
            (3, "nothing built"),
        ]);
        for &node in inner {
            let (low, high) = (self.index.lows[node], self.index.highs[node]);
            let (low, high) = match way {
                0 => (high, low),
                1 => (table.lowest, table.highest),
                2 => (low * table.grains, high * table.grains),
                _ => (ENTRY, ENTRY),
            };
            self.index.lows[node] = low;
            self.index.highs[node] = high;
        }
        self.sorts.push(sort);
    }

    fn fill_leaves(&mut self, table: &Table, random: &mut Random) {
        for (node, line) in table.nodes.iter().enumerate() {
            let Some(utility) = line.utility else {
                continue;
            };
            for list in self.index.lists() {
                list[node] = match random.below(4) {
                    0 => utility,
                    1 => utility + random.pick(&[-1, 1]),
                    2 => random.pick(&[0, i64::MIN, i64::MAX, table.lowest, table.highest]),
                    _ => random.bits() as i64,
                };
            }
        }
        self.sorts.push(LEAVES);
    }

    fn lengthen(&mut self, random: &mut Random) {
        for list in self.index.lists() {
            let longer = match random.below(4) {
                0 => list.len(),
                1 => list.len() + 1,
                2 => list.len() + 1 + random.below(30),
                _ => MOST_NODES + 1,
            };
            list.resize(longer, random.pick(&[0, ENTRY, i64::MIN]));
        }
        self.sorts.push(LONGER);
    }

    /// Leaves out the last entries: the very last is a leaf's.
    fn shorten(&mut self, random: &mut Random) {
        let nodes = self.index.lows.len();
        let length = match random.below(4) {
            0 | 1 => nodes - 1,
            2 => random.below(nodes),
            _ => 0,
        };
        let (lows, highs, sort) = random.pick(&[
            (true, false, "lows alone short"),
            (false, true, "highs alone short"),
            (true, true, "both short"),
        ]);
        if lows {
            self.index.lows.truncate(length);
        }
        if highs {
            self.index.highs.truncate(length);
        }
        self.sorts.push(sort);
        let by_one = (length + 1 == nodes).then_some("short by a leaf's entry");
        self.sorts.extend(by_one);
        self.sorts
            .extend((lows && highs && length == 0).then_some("no index"));
    }
}
