//! Counts what the tables and the answers of a run had among them, so that a run
//! whose texts were too much alike to mean anything fails.

use super::tally::say;
use crate::second::{root_children, Kind, Table, FARTHEST_END, LONGEST_PATH, MOST_NODES};

/// The kinds that a root may have.
pub const ROOTS: [Kind; 4] = [Kind::Max, Kind::Min, Kind::Chance, Kind::Leaf];

/// The two of them where a side is to play.
pub const SIDES: [Kind; 2] = [Kind::Max, Kind::Min];

/// A sort of numbers played, and whether a number is one.
type Numbers = (&'static str, fn(i64) -> bool);

/// Numbers that may be given where the play is forced: the only child's, and
/// those of no child. No root has so many children that one far off is theirs.
const FORCED: [Numbers; 5] = [
    ("the child's number", |number| number == 1),
    ("number 0", |number| number == 0),
    ("number 2", |number| number == 2),
    ("a number below zero", |number| number < 0),
    ("a number far off", |number| {
        number.unsigned_abs() > MOST_NODES as u64
    }),
];

/// Every sort, by name, and how often it was seen.
#[derive(Default)]
pub struct Seen {
    sorts: Vec<(String, u64)>,
    /// Where the next sort stands if they come in the same sequence again.
    next: usize,
}

impl Seen {
    /// Counts the case as one of this sort if it is one.
    pub fn count(&mut self, sort: &str, is_one: bool) {
        self.add(sort, u64::from(is_one));
    }

    /// Counts so many of this sort; one that was asked for and never seen stands
    /// in the list too.
    pub fn add(&mut self, sort: &str, count: u64) {
        let named = |(name, _): &(String, u64)| name == sort;
        let at = if self.sorts.get(self.next).is_some_and(named) {
            self.next
        } else {
            let found = self.sorts.iter().position(named);
            found.unwrap_or_else(|| {
                self.sorts.push((sort.to_string(), 0));
                self.sorts.len() - 1
            })
        };
        self.sorts[at].1 += count;
        self.next = at + 1;
    }

    /// How often this sort was seen.
    pub fn of(&self, sort: &str) -> u64 {
        let mut sorts = self.sorts.iter();
        let found = sorts.find(|(name, _)| name == sort);
        found.unwrap_or_else(|| panic!("no sort {sort}")).1
    }

    /// Names every sort with its count, then fails the test where there is none,
    /// or one came too seldom.
    pub fn demand(&self, least: u64) {
        self.demand_but(least, |_| false);
    }

    /// The same, where these sorts need not come.
    pub fn demand_but(&self, least: u64, spared: impl Fn(&str) -> bool) {
        self.demand_by(|sort| if spared(sort) { 0 } else { least });
    }

    /// The same, with a count for each sort.
    pub fn demand_by(&self, least: impl Fn(&str) -> u64) {
        let lines: Vec<String> = self
            .sorts
            .iter()
            .map(|(s, n)| format!("{s}: {n}"))
            .collect();
        say(&format!("seen: {}", lines.join("; ")));
        assert!(!self.sorts.is_empty(), "no sort was counted");
        for (sort, count) in &self.sorts {
            assert!(*count >= least(sort), "{sort} came only {count} times");
        }
    }

    /// Counts what a table is like, its C left aside.
    pub fn count_table(&mut self, table: &Table) {
        let mut depths: Vec<usize> = Vec::with_capacity(table.nodes.len());
        for node in &table.nodes {
            depths.push(node.parent.map_or(1, |parent| depths[parent] + 1));
        }
        self.count("a path of 64 nodes", depths.contains(&LONGEST_PATH));
        self.count("1,024 lines", table.nodes.len() == MOST_NODES);

        let (lowest, highest) = (table.lowest, table.highest);
        let widest = lowest == -FARTHEST_END && highest == FARTHEST_END;
        self.count("the widest ends", widest);
        self.count("an end of 0", lowest == 0 || highest == 0);
        self.count("equal ends", lowest == highest);
        self.count("both ends below zero", highest < 0);
        self.count("both ends above zero", lowest > 0);
    }

    /// Counts the root's kind among these.
    pub fn count_root(&mut self, kinds: &[Kind], table: &Table) {
        for kind in kinds {
            self.count(&format!("root {kind:?}"), table.nodes[0].kind == *kind);
        }
    }

    /// Counts whether a root M or N has one child, so that the play is forced, or
    /// two, which is the least choice.
    pub fn count_choice(&mut self, table: &Table) {
        for kind in SIDES {
            let here = table.nodes[0].kind == kind;
            for (sort, children) in [("one child", 1), ("two children", 2)] {
                let is_one = here && root_children(table) == children;
                self.count(&format!("root {kind:?} with {sort}"), is_one);
            }
        }
    }

    /// Counts the numbers that were judged "no decision" on a table if its root is
    /// an M or N with one child.
    pub fn count_forced(&mut self, table: &Table, numbers: &[i64]) {
        for kind in SIDES {
            let here = table.nodes[0].kind == kind && root_children(table) == 1;
            for (sort, is_one) in FORCED {
                let found = numbers.iter().filter(|number| here && is_one(**number));
                let sort = format!("forced at {kind:?}, {sort}");
                self.add(&sort, found.count() as u64);
            }
        }
    }

    /// Counts the greatest number of C on a path.
    pub fn count_chances(&mut self, table: &Table) {
        for (k, sort) in ["K 0", "K 1", "K 2", "K 3", "K 4"].iter().enumerate() {
            self.count(sort, table.chances as usize == k);
        }
    }
}
