//! Tables whose plays at the root are much alike, so that many share a bound (document
//! 02, Item 6). There are a few patterns, and each play is one of them, as it is or with
//! another utility in one leaf. Utilities are few, and as a rule away from the ends. Half of
//! the tables have two totals.

use super::draft::Draft;
use super::grow::parts;
use super::settings::other_than;
use crate::random::Random;

/// A table of this sort, with two plays to eight.
pub fn alike(random: &mut Random) -> Vec<u8> {
    let lowest = random.between(-9, 5);
    let ends = (lowest, lowest + random.between(2, 10));
    let utilities = (0..2 + random.below(3)).map(|_| random.between(ends.0, ends.1));
    let utilities = utilities.collect();
    let mut maker = Maker {
        sides: random.pick(&[(b'M', b'N'), (b'N', b'M')]),
        ends,
        totals: {
            let first = random.between(2, 6);
            let second = other_than(first, random, |random| random.between(2, 6));
            random.pick(&[&[first][..], &[first, second]]).to_vec()
        },
        chances: random.below(3),
        utilities,
        random,
    };
    let patterns = match maker.chances > 0 && maker.random.one_in(2) {
        true => maker.parts(),
        false => maker.any(),
    };

    let mut draft = Draft::new(maker.totals.clone(), ends);
    let root = draft.add(maker.sides.0, None, None, None);
    for _ in 0..2 + maker.random.below(7) {
        let mut play = patterns[maker.random.below(patterns.len())].clone();
        if maker.random.one_in(2) {
            maker.change(&mut play);
        }
        play.write(&mut draft, root, None);
    }
    draft.text()
}

/// A node and all under it.
#[derive(Clone)]
enum Tree {
    Leaf(i64),
    /// An M or N.
    Side(u8, Vec<Tree>),
    /// A C, with the weights of its children.
    Chance(Vec<(i64, Tree)>),
}

impl Tree {
    fn write(&self, draft: &mut Draft, parent: i64, weight: Option<i64>) {
        let parent = Some(parent);
        match self {
            Tree::Leaf(utility) => {
                draft.add(b'L', parent, weight, Some(*utility));
            }
            Tree::Side(side, children) => {
                let node = draft.add(*side, parent, weight, None);
                for child in children {
                    child.write(draft, node, None);
                }
            }
            Tree::Chance(children) => {
                let node = draft.add(b'C', parent, weight, None);
                for (weight, child) in children {
                    child.write(draft, node, Some(*weight));
                }
            }
        }
    }
}

struct Maker<'a> {
    random: &'a mut Random,
    /// The side that is to move at the root, and the other.
    sides: (u8, u8),
    ends: (i64, i64),
    /// Each C takes one of them.
    totals: Vec<i64>,
    /// The most C on a path.
    chances: usize,
    utilities: Vec<i64>,
}

impl Maker<'_> {
    /// One pattern to three of any sort; a leaf in one of eight cases.
    fn any(&mut self) -> Vec<Tree> {
        let count = 1 + self.random.below(3);
        let play = |_| match self.random.one_in(8) {
            true => self.leaf(),
            false => self.inner(2, self.chances),
        };
        (0..count).map(play).collect()
    }

    /// Three C that share the bound which decides where all are cut after the first leaf,
    /// but as a rule not the other bound; and a play that has the better other bound there.
    fn parts(&mut self) -> Vec<Tree> {
        let span = self.ends.1 - self.ends.0;
        let share = 2 * self.random.between(1, span / 2);
        let far = Tree::Leaf(self.away(span - 1));
        let mut patterns = vec![Tree::Side(self.sides.1, vec![far, self.leaf()])];
        for _ in 0..3 {
            patterns.push(self.part(share));
        }
        patterns
    }

    /// A C whose first leaf is so far from the end, times its weight.
    fn part(&mut self, share: i64) -> Tree {
        let total = self.random.pick(&self.totals);
        let divide = (1..=total).filter(|weight| share % weight == 0);
        let weight = self.random.pick(&divide.collect::<Vec<_>>());
        let mut children = vec![(weight, Tree::Leaf(self.away(share / weight)))];
        if weight < total {
            children.push((total - weight, self.below(1, 0)));
        }
        Tree::Chance(children)
    }

    /// A utility so far from the end that is the worst for the side to move.
    fn away(&self, points: i64) -> i64 {
        match self.sides.0 {
            b'M' => self.ends.0 + points,
            _ => self.ends.1 - points,
        }
    }

    /// A node with children, with up to so many such nodes below it on a path.
    fn inner(&mut self, levels: usize, chances: usize) -> Tree {
        if chances > 0 && self.random.one_in(2) {
            let total = self.random.pick(&self.totals) as usize;
            let children = 1 + self.random.below(total.min(3));
            let weights = parts(self.random, total, children);
            let child = |weight| (weight as i64, self.below(levels, chances - 1));
            return Tree::Chance(weights.into_iter().map(child).collect());
        }
        // The other side comes more often, as its plays are the ones that are cut.
        let (side, other) = self.sides;
        let side = self.random.pick(&[side, other, other]);
        let children = 2 + self.random.below(2);
        let children = (0..children).map(|_| self.below(levels, chances));
        Tree::Side(side, children.collect())
    }

    fn below(&mut self, levels: usize, chances: usize) -> Tree {
        match levels > 0 && self.random.one_in(3) {
            true => self.inner(levels - 1, chances),
            false => self.leaf(),
        }
    }

    fn leaf(&mut self) -> Tree {
        Tree::Leaf(self.random.pick(&self.utilities))
    }

    /// Draws the utility of one leaf again.
    fn change(&mut self, tree: &mut Tree) {
        match tree {
            Tree::Leaf(_) => *tree = self.leaf(),
            Tree::Side(_, children) => {
                let child = self.random.below(children.len());
                self.change(&mut children[child]);
            }
            Tree::Chance(children) => {
                let child = self.random.below(children.len());
                self.change(&mut children[child].1);
            }
        }
    }
}
