//! Tables by recipe (document 02, Item 7): refusals 19 and 11.

use std::ops::RangeInclusive;

use super::table::*;
use super::write::{length, write};

/// What a seed, a branching number, a depth in plays and the number for dice may be.
const SEEDS: RangeInclusive<i64> = 0..=2_147_483_647;
const BRANCHINGS: RangeInclusive<i64> = 2..=5;
const DEPTHS: RangeInclusive<i64> = 0..=9;
const WITH_DICE: RangeInclusive<i64> = 0..=1;

/// A recipe as it is given, in range or not. With dice is 1, without is 0.
#[derive(Clone, Copy, Debug, PartialEq, Eq)]
pub struct Recipe {
    pub seed: i64,
    pub branching: i64,
    pub depth: i64,
    pub dice: i64,
}

/// Writes the recipe's table at the start of the buffer, and returns how many bytes it has.
pub fn recipe(recipe: Recipe, buffer: &mut [u8]) -> Result<usize, Refusal> {
    let table = recipe.table()?;
    let length = length(&table);
    let text = buffer.get_mut(..length).ok_or(refusal(11))?;
    write(&table, text);
    Ok(length)
}

impl Recipe {
    /// The four numbers in their sequence.
    pub fn new([seed, branching, depth, dice]: [i64; 4]) -> Recipe {
        Recipe {
            seed,
            branching,
            depth,
            dice,
        }
    }

    /// The recipe's table: 19.
    pub fn table(self) -> Result<Table, Refusal> {
        if !self.is_in_range() || self.nodes() > MOST_NODES as i64 {
            return Err(refusal(19));
        }
        Ok(self.grown())
    }

    pub fn is_in_range(self) -> bool {
        SEEDS.contains(&self.seed)
            && BRANCHINGS.contains(&self.branching)
            && DEPTHS.contains(&self.depth)
            && WITH_DICE.contains(&self.dice)
    }

    /// How many nodes a recipe in range has, were there no limit: one at the root, and on
    /// each level below it so many times those above as a line has children.
    pub fn nodes(self) -> i64 {
        let mut level = 1;
        let mut nodes = level;
        for _ in 0..self.levels() {
            level *= self.branching;
            nodes += level;
        }
        nodes
    }

    /// The levels below the root: with dice each play is two lines.
    fn levels(self) -> i64 {
        match self.dice {
            0 => self.depth,
            _ => 2 * self.depth,
        }
    }

    /// What the weights under a C sum to.
    fn total(self) -> i64 {
        match self.dice {
            0 => 1,
            _ => 5 * (self.branching - 1),
        }
    }

    /// The table of a recipe in range, of however many nodes.
    pub fn grown(self) -> Table {
        let mut nodes = Vec::new();
        let root = Line {
            parent: None,
            weight: None,
        };
        self.grow(&mut nodes, self.depth, Kind::Max, root);
        let mut state = self.seed;
        for leaf in nodes.iter_mut().filter(|node| node.kind == Kind::Leaf) {
            state = (1_103_515_245 * state + 12_345) % 2_147_483_648;
            leaf.utility = Some(state / 65_536 % 101);
        }
        let chances = match self.dice {
            0 => 0,
            _ => self.depth as u32,
        };
        Table {
            total: self.total(),
            second: None,
            lowest: 0,
            highest: 100,
            leaves: nodes.iter().filter(|node| node.kind == Kind::Leaf).count(),
            nodes,
            chances,
            grains: self.total().pow(chances),
        }
    }

    /// Adds a position with so many plays to come, and all under it; `side` is to play.
    fn grow(self, nodes: &mut Vec<Node>, plays: i64, side: Kind, line: Line) {
        if plays == 0 {
            open(nodes, Kind::Leaf, line);
            return;
        }
        let other = match side {
            Kind::Max => Kind::Min,
            _ => Kind::Max,
        };
        let here = open(nodes, side, line);
        for play in 1..=self.branching {
            let below = Line {
                parent: Some(here),
                weight: None,
            };
            match self.dice {
                0 => self.grow(nodes, plays - 1, other, below),
                _ => self.roll(nodes, play, plays - 1, other, below),
            }
        }
        nodes[here].stop = nodes.len();
    }

    /// Adds the C of a play, after which so many are to come, and all under it.
    fn roll(self, nodes: &mut Vec<Node>, play: i64, plays: i64, side: Kind, line: Line) {
        let here = open(nodes, Kind::Chance, line);
        nodes[here].sum = self.total();
        for child in 1..=self.branching {
            let weight = match child == play {
                true => 4 * (self.branching - 1),
                false => 1,
            };
            let below = Line {
                parent: Some(here),
                weight: Some(weight),
            };
            self.grow(nodes, plays, side, below);
        }
        nodes[here].stop = nodes.len();
    }
}

/// Where a node stands: its parent, and its weight under a C.
#[derive(Clone, Copy)]
struct Line {
    parent: Option<usize>,
    weight: Option<i64>,
}

/// Adds a node with nothing under it yet, and returns its number.
fn open(nodes: &mut Vec<Node>, kind: Kind, line: Line) -> usize {
    let here = nodes.len();
    nodes.push(Node {
        kind,
        parent: line.parent,
        weight: line.weight,
        utility: None,
        sum: 0,
        stop: here + 1,
    });
    here
}

fn refusal(number: u8) -> Refusal {
    Refusal { number, line: 0 }
}
