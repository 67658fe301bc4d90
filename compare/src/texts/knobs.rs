//! The knobs of the one generator of random tables: each is a choice that
//! document 01 leaves open. A test takes one of the settings in `settings`, or
//! turns knobs of its own.

use super::draft::Draft;
use super::grow;
use crate::random::Random;
use crate::second::FARTHEST_END;

#[derive(Clone, Debug)]
pub struct Knobs {
    /// The number of nodes; fewer where `stops` or dice leave some over.
    pub nodes: usize,
    /// Each C takes one of these as the sum of its weights: one total, or the first and
    /// the second (document 02, Item 5).
    pub totals: Vec<i64>,
    /// The greatest grain count: with two totals some C are left out so that it is kept.
    pub grains: i64,
    /// The lowest end and the highest.
    pub ends: (i64, i64),
    pub utilities: Utilities,
    /// The kinds of the root, where it has children, and of the nodes below.
    pub root: Kinds,
    pub inner: Kinds,
    pub order: Order,
    /// The most C on a path.
    pub chances: usize,
    /// The most nodes on a path; shapes Deep and Chains also aim at it.
    pub path: usize,
    pub shape: Shape,
    /// Whether a root M or N has one child, so that the play is forced.
    pub forced: bool,
    pub weights: Weights,
    /// One node of so many below the root ends its path as a leaf, 0 for none.
    pub stops: usize,
}

/// The kinds that a node with children may have.
#[derive(Clone, Copy, Debug)]
pub struct Kinds {
    /// The sides that may decide there: M, N or either.
    pub sides: &'static [u8],
    /// One node of so many is a C instead where a C may stand, 0 for none.
    pub rarity: usize,
}

impl Kinds {
    pub const fn either(rarity: usize) -> Kinds {
        let sides = b"MN";
        Kinds { sides, rarity }
    }
}

/// What may follow what on a path.
#[derive(Clone, Copy, Debug, PartialEq, Eq)]
pub enum Order {
    /// Any kind after any other.
    Any,
    /// M and N by turns.
    ByTurns,
    /// M and N by turns, and a roll after each decision; a decision follows
    /// each roll.
    Rolls,
}

/// How a node's run is divided among its children.
#[derive(Clone, Copy, Debug)]
pub enum Shape {
    /// As many children as may be.
    Flat,
    /// One child has all but a few leaves, down to the longest path.
    Deep,
    /// From so many children to so many.
    Bushy(usize, usize),
    /// Any number of children.
    Any,
    /// This number of children everywhere, all with runs of the same length.
    Even(usize),
    /// Paths of the greatest length that share the root; the last may be
    /// shorter.
    Chains,
    /// Children of the root with so many nodes each, children of these with so many,
    /// and so on down, as many as there are nodes for; the others are leaves.
    Levels(&'static [usize]),
}

#[derive(Clone, Debug)]
pub enum Utilities {
    /// Between the ends, and often at one of them or at 0.
    Spread,
    /// Between the ends, each as likely as any other.
    Uniform,
    /// One of these: the fewer, the more ties.
    OneOf(Vec<i64>),
}

#[derive(Clone, Copy, Debug, PartialEq, Eq)]
pub enum Weights {
    Any,
    /// As equal as may be.
    Even,
    /// A few children have the most of it.
    Uneven,
    /// Those of the 21 rolls of two dice, which are all the children, where T is 36; where
    /// it is 15, those of the opening rolls.
    Dice,
}

/// The widest ends.
pub const WIDEST: (i64, i64) = (-FARTHEST_END, FARTHEST_END);

/// What two dice come in, and the rolls: a double comes in one way, another in
/// two.
pub const WAYS: i64 = 36;
pub const ROLLS: usize = 21;

/// The rolls without the doubles, of which the first of a game is one; each has the weight
/// 1, so that this is their total too (document 02, Item 5).
pub const OPENINGS: usize = 15;

impl Knobs {
    pub fn draft(&self, random: &mut Random) -> Draft {
        grow::grow(self, random)
    }

    pub fn text(&self, random: &mut Random) -> Vec<u8> {
        self.draft(random).text()
    }
}
