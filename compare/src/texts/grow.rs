//! Grows a random draft by the knobs.

use super::draft::Draft;
use super::knobs::{Knobs, Order, Shape, Utilities, Weights, OPENINGS, ROLLS, WAYS};
use crate::random::Random;

pub fn grow(knobs: &Knobs, random: &mut Random) -> Draft {
    let mut grower = Grower {
        knobs,
        random,
        draft: Draft::new(knobs.totals.clone(), knobs.ends),
        most_uses: [0; 2],
    };
    grower.add(
        knobs.nodes,
        Place {
            parent: None,
            weight: None,
            depth: 1,
            uses: [0; 2],
            decided: None,
        },
    );
    grower.draft
}

struct Grower<'a> {
    knobs: &'a Knobs,
    random: &'a mut Random,
    draft: Draft,
    /// The greatest number of uses of each total on a path so far.
    most_uses: Uses,
}

/// How many C take each of the totals.
type Uses = [u32; 2];

/// Where a node stands.
struct Place {
    parent: Option<i64>,
    weight: Option<i64>,
    /// The nodes on its path, itself counted.
    depth: usize,
    /// The C above it.
    uses: Uses,
    /// The side that decided last above it.
    decided: Option<u8>,
}

enum Node {
    Leaf,
    /// An M or N.
    Decision(u8),
    /// A C with the place of its total among the two.
    Chance(usize),
}

impl Grower<'_> {
    /// Adds a node and all under it, so many nodes together; fewer only where
    /// `stops` or dice leave some over.
    fn add(&mut self, most: usize, place: Place) {
        let rest = most - 1;
        let node = self.node(rest, &place);
        let mut uses = place.uses;
        let (kind, decided) = match node {
            Node::Leaf => {
                let utility = Some(self.utility());
                self.draft.add(b'L', place.parent, place.weight, utility);
                return;
            }
            Node::Decision(side) => (side, Some(side)),
            Node::Chance(of) => {
                uses[of] += 1;
                self.most_uses[of] = self.most_uses[of].max(uses[of]);
                (b'C', place.decided)
            }
        };
        let number = self.draft.add(kind, place.parent, place.weight, None);

        let sizes = self.sizes(&node, rest, place.depth);
        let weights = match node {
            Node::Chance(of) => self.weights(self.total(of), sizes.len()),
            _ => vec![None; sizes.len()],
        };
        // What a run leaves over goes to the next one.
        let mut spare = 0;
        for (size, weight) in sizes.into_iter().zip(weights) {
            let most = size + spare;
            let before = self.draft.lines.len();
            let below = Place {
                parent: Some(number),
                weight,
                depth: place.depth + 1,
                uses,
                decided,
            };
            self.add(most, below);
            spare = most - (self.draft.lines.len() - before);
        }
    }

    /// What stands at this place, with so many nodes under it if it has children.
    fn node(&mut self, rest: usize, place: &Place) -> Node {
        let knobs = self.knobs;
        let root = place.parent.is_none();
        let stops = !root && knobs.stops > 0 && self.random.one_in(knobs.stops);
        if rest == 0 || stops {
            return Node::Leaf;
        }
        let kinds = if root { knobs.root } else { knobs.inner };
        let by_order = knobs.order == Order::Rolls && !root;
        let roll = if by_order {
            place.weight.is_none()
        } else {
            kinds.rarity > 0 && self.random.one_in(kinds.rarity)
        };
        if roll {
            let of = self.random.below(knobs.totals.len());
            // Where one total may not stand, the other may.
            let mut either = [of, knobs.totals.len() - 1 - of].into_iter();
            if let Some(of) = either.find(|&of| self.may_roll(of, rest, place)) {
                return Node::Chance(of);
            }
            // No decision may stand in its place.
            if by_order {
                return Node::Leaf;
            }
        }
        Node::Decision(match place.decided {
            Some(side) if knobs.order != Order::Any => other(side),
            _ => self.random.pick(kinds.sides),
        })
    }

    fn total(&self, of: usize) -> usize {
        self.knobs.totals[of] as usize
    }

    /// Whether a C of this total may stand at this place.
    fn may_roll(&self, of: usize, rest: usize, place: &Place) -> bool {
        let total = self.total(of);
        // Each child weighs at least 1, so there are no more than T.
        let room = match self.knobs.weights {
            Weights::Dice => rest >= rolls(total).len(),
            _ => rest <= total || !self.above_leaves(place.depth),
        };
        let chances = place.uses.iter().sum::<u32>() as usize;
        room && chances < self.knobs.chances && self.grains_with(of, place) <= self.knobs.grains
    }

    /// The grain count with a C of this total at this place.
    fn grains_with(&self, of: usize, place: &Place) -> i64 {
        let mut uses = self.most_uses;
        uses[of] = uses[of].max(place.uses[of] + 1);
        let powers = self.knobs.totals.iter().zip(uses);
        let powers = powers.map(|(total, uses)| total.saturating_pow(uses));
        powers.fold(1, i64::saturating_mul)
    }

    /// Whether all children of a node at this depth are leaves, as a path must
    /// end there.
    fn above_leaves(&self, depth: usize) -> bool {
        depth + 1 == self.knobs.path
    }

    /// The lengths of the children's runs, in line order.
    fn sizes(&mut self, node: &Node, rest: usize, depth: usize) -> Vec<usize> {
        let knobs = self.knobs;
        let most = match node {
            Node::Chance(of) => rest.min(self.total(*of)),
            _ => rest,
        };
        let dice = match node {
            Node::Chance(of) if knobs.weights == Weights::Dice => Some(rolls(self.total(*of))),
            _ => None,
        };
        if self.above_leaves(depth) {
            return vec![1; dice.map_or(rest, |rolls| rolls.len())];
        }
        if let Some(rolls) = dice {
            return match knobs.shape {
                Shape::Levels(lengths) => rolled(rest, rolls.len(), lengths[depth - 1]),
                _ => self.divided(rest, rolls.len()),
            };
        }
        let root = depth == 1;
        if root && knobs.forced && matches!(node, Node::Decision(_)) {
            return vec![rest];
        }
        let children = match knobs.shape {
            Shape::Flat => rest,
            Shape::Deep => {
                let spare = rest.saturating_sub(knobs.path - depth);
                1 + self.random.below(1 + spare.min(3))
            }
            Shape::Bushy(least, greatest) => least + self.random.below(greatest - least + 1),
            Shape::Any => match self.random.below(3) {
                0 => 1,
                1 => 1 + self.random.below(6),
                _ => 1 + self.random.below(rest),
            },
            Shape::Even(children) => return vec![rest / children; children],
            Shape::Chains if root => return chains(rest, knobs.path - 1),
            Shape::Chains => return vec![rest],
            Shape::Levels(lengths) => return plays(rest, lengths[depth - 1]),
        };
        self.divided(rest, children.min(most))
    }

    /// Divides so many nodes among so many children.
    fn divided(&mut self, rest: usize, children: usize) -> Vec<usize> {
        match self.knobs.shape {
            Shape::Deep => {
                let mut sizes = vec![1; children];
                sizes[self.random.below(children)] += rest - children;
                sizes
            }
            _ => parts(self.random, rest, children),
        }
    }

    /// Weights for so many children, which sum to this total.
    fn weights(&mut self, total: usize, children: usize) -> Vec<Option<i64>> {
        let weights = match self.knobs.weights {
            Weights::Any => parts(self.random, total, children),
            Weights::Even => equal_parts(total, children),
            Weights::Uneven => lumps(self.random, total, children),
            Weights::Dice => rolls(total),
        };
        let written = weights.iter().map(|weight| Some(*weight as i64));
        written.collect()
    }

    fn utility(&mut self) -> i64 {
        let (lowest, highest) = self.knobs.ends;
        match &self.knobs.utilities {
            Utilities::Spread => match self.random.below(8) {
                0 => lowest,
                1 => highest,
                2 => 0.clamp(lowest, highest),
                _ => self.random.between(lowest, highest),
            },
            Utilities::Uniform => self.random.between(lowest, highest),
            Utilities::OneOf(utilities) => self.random.pick(utilities),
        }
    }
}

/// The side that decides after this one.
fn other(side: u8) -> u8 {
    match side {
        b'M' => b'N',
        _ => b'M',
    }
}

/// Runs of this length, and a shorter one for what is left over.
fn chains(rest: usize, length: usize) -> Vec<usize> {
    let mut sizes = vec![length; rest / length];
    sizes.extend(Some(rest % length).filter(|left| *left > 0));
    sizes
}

/// Runs of this length, and leaves for what is left over.
fn plays(rest: usize, length: usize) -> Vec<usize> {
    let mut sizes = vec![length; rest / length];
    sizes.resize(sizes.len() + rest % length, 1);
    sizes
}

/// A run for each roll: as many of this length as there are nodes for, then leaves.
fn rolled(rest: usize, rolls: usize, length: usize) -> Vec<usize> {
    let long = (rest - rolls).checked_div(length - 1).unwrap_or(0);
    let run = |roll| if roll < long { length } else { 1 };
    (0..rolls).map(run).collect()
}

/// Divides `whole` at random into so many parts, each at least 1; in half the
/// cases by ones, in the others in great lumps.
pub fn parts(random: &mut Random, whole: usize, count: usize) -> Vec<usize> {
    if whole > count && random.one_in(2) {
        return lumps(random, whole, count);
    }
    let mut parts = vec![1; count];
    for _ in count..whole {
        parts[random.below(count)] += 1;
    }
    parts
}

fn lumps(random: &mut Random, whole: usize, count: usize) -> Vec<usize> {
    let mut parts = vec![1; count];
    let mut left = whole - count;
    while left > 0 {
        let lump = 1 + random.below(left);
        parts[random.below(count)] += lump;
        left -= lump;
    }
    parts
}

/// Divides `whole` into so many parts that differ by 1 at most.
fn equal_parts(whole: usize, count: usize) -> Vec<usize> {
    let larger = whole % count;
    let part = |i: usize| whole / count + usize::from(i < larger);
    (0..count).map(part).collect()
}

/// In how many ways each roll of two dice comes, of this total: 36 with the doubles, 15
/// without them.
fn rolls(total: usize) -> Vec<usize> {
    if total == OPENINGS {
        return vec![1; OPENINGS];
    }
    assert_eq!(total, WAYS as usize, "no total of rolls");
    let mut ways = Vec::with_capacity(ROLLS);
    for first in 1..=6 {
        for second in first..=6 {
            ways.push(if first == second { 1 } else { 2 });
        }
    }
    ways
}
