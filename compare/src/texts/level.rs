//! Tables made by a plan of what each play at the root loses: nothing, though the
//! plays are different subtrees; a grain, nearly a point, a point, or more. Other
//! random tables seldom have plays so close to each other (document 02, Item 8). A
//! plan may also be given, as that of a match is (document 02, Item 11).

use super::draft::Draft;
use super::grow::parts;
use super::knobs::WAYS;
use super::settings::{self, other_than};
use crate::random::Random;
use crate::second::{MOST_CHANCES, MOST_TOTAL};

/// A table whose root is an M or N with two plays to eight. There is a C whose T is at
/// least 2, so that a point has several grains.
pub struct Planned {
    pub text: Vec<u8>,
    /// G, the grains in one point.
    pub grains: i64,
    /// What each play loses, in grains, in line order.
    pub losses: Vec<i64>,
}

/// The most M and N on a path below the root.
const SIDES_BELOW: usize = 3;

/// From so many lines on, all that is added is kept small. What is still to come
/// then has less than 500 lines, so there are never more than 1,024.
const MANY_LINES: usize = 300;

/// What a table is made by.
pub struct Plan {
    pub totals: Levels,
    pub ends: (i64, i64),
    /// What each play loses, in grains; one of them nothing, and none more than the
    /// ends are apart. They are at most eight.
    pub losses: Vec<i64>,
}

/// The T of the C on a path, from the first, as many as K, at least one; each is at least 2,
/// and they are one total or two. A path with fewer C has the first of them, so that their
/// product is the grain count.
#[derive(Clone, Debug)]
pub struct Levels(Vec<i64>);

impl Levels {
    /// So many C of one total; or in half the cases any of two, the first of which is this.
    pub fn of(total: i64, chances: usize, random: &mut Random) -> Levels {
        let mut totals = vec![total; chances];
        if random.one_in(2) {
            let other = other_than(total, random, |random| random.between(2, MOST_TOTAL));
            for at in totals.iter_mut().skip(1) {
                *at = random.pick(&[total, other]);
            }
        }
        Levels(totals)
    }

    /// K.
    fn chances(&self) -> usize {
        self.0.len()
    }

    /// T of a C with so many that may come on a path, itself counted.
    fn total(&self, chances: usize) -> i64 {
        self.0[self.chances() - chances]
    }

    /// In what steps the worths are that stand under this C: the product of its T and all
    /// before.
    fn step(&self, chances: usize) -> i64 {
        self.0[..=self.chances() - chances].iter().product()
    }

    /// G.
    pub fn grains(&self) -> i64 {
        self.0.iter().product()
    }

    /// What the header has: with one total a second, in half the cases, which no C takes.
    fn header(&self, random: &mut Random) -> Vec<i64> {
        let first = self.0[0];
        let used = self.0.iter().find(|total| **total != first).copied();
        let unused = other_than(first, random, |random| random.between(1, MOST_TOTAL));
        let second = used.or(random.one_in(2).then_some(unused));
        let mut totals: Vec<i64> = Some(first).into_iter().chain(second).collect();
        if random.one_in(2) {
            totals.reverse();
        }
        totals
    }
}

pub fn planned(random: &mut Random) -> Planned {
    let total = match random.below(3) {
        0 => random.pick(&[2, 3, WAYS, MOST_TOTAL - 1, MOST_TOTAL]),
        _ => random.between(2, MOST_TOTAL),
    };
    let chances = 1 + random.below(MOST_CHANCES);
    let totals = Levels::of(total, chances, random);
    let grains = totals.grains();
    let ends = settings::ends(random);
    let losses = losses(random, grains, (ends.1 - ends.0) * grains);
    let plan = Plan {
        totals,
        ends,
        losses,
    };
    plan.table(random)
}

impl Plan {
    /// A table by this plan, for either side.
    pub fn table(self, random: &mut Random) -> Planned {
        let Plan {
            totals,
            ends,
            losses,
        } = self;
        let (chances, grains) = (totals.chances(), totals.grains());
        let (low, high) = (ends.0 * grains, ends.1 * grains);
        let side = random.pick(b"MN");
        let most = losses.iter().max().expect("a play");
        let best = match side {
            b'M' => best(random, grains, (low + most, high), high),
            _ => best(random, grains, (low, high - most), low),
        };

        let mut draft = Draft::new(totals.header(random), ends);
        let root = draft.add(side, None, None, None);
        let deep = random.below(losses.len());
        let mut maker = Maker {
            random,
            draft,
            totals,
            grains,
            ends: (low, high),
        };
        for (play, loss) in losses.iter().enumerate() {
            let worth = match side {
                b'M' => best - loss,
                _ => best + loss,
            };
            let place = Place {
                parent: root,
                weight: None,
                chances,
                sides: SIDES_BELOW,
                deep: play == deep,
            };
            maker.add(worth, place);
        }
        Planned {
            text: maker.draft.text(),
            grains,
            losses,
        }
    }
}

/// What the plays lose, where the ends are so many grains apart: some lose
/// nothing, and the others stand among them at random.
fn losses(random: &mut Random, grains: i64, span: i64) -> Vec<i64> {
    if span == 0 || random.one_in(5) {
        return vec![0; 2 + random.below(5)];
    }
    let mut losses = vec![0; 1 + random.below(4)];
    for _ in 0..1 + random.below(4) {
        let loss = match random.below(6) {
            0 | 1 => 1,
            2 => grains - 1,
            3 => grains,
            // Where a point has few grains this may be a point or a grain less.
            4 => random.between(2, (grains - 2).max(2)),
            _ => random.between(1, span),
        };
        losses.insert(random.below(losses.len() + 1), loss);
    }
    losses
}

/// The root's worth, in this range: at the end that is the best, in whole points
/// or in any grains. The end is in the range.
fn best(random: &mut Random, grains: i64, (least, most): (i64, i64), end: i64) -> i64 {
    match random.below(4) {
        0 => end,
        1 | 2 => grains * random.between(up(least, grains), most.div_euclid(grains)),
        _ => random.between(least, most),
    }
}

struct Maker<'a> {
    random: &'a mut Random,
    draft: Draft,
    totals: Levels,
    grains: i64,
    /// In grains.
    ends: (i64, i64),
}

/// Where a node stands.
#[derive(Clone, Copy)]
struct Place {
    parent: i64,
    weight: Option<i64>,
    /// The C that there may be on a path from here on.
    chances: usize,
    /// The M and N that there may be.
    sides: usize,
    /// Whether a path must have all those C, so that the table's K is as planned.
    deep: bool,
}

impl Maker<'_> {
    /// Adds a node of this worth and all under it. The worth is one that the C
    /// which may come can give, so whole points where there may be none.
    fn add(&mut self, worth: i64, place: Place) {
        let many = self.draft.lines.len() > MANY_LINES;
        let may_end = worth % self.grains == 0 && !(place.deep && place.chances > 0);
        // Under a C one more is rare, as they would soon be too many.
        let rarity = if place.weight.is_some() { 6 } else { 2 };
        if place.sides > 0 && !many && self.random.one_in(5) {
            self.add_side(worth, place);
        } else if may_end && (place.chances == 0 || many || !self.random.one_in(rarity)) {
            self.add_leaf(worth / self.grains, place);
        } else {
            self.add_chance(worth, place);
        }
    }

    fn add_leaf(&mut self, utility: i64, place: Place) {
        let parent = Some(place.parent);
        self.draft.add(b'L', parent, place.weight, Some(utility));
    }

    /// Adds an M or N: one child has its worth, and up to two are leaves that are
    /// no better.
    fn add_side(&mut self, worth: i64, place: Place) {
        let (low, high) = self.ends;
        let (kind, least, most) = match self.random.below(2) {
            0 => (b'M', low, worth),
            _ => (b'N', worth, high),
        };
        let (least, most) = (up(least, self.grains), most.div_euclid(self.grains));
        let node = self.draft.add(kind, Some(place.parent), place.weight, None);
        let below = Place {
            parent: node,
            weight: None,
            sides: place.sides - 1,
            ..place
        };
        let children = 1 + self.random.below(3);
        let best = self.random.below(children);
        for child in 0..children {
            if child == best {
                self.add(worth, below);
            } else {
                let utility = self.random.between(least, most);
                self.add_leaf(utility, below);
            }
        }
    }

    fn add_chance(&mut self, worth: i64, place: Place) {
        let node = self.draft.add(b'C', Some(place.parent), place.weight, None);
        let children = self.children(worth, place.chances);
        let deep = self.random.below(children.len());
        for (child, (weight, worth)) in children.into_iter().enumerate() {
            let below = Place {
                parent: node,
                weight: Some(weight),
                chances: place.chances - 1,
                deep: place.deep && child == deep,
                ..place
            };
            self.add(worth, below);
        }
    }

    /// The weights and worths of children whose mean is this worth, where so many
    /// C may come on a path, theirs the first. Their worths are in whole steps: what
    /// the C after it can give.
    fn children(&mut self, worth: i64, chances: usize) -> Vec<(i64, i64)> {
        let (total, grains) = (self.totals.total(chances), self.grains);
        let step = self.totals.step(chances);
        let floor = worth.div_euclid(grains) * grains;
        // T times what is above whole points: a point for so many of the weights,
        // which are less than T, and a rest, which is in whole steps.
        let above = total * (worth - floor);
        let (higher, rest) = (above / grains, above % grains);
        // The rest is one child's; if nothing else divides it, a weight of 1 does.
        let weights = 1..=total - higher;
        let divide: Vec<i64> = weights.filter(|w| rest % (w * step) == 0).collect();
        let weight = self.random.pick(&divide);
        let mut children = vec![(weight, floor + rest / weight)];
        self.divide(&mut children, higher, floor + grains);
        self.divide(&mut children, total - higher - weight, floor);

        if self.draft.lines.len() <= MANY_LINES && self.random.one_in(3) {
            self.trade(&mut children, step);
        }
        for _ in 0..self.random.below(3) {
            self.trade(&mut children, grains);
        }
        let first = self.random.below(children.len());
        children.rotate_left(first);
        children
    }

    /// Divides a weight among up to three children of this worth; among none where
    /// it is 0, as no child may weigh that.
    fn divide(&mut self, children: &mut Vec<(i64, i64)>, weight: i64, worth: i64) {
        if weight == 0 {
            return;
        }
        let weight = weight as usize;
        let count = 1 + self.random.below(weight.min(3));
        let weights = parts(self.random, weight, count);
        children.extend(weights.into_iter().map(|weight| (weight as i64, worth)));
    }

    /// Makes one child higher and another lower by some of these units, as far as
    /// the ends allow and so that the mean stays.
    fn trade(&mut self, children: &mut [(i64, i64)], unit: i64) {
        let up = self.random.below(children.len());
        let down = self.random.below(children.len());
        if up == down {
            return;
        }
        let (low, high) = self.ends;
        let common = gcd(children[up].0, children[down].0);
        let rise = unit * children[down].0 / common;
        let fall = unit * children[up].0 / common;
        let most = ((high - children[up].1) / rise).min((children[down].1 - low) / fall);
        let most = self.random.pick(&[most.min(2), most]);
        let times = self.random.between(0, most);
        children[up].1 += times * rise;
        children[down].1 -= times * fall;
    }
}

/// The quotient rounded up.
fn up(dividend: i64, divisor: i64) -> i64 {
    -(-dividend).div_euclid(divisor)
}

fn gcd(one: i64, other: i64) -> i64 {
    match other {
        0 => one,
        _ => gcd(other, one % other),
    }
}
