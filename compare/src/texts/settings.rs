//! Settings of the knobs for the tests: tables over the full ranges of document
//! 01, tables where one thing is frequent, and tables beyond one limit.

use super::knobs::{Kinds, Knobs, Order, Shape, Utilities, Weights, OPENINGS, WAYS, WIDEST};
use crate::random::Random;
use crate::second::{
    FARTHEST_END, LONGEST_PATH, MOST_CHANCES, MOST_GRAINS, MOST_NODES, MOST_TOTAL,
};

/// The shapes by which trees with C are of all sorts.
const NOT_FLAT: [Shape; 3] = [Shape::Deep, Shape::Bushy(2, 6), Shape::Any];

impl Knobs {
    /// Valid tables of any size over the full ranges of document 01.
    pub fn any(random: &mut Random) -> Knobs {
        let kinds = Kinds::either(random.pick(&[0, 1, 2, 4, 10]));
        Knobs {
            nodes: nodes(random),
            totals: totals(random),
            grains: MOST_GRAINS,
            ends: ends(random),
            utilities: Utilities::Spread,
            root: kinds,
            inner: kinds,
            order: Order::Any,
            chances: MOST_CHANCES,
            path: path(random),
            shape: random.pick(&[Shape::Flat, Shape::Deep, Shape::Bushy(2, 6), Shape::Any]),
            forced: false,
            weights: random.pick(&[Weights::Any, Weights::Any, Weights::Even, Weights::Uneven]),
            stops: 0,
        }
    }

    /// Valid tables without C.
    pub fn plain(random: &mut Random) -> Knobs {
        Knobs::any(random).with_chances(0)
    }

    /// The ends are one point apart and C are frequent, so that many worths
    /// differ by less than a point.
    pub fn close(random: &mut Random) -> Knobs {
        let lowest = random.between(-FARTHEST_END, FARTHEST_END - 1);
        let knobs = Knobs {
            nodes: 4 + random.below(60),
            ends: (lowest, lowest + 1),
            path: LONGEST_PATH,
            shape: random.pick(&NOT_FLAT),
            ..Knobs::any(random)
        };
        knobs.with_chances(2 + random.below(2))
    }

    /// Few grains from end to end and weights that seldom divide T, so that a
    /// window under a C is often decided by how it is rounded.
    pub fn narrow(random: &mut Random) -> Knobs {
        let lowest = random.between(-4, 2);
        let knobs = Knobs {
            nodes: 6 + random.below(40),
            totals: two_in(2, random, |random| random.between(2, 7)),
            ends: (lowest, lowest + random.between(1, 3)),
            chances: 1 + random.below(2),
            path: LONGEST_PATH,
            shape: random.pick(&NOT_FLAT),
            weights: Weights::Any,
            ..Knobs::any(random)
        };
        knobs.with_chances(2 + random.below(2))
    }

    /// Two or three utilities alone, and C that are few and even, so that plays
    /// are often worth the same.
    pub fn ties(random: &mut Random) -> Knobs {
        let (lowest, highest) = ends(random);
        let mut utilities = vec![lowest, highest];
        if random.one_in(2) {
            utilities.push(random.between(lowest, highest));
        }
        let knobs = Knobs {
            nodes: 4 + random.below(40),
            ends: (lowest, highest),
            utilities: Utilities::OneOf(utilities),
            path: LONGEST_PATH,
            shape: random.pick(&NOT_FLAT),
            weights: Weights::Even,
            ..Knobs::any(random)
        };
        knobs.with_chances(random.pick(&[0, 4]))
    }

    /// A root M or N with one child.
    pub fn forced(random: &mut Random) -> Knobs {
        let knobs = Knobs::any(random);
        Knobs {
            nodes: knobs.nodes.max(2),
            root: Kinds::either(0),
            path: LONGEST_PATH,
            forced: true,
            ..knobs
        }
    }

    /// As dice games have them: every C has the 21 rolls of two dice, T 36, or with two
    /// totals the 15 opening rolls.
    pub fn dice(random: &mut Random) -> Knobs {
        let nodes = match random.below(20) {
            0..=9 => random.between(2, 100),
            10..=18 => random.between(101, 400),
            _ => random.between(401, MOST_NODES as i64),
        };
        Knobs {
            nodes: nodes as usize,
            totals: rolls(2, random),
            root: Kinds::either(4),
            order: Order::Rolls,
            path: LONGEST_PATH,
            shape: random.pick(&[Shape::Deep, Shape::Deep, Shape::Bushy(1, 6)]),
            weights: Weights::Dice,
            stops: 3,
            ..Knobs::any(random)
        }
    }

    /// As a position of a dice game has them: after each play of the root the 21 rolls, or
    /// with two totals the 15 opening rolls; after some rolls plays again; one C on a path,
    /// or two.
    pub fn position(random: &mut Random) -> Knobs {
        let chances = 1 + random.below(2);
        let nodes = random.between(45, [100, 250][chances - 1]);
        Knobs {
            nodes: nodes as usize,
            totals: rolls(3, random),
            ends: apart(random),
            root: Kinds::either(0),
            order: Order::Rolls,
            chances,
            path: LONGEST_PATH,
            shape: Shape::Bushy(2, 4),
            weights: Weights::Dice,
            ..Knobs::any(random)
        }
    }

    /// C of every total at the root and one below the other, with children of every kind
    /// and weights that are seldom equal; half the roots are no C, so that windows below
    /// them narrow.
    pub fn chancy(random: &mut Random) -> Knobs {
        let knobs = Knobs {
            nodes: 10 + random.below(60),
            ends: apart(random),
            path: LONGEST_PATH,
            shape: random.pick(&NOT_FLAT),
            weights: random.pick(&[Weights::Any, Weights::Uneven]),
            ..Knobs::any(random)
        };
        let knobs = knobs.with_chances(1 + random.below(3));
        Knobs {
            root: random.pick(&[Kinds::either(0), knobs.root]),
            ..knobs
        }
    }

    /// T 64, 1,024 nodes, the widest ends and many C; every leaf at the lowest
    /// end in one of four cases, at the highest in one, otherwise each at either.
    pub fn largest(random: &mut Random) -> Knobs {
        let (lowest, highest) = WIDEST;
        let utilities = match random.below(4) {
            0 => vec![lowest],
            1 => vec![highest],
            _ => vec![lowest, highest],
        };
        let knobs = Knobs {
            totals: vec![MOST_TOTAL],
            utilities: Utilities::OneOf(utilities),
            shape: random.pick(&NOT_FLAT),
            ..Knobs::longest(random)
        };
        knobs.with_chances(1 + random.below(4))
    }

    /// 1,024 nodes without C, the widest ends.
    pub fn largest_plain(random: &mut Random) -> Knobs {
        Knobs::longest(random).with_chances(0)
    }

    /// Paths of 64 nodes that share the root, 1,024 nodes, M and N by turns.
    pub fn largest_chains(random: &mut Random) -> Knobs {
        Knobs {
            order: Order::ByTurns,
            shape: Shape::Chains,
            ..Knobs::largest_plain(random)
        }
    }

    /// T 64 and a root of this kind, M or N, with 1,023 leaves, each at an end
    /// or a point from it.
    pub fn largest_flat(sides: &'static [u8], random: &mut Random) -> Knobs {
        let (lowest, highest) = WIDEST;
        Knobs {
            totals: vec![MOST_TOTAL],
            utilities: Utilities::OneOf(vec![lowest, lowest + 1, highest - 1, highest]),
            root: Kinds { sides, rarity: 0 },
            shape: Shape::Flat,
            ..Knobs::longest(random)
        }
    }

    /// 1,024 nodes and the widest ends.
    fn longest(random: &mut Random) -> Knobs {
        Knobs {
            nodes: MOST_NODES,
            ends: WIDEST,
            path: LONGEST_PATH,
            ..Knobs::any(random)
        }
    }

    /// The trees of document 000's first experiment: so many children at each
    /// inner node, so many levels below the root, and utilities from 0 to 100.
    pub fn even(children: usize, levels: u32) -> Knobs {
        Knobs {
            nodes: (0..=levels).map(|level| children.pow(level)).sum(),
            ends: (0, 100),
            shape: Shape::Even(children),
            ..Knobs::by_turns()
        }
    }

    /// M and N by turns from an M, without C, T 1, the utilities uniform between
    /// the widest ends. No number is drawn but for the utilities.
    pub fn by_turns() -> Knobs {
        Knobs {
            nodes: MOST_NODES,
            totals: vec![1],
            grains: MOST_GRAINS,
            ends: WIDEST,
            utilities: Utilities::Uniform,
            root: Kinds {
                sides: b"M",
                rarity: 0,
            },
            inner: Kinds::either(0),
            order: Order::ByTurns,
            chances: MOST_CHANCES,
            path: LONGEST_PATH,
            shape: Shape::Flat,
            forced: false,
            weights: Weights::Even,
            stops: 0,
        }
    }

    // Settings that are valid but for one limit.

    /// Paths of 65 or 66 nodes.
    pub fn too_deep(random: &mut Random) -> Knobs {
        let path = LONGEST_PATH + 1 + random.below(2);
        Knobs {
            nodes: path + random.below(40),
            path,
            shape: Shape::Deep,
            ..Knobs::any(random)
        }
    }

    /// Five or six C on some path, as a rule.
    pub fn too_chancy(random: &mut Random) -> Knobs {
        let path = random.between(10, LONGEST_PATH as i64) as usize;
        let knobs = Knobs {
            nodes: path + random.below(40),
            chances: MOST_CHANCES + 1 + random.below(2),
            grains: i64::MAX,
            path,
            shape: random.pick(&[Shape::Deep, Shape::Any]),
            ..Knobs::any(random)
        };
        knobs.with_chances(1 + random.below(2))
    }

    /// Two large totals and C at every node that may be one, so that the grain count is
    /// too great, as a rule.
    pub fn too_grainy(random: &mut Random) -> Knobs {
        let first = random.between(24, MOST_TOTAL);
        let knobs = Knobs {
            nodes: 16 + random.below(100),
            totals: vec![
                first,
                other_than(first, random, |r| r.between(24, MOST_TOTAL)),
            ],
            grains: i64::MAX,
            path: LONGEST_PATH,
            shape: Shape::Bushy(2, 4),
            ..Knobs::any(random)
        };
        knobs.with_chances(1)
    }

    /// 1,025 nodes.
    pub fn too_long(random: &mut Random) -> Knobs {
        Knobs {
            nodes: MOST_NODES + 1,
            path: LONGEST_PATH,
            ..Knobs::any(random)
        }
    }

    /// One inner node of so many is a C, the root too; 0 for none.
    fn with_chances(self, rarity: usize) -> Knobs {
        let kinds = Kinds::either(rarity);
        Knobs {
            root: kinds,
            inner: kinds,
            ..self
        }
    }
}

/// Any number of nodes, the small ones more often.
fn nodes(random: &mut Random) -> usize {
    let most = MOST_NODES as i64;
    let nodes = match random.below(100) {
        0..=39 => random.between(1, 8),
        40..=74 => random.between(9, 40),
        75..=89 => random.between(41, 200),
        90..=97 => random.between(201, most),
        _ => random.between(most - 2, most),
    };
    nodes as usize
}

/// One total, or in half the cases two.
fn totals(random: &mut Random) -> Vec<i64> {
    match random.below(16) {
        0 => random
            .pick(&[[WAYS, OPENINGS as i64], [OPENINGS as i64, WAYS]])
            .to_vec(),
        // So small that both have many uses on a path.
        1 | 2 => {
            let first = random.between(1, 8);
            vec![
                first,
                other_than(first, random, |random| random.between(1, 8)),
            ]
        }
        // One divides the other.
        3 => {
            let small = random.between(1, MOST_TOTAL / 2);
            let large = small * random.between(2, MOST_TOTAL / small);
            random.pick(&[[small, large], [large, small]]).to_vec()
        }
        4..=7 => {
            let first = total(random);
            vec![first, other_than(first, random, total)]
        }
        _ => vec![total(random)],
    }
}

/// One total, or in one of so many cases two, the first and the second.
pub fn two_in(n: usize, random: &mut Random, total: fn(&mut Random) -> i64) -> Vec<i64> {
    let first = total(random);
    match random.one_in(n) {
        true => vec![first, other_than(first, random, total)],
        false => vec![first],
    }
}

/// A total that differs from this one.
pub fn other_than(first: i64, random: &mut Random, total: fn(&mut Random) -> i64) -> i64 {
    loop {
        let second = total(random);
        if second != first {
            return second;
        }
    }
}

/// The total of the rolls, or in one of so many cases that of the opening rolls too.
fn rolls(n: usize, random: &mut Random) -> Vec<i64> {
    let openings = OPENINGS as i64;
    match random.one_in(n) {
        true => random.pick(&[[WAYS, openings], [openings, WAYS]]).to_vec(),
        false => vec![WAYS],
    }
}

fn total(random: &mut Random) -> i64 {
    match random.below(4) {
        0 => random.pick(&[1, 2, WAYS, MOST_TOTAL - 1, MOST_TOTAL]),
        _ => random.between(1, MOST_TOTAL),
    }
}

/// The lowest end and the highest.
pub fn ends(random: &mut Random) -> (i64, i64) {
    let far = FARTHEST_END;
    let one = random.between(-far, far);
    let other = random.between(-far, far);
    match random.below(8) {
        0 | 1 => WIDEST,
        2 => (one, one),
        3 => random.pick(&[(-far, -far), (far, far), (0, 0), (0, 1), (-1, 0), (-1, 1)]),
        4 => (one, (one + random.between(1, 20)).min(far)),
        5 => random.pick(&[(-far, one), (one, far)]),
        6 => (-random.between(0, 100), random.between(0, 100)),
        _ => (one.min(other), one.max(other)),
    }
}

/// Ends that are apart.
fn apart(random: &mut Random) -> (i64, i64) {
    let points = random.pick(&[1, 3, 10, 100, 6_000, 2 * FARTHEST_END]);
    let lowest = random.between(-FARTHEST_END, FARTHEST_END - points);
    (lowest, lowest + points)
}

/// The most nodes on a path.
fn path(random: &mut Random) -> usize {
    match random.below(6) {
        0 => LONGEST_PATH - 1,
        // Two is enough for any number of nodes: a root and its leaves.
        1 => random.between(2, LONGEST_PATH as i64) as usize,
        _ => LONGEST_PATH,
    }
}
