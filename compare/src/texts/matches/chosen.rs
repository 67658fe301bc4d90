//! Matches made by a plan of what their plays lose: so many thousandths as are next
//! to a step of a marking scale (document 02, Item 11), nothing, or very much. Other
//! random tables hardly ever have a loss next to a step.

use super::{tiny, Position};
use crate::random::Random;
use crate::second::{FARTHEST_END, MOST_CHANCES, MOST_TOTAL};
use crate::texts::knobs::WIDEST;
use crate::texts::level::{Levels, Plan};
use crate::texts::settings;

/// The steps of both scales, and the thousandths next to them.
pub const NEAR_STEPS: [i64; 18] = [
    19, 20, 21, 39, 40, 41, 49, 50, 51, 79, 80, 81, 99, 100, 101, 159, 160, 161,
];

/// The most that a play loses, in thousandths.
const MOST_LOST: i64 = 1_000 * 2 * FARTHEST_END;

/// A position, and what was planned of it.
pub struct Chosen {
    pub position: Position,
    /// What the play loses; none where it was left to chance.
    pub lost: Option<Lost>,
}

/// A loss in grains, of which a point has so many.
#[derive(Clone, Copy, Debug)]
pub struct Lost {
    pub grains: i64,
    pub point: i64,
}

impl Lost {
    /// In thousandths, rounded down.
    pub fn thousandths(&self) -> i64 {
        1_000 * self.grains / self.point
    }

    /// In thousandths, rounded to the nearest, halves up.
    pub fn nearest(&self) -> i64 {
        (2 * 1_000 * self.grains + self.point) / (2 * self.point)
    }

    /// Whether it is no whole number of thousandths.
    pub fn is_rounded(&self) -> bool {
        1_000 * self.grains % self.point > 0
    }
}

/// The positions of a match. One of twelve is any small one, as a rule, with a
/// decision or without.
pub fn chosen(random: &mut Random) -> Vec<Chosen> {
    let count = match random.below(20) {
        0 => random.between(9, 40),
        _ => random.between(1, 8),
    };
    let position = |_| match random.one_in(12) {
        true => Chosen {
            position: super::position(tiny, random),
            lost: None,
        },
        false => planned(random),
    };
    (0..count).map(position).collect()
}

/// A position where one of two plays to six, with the loss that is planned, is made.
fn planned(random: &mut Random) -> Chosen {
    let thousandths = thousandths(random);
    let totals = totals(thousandths, random);
    let point = totals.grains();
    let loss = grains(thousandths, point, random).expect("a loss so listed");

    let mut losses = vec![0; 1 + random.below(2)];
    // Another play, which is not made, loses other thousandths that were chosen.
    for _ in 0..random.below(3) {
        let other = random.pick(&NEAR_STEPS);
        losses.extend(grains(other, point, random));
    }
    let play = random.below(losses.len() + 1);
    losses.insert(play, loss);
    let most = losses.iter().max().expect("a play");
    let planned = Plan {
        totals,
        ends: ends(most.div_euclid(point) + 1, random),
        losses,
    };
    let text = planned.table(random).text;
    Chosen {
        position: Position::new(play as i64 + 1, text),
        lost: Some(Lost {
            grains: loss,
            point,
        }),
    }
}

/// The thousandths that the play's loss is listed as.
fn thousandths(random: &mut Random) -> i64 {
    match random.below(12) {
        0 => 0,
        // It would be next to a step if its upper bits were lost.
        1 => {
            let near = random.pick(&NEAR_STEPS);
            match random.one_in(2) {
                true => near + (random.between(1, 1_000) << 8),
                false => near + (random.between(1, 10_000) << 16),
            }
        }
        2 => match random.below(3) {
            0 => random.between(162, 2_000),
            1 => random.between(2_000, MOST_LOST),
            _ => MOST_LOST,
        },
        _ => random.pick(&NEAR_STEPS),
    }
}

/// The totals of the C on a path by which some loss is listed as so many thousandths. In
/// one of four cases a thousandth is a whole number of grains, where there is one total.
fn totals(thousandths: i64, random: &mut Random) -> Levels {
    loop {
        let (total, chances) = match random.one_in(4) {
            true => (10 * random.between(1, 6), 3 + random.below(2)),
            false => (
                random.between(2, MOST_TOTAL),
                1 + random.below(MOST_CHANCES),
            ),
        };
        let totals = Levels::of(total, chances, random);
        if grains(thousandths, totals.grains(), random).is_some() {
            return totals;
        }
    }
}

/// Grains that are listed as so many thousandths, if there are any: the fewest, the
/// most, which are the nearest to a thousandth more, or any.
fn grains(thousandths: i64, point: i64, random: &mut Random) -> Option<i64> {
    let up = |dividend: i64| -(-dividend).div_euclid(1_000);
    let fewest = up(thousandths * point);
    let most = up((thousandths + 1) * point) - 1;
    // Nobody loses more than the widest ends are apart.
    let most = most.min(2 * FARTHEST_END * point);
    (fewest <= most).then(|| match random.below(4) {
        0 => fewest,
        1 | 2 => most,
        _ => random.between(fewest, most),
    })
}

/// Ends that are at least so many points apart, or the widest.
fn ends(apart: i64, random: &mut Random) -> (i64, i64) {
    let (lowest, highest) = settings::ends(random);
    if highest - lowest >= apart {
        (lowest, highest)
    } else if apart < FARTHEST_END {
        let lowest = random.between(-FARTHEST_END, FARTHEST_END - apart);
        (lowest, lowest + apart)
    } else {
        WIDEST
    }
}
