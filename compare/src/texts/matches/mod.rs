//! Random matches for the report: whole ones, by `damage` ones that are damaged or
//! cut, and by `chosen` ones whose plays lose what is planned. And the numbers of
//! marking scales.

pub mod chosen;
mod damage;
pub mod rounding;

use super::knobs::{Kinds, Knobs, Shape, Weights};
use super::settings::two_in;
use crate::random::Random;
use crate::second::{self, root_children, Kind, LONGEST_PATH, MOST_POSITIONS, MOST_TOTAL};

/// A position as it is written: the line with its play number, and its table.
#[derive(Clone, Debug)]
pub struct Position {
    pub play: Vec<u8>,
    pub table: Vec<u8>,
}

impl Position {
    pub fn new(play: i64, table: Vec<u8>) -> Position {
        let play = play_line(play);
        Position { play, table }
    }

    /// The number of bytes.
    pub fn length(&self) -> usize {
        self.play.len() + self.table.len()
    }
}

fn play_line(play: i64) -> Vec<u8> {
    format!("{play:>4}\n").into_bytes()
}

/// The file of these positions.
pub fn file(positions: &[Position]) -> Vec<u8> {
    let parts = positions.iter().map(|p| [&p.play[..], &p.table].concat());
    parts.collect::<Vec<_>>().concat()
}

/// A file: a whole match in one of three cases, otherwise a damaged one. (A
/// damaged match may still be one by luck.)
pub fn case(random: &mut Random) -> Vec<u8> {
    match random.below(3) {
        0 => file(&whole(random)),
        _ => damage::damaged(random),
    }
}

/// The number of a marking scale: 1 or 2, or in one of six cases none of them.
pub fn scale(random: &mut Random) -> i64 {
    match random.one_in(6) {
        true => no_scale(random),
        false => random.between(1, 2),
    }
}

/// Numbers that no scale has: next to 1 and 2, the farthest, and such as a narrower
/// type would take for 1 or 2.
pub const NO_SCALES: [i64; 18] = [
    0,
    3,
    -1,
    -2,
    i64::MIN,
    i64::MAX,
    i64::MIN + 1,
    i64::MIN + 2,
    257,
    258,
    -255,
    -254,
    65_537,
    65_538,
    (1 << 32) + 1,
    (1 << 32) + 2,
    1 - (1 << 32),
    2 - (1 << 32),
];

/// A number that no scale has.
pub fn no_scale(random: &mut Random) -> i64 {
    match random.below(4) {
        0 => random.pick(&NO_SCALES[..6]),
        1 => random.pick(&NO_SCALES),
        // 1 or 2, and bits that a narrower type would lose.
        2 => {
            let above = random.bits().cast_signed() | 1;
            random.between(1, 2) + (above << random.pick(&[8, 16, 32]))
        }
        _ => match random.bits().cast_signed() {
            1 | 2 => 0,
            number => number,
        },
    }
}

/// A match with nothing wrong in it, mostly a short one.
pub fn whole(random: &mut Random) -> Vec<Position> {
    let count = match random.below(100) {
        0..=2 => 0,
        3..=32 => 1,
        33..=62 => random.between(2, 3),
        63..=92 => random.between(4, 12),
        93..=97 => random.between(13, 60),
        _ => random.between(MOST_POSITIONS as i64 - 1, MOST_POSITIONS as i64),
    };
    whole_of(count as usize, random)
}

/// Positions with nothing wrong in them, so many; small ones where they are many.
pub fn whole_of(count: usize, random: &mut Random) -> Vec<Position> {
    let setting = if count > 12 { tiny } else { usual };
    let positions = (0..count).map(|_| position(setting, random));
    positions.collect()
}

/// A position by this setting of the knobs: the play is one of the root's
/// children, or any number where there is no choice, as at a root with one child.
pub fn position(setting: fn(&mut Random) -> Knobs, random: &mut Random) -> Position {
    let text = setting(random).text(random);
    let table = second::read(&text).expect("a valid table");
    let play = match (table.nodes[0].kind, root_children(&table)) {
        (Kind::Chance | Kind::Leaf, _) | (_, 1) => any_number(random),
        (Kind::Max | Kind::Min, children) => random.between(1, children as i64),
    };
    Position::new(play, text)
}

/// A number that has room in 4 columns.
fn any_number(random: &mut Random) -> i64 {
    match random.below(3) {
        0 => random.between(-2, 3),
        1 => random.pick(&[-999, -1, 0, 1, 1_023, 1_024, 9_999]),
        _ => random.between(-999, 9_999),
    }
}

/// A table of up to ten nodes; in half the cases the ends are a few points apart
/// and C are among the plays, so that losses of less than a point are frequent.
pub fn tiny(random: &mut Random) -> Knobs {
    let knobs = Knobs::any(random);
    if random.one_in(2) {
        let nodes = 1 + random.below(6);
        return Knobs { nodes, ..knobs };
    }
    let lowest = random.between(-3, 3);
    Knobs {
        nodes: 4 + random.below(7),
        totals: two_in(2, random, |random| random.between(2, MOST_TOTAL)),
        ends: (lowest, lowest + random.between(1, 3)),
        root: Kinds::either(8),
        inner: Kinds::either(1),
        path: LONGEST_PATH,
        shape: Shape::Bushy(2, 3),
        weights: Weights::Any,
        ..knobs
    }
}

fn usual(random: &mut Random) -> Knobs {
    match random.below(10) {
        0 => Knobs::close(random),
        1 => Knobs::narrow(random),
        2 => Knobs::ties(random),
        3 => Knobs::forced(random),
        4 => Knobs::dice(random),
        5 | 6 => tiny(random),
        _ => Knobs::any(random),
    }
}
