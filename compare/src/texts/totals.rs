//! Tables with two totals (document 02, Item 5), by a plan of how often each has its
//! greatest number of uses on a path, so that the grain count is known. Random tables
//! hardly ever have one next to the greatest that is allowed.

use std::sync::LazyLock;

use super::draft::Draft;
use super::grow::parts;
use super::settings;
use crate::random::Random;
use crate::second::{Refusal, MOST_CHANCES, MOST_GRAINS, MOST_TOTAL};

/// The first total and the second, and for each the greatest number of its uses on a path.
#[derive(Clone, Copy, Debug)]
pub struct Plan {
    pub totals: [i64; 2],
    pub uses: [usize; 2],
}

/// Where a grain count lies.
#[derive(Clone, Copy, Debug, PartialEq, Eq)]
pub enum Grains {
    /// Less than a hundredth below the greatest that is allowed.
    JustBelow,
    /// The greatest that is allowed.
    Greatest,
    /// Less than a hundredth above it.
    JustAbove,
    /// Any that is refused.
    Above,
    /// Past 32 bits.
    FarAbove,
}

pub const GRAINS: [Grains; 5] = [
    Grains::JustBelow,
    Grains::Greatest,
    Grains::JustAbove,
    Grains::Above,
    Grains::FarAbove,
];

impl Grains {
    pub fn contains(self, grains: i64) -> bool {
        let hundredth = MOST_GRAINS / 100;
        match self {
            Grains::JustBelow => (MOST_GRAINS - hundredth..MOST_GRAINS).contains(&grains),
            Grains::Greatest => grains == MOST_GRAINS,
            Grains::JustAbove => (MOST_GRAINS + 1..MOST_GRAINS + hundredth).contains(&grains),
            Grains::Above => grains > MOST_GRAINS,
            Grains::FarAbove => grains >= 1 << 32,
        }
    }
}

/// Every plan there is.
static PLANS: LazyLock<Vec<Plan>> = LazyLock::new(|| {
    let mut plans = Vec::new();
    for first in 1..=MOST_TOTAL {
        for second in (1..=MOST_TOTAL).filter(|second| *second != first) {
            for of_first in 0..=MOST_CHANCES {
                for of_second in 0..=MOST_CHANCES {
                    plans.push(Plan {
                        totals: [first, second],
                        uses: [of_first, of_second],
                    });
                }
            }
        }
    }
    plans
});

/// Those whose grain count lies there, in the order of `GRAINS`.
static OF_GRAINS: LazyLock<[Vec<Plan>; 5]> = LazyLock::new(|| {
    GRAINS.map(|grains| {
        let here = PLANS.iter().filter(|plan| grains.contains(plan.grains()));
        here.copied().collect()
    })
});

impl Plan {
    /// One whose grain count is allowed.
    pub fn any(random: &mut Random) -> Plan {
        loop {
            let plan = random.pick(&PLANS);
            if plan.grains() <= MOST_GRAINS {
                return plan;
            }
        }
    }

    /// One whose grain count lies there.
    pub fn of(grains: Grains, random: &mut Random) -> Plan {
        random.pick(&OF_GRAINS[grains as usize])
    }

    pub fn grains(&self) -> i64 {
        let powers = [0, 1].map(|of| self.totals[of].pow(self.uses[of] as u32));
        powers.iter().product()
    }

    /// A table by this plan.
    pub fn text(&self, random: &mut Random) -> Vec<u8> {
        self.draft(random, false).text()
    }

    /// Such a table; its root is an M or N if that is asked for.
    fn draft(&self, random: &mut Random, side: bool) -> Draft {
        let ends = match random.below(3) {
            0 => {
                let lowest = random.between(-9, 5);
                (lowest, lowest + random.between(1, 9))
            }
            _ => settings::ends(random),
        };
        let mut maker = Maker {
            draft: Draft::new(self.totals.to_vec(), ends),
            random,
        };
        let paths = maker.paths(self.uses);
        match side {
            true => maker.add_side(None, None, paths),
            false => maker.add(None, None, paths),
        }
        maker.draft
    }
}

/// A table whose grain count is too great, and that has nothing else wrong.
pub fn too_grainy(random: &mut Random) -> Vec<u8> {
    let grains = random.pick(&[Grains::JustAbove, Grains::Above, Grains::FarAbove]);
    Plan::of(grains, random).text(random)
}

/// Such a table where the weights under one more C sum to neither total: it is refused 9.
pub fn too_grainy_and_wrong(random: &mut Random) -> (Vec<u8>, Refusal) {
    let plan = Plan::of(Grains::Above, random);
    let mut draft = plan.draft(random, true);
    let larger = draft.larger_total();
    let wrong = (1..=larger).filter(|sum| !plan.totals.contains(sum));
    let wrong: Vec<i64> = wrong.collect();
    let chance = draft.add(b'C', Some(0), None, None);
    let lowest = draft.lowest;
    let sum = random.pick(&wrong);
    draft.add(b'L', Some(chance), Some(sum), Some(lowest));
    let line = chance as usize + 1;
    (draft.text(), Refusal { number: 9, line })
}

/// A table in which one C, a child of the root, has leaves alone, of these weights. Where
/// the totals are valid, so is all the rest but these weights.
pub fn with_weights(totals: [i64; 2], weights: &[i64], random: &mut Random) -> Vec<u8> {
    let mut draft = Draft::new(totals.to_vec(), (-3, 5));
    let root = draft.add(random.pick(b"MN"), None, None, None);
    draft.add(b'L', Some(root), None, Some(1));
    let chance = draft.add(b'C', Some(root), None, None);
    for weight in weights {
        let utility = random.between(-3, 5);
        draft.add(b'L', Some(chance), Some(*weight), Some(utility));
    }
    draft.text()
}

/// The totals, by their places, of the C that are still to come on a path.
type Path = Vec<usize>;

struct Maker<'a> {
    draft: Draft,
    random: &'a mut Random,
}

impl Maker<'_> {
    /// Paths with these greatest numbers of uses: one with both, if there is room for it,
    /// or two, on each of which one total has that number; and some shorter ones.
    fn paths(&mut self, uses: [usize; 2]) -> Vec<Path> {
        let [first, second] = uses;
        let mut paths = Vec::new();
        if first + second <= MOST_CHANCES && self.random.one_in(2) {
            paths.push(self.path(uses));
        } else {
            // In half the cases the other total has no use on the path.
            let mut some = |other: usize, left: usize| match self.random.one_in(2) {
                true => 0,
                false => self.random.below(1 + other.min(left)),
            };
            let of_second = some(second, MOST_CHANCES - first);
            let of_first = some(first, MOST_CHANCES - second);
            paths.push(self.path([first, of_second]));
            paths.push(self.path([of_first, second]));
        }
        for _ in 0..self.random.below(3) {
            let of = self.random.below(paths.len());
            let length = self.random.below(1 + paths[of].len());
            let shorter = paths[of][..length].to_vec();
            paths.push(shorter);
        }
        let first = self.random.below(paths.len());
        paths.rotate_left(first);
        paths
    }

    /// A path with these numbers of uses, in any sequence.
    fn path(&mut self, uses: [usize; 2]) -> Path {
        let mut path = vec![0; uses[0]];
        for _ in 0..uses[1] {
            path.insert(self.random.below(path.len() + 1), 1);
        }
        path
    }

    /// Adds a node with these paths below it, its own C counted.
    fn add(&mut self, parent: Option<i64>, weight: Option<i64>, paths: Vec<Path>) {
        let heads: Vec<Option<&usize>> = paths.iter().map(|path| path.first()).collect();
        let same = heads.iter().all(|head| *head == heads[0]);
        match heads[0].copied() {
            None if same => {
                let (lowest, highest) = (self.draft.lowest, self.draft.highest);
                let utility = match self.random.below(4) {
                    0 => lowest,
                    1 => highest,
                    _ => self.random.between(lowest, highest),
                };
                self.draft.add(b'L', parent, weight, Some(utility));
            }
            Some(of) if same && !self.random.one_in(4) => {
                self.add_chance(of, parent, weight, paths);
            }
            _ => self.add_side(parent, weight, paths),
        }
    }

    /// Adds an M or N with a child for each path, and some leaves.
    fn add_side(&mut self, parent: Option<i64>, weight: Option<i64>, mut paths: Vec<Path>) {
        let kind = self.random.pick(b"MN");
        let node = self.draft.add(kind, parent, weight, None);
        for _ in 0..self.random.below(3) {
            paths.insert(self.random.below(paths.len() + 1), Path::new());
        }
        for path in paths {
            self.add(Some(node), None, vec![path]);
        }
    }

    /// Adds a C of this total. Each path has a child of its own, or one has them all; the
    /// others are leaves.
    fn add_chance(
        &mut self,
        of: usize,
        parent: Option<i64>,
        weight: Option<i64>,
        paths: Vec<Path>,
    ) {
        let node = self.draft.add(b'C', parent, weight, None);
        let total = self.draft.totals[of] as usize;
        let below = paths.into_iter().map(|path| path[1..].to_vec());
        let mut below: Vec<Vec<Path>> = below.map(|path| vec![path]).collect();
        if below.len() > total || self.random.one_in(3) {
            below = vec![below.concat()];
        }
        let room = (total - below.len()).min(3);
        for _ in 0..self.random.below(1 + room) {
            below.insert(self.random.below(below.len() + 1), vec![Path::new()]);
        }
        let weights = parts(self.random, total, below.len());
        for (paths, weight) in below.into_iter().zip(weights) {
            self.add(Some(node), Some(weight as i64), paths);
        }
    }
}
