//! Tables with two totals (document 02, Item 5): what they are like; every call on them,
//! held to the second engine; and how often an engine that takes another total or another
//! grain count would have answered otherwise.

use super::budget::{self, questions_at};
use super::indexed;
use super::judging;
use super::reading;
use super::reporting;
use super::rolling::{self, policies};
use super::searching::{self, margins};
use super::seen::Seen;
use super::tally::{say, Tally};
use super::turning;
use super::worth;
use crate::random::Random;
use crate::second::{
    self, grains_by, leaves_remainder, worth_divided_by, Divisor, GrainCount, Kind, Refusal, Table,
    MOST_GRAINS,
};
use crate::texts::examples::{dotted, LONE_LEAF};
use crate::texts::matches::{file, Position};
use crate::texts::totals::GRAINS;

/// The greatest number of uses of the first total on a path, and of the second.
pub fn uses(table: &Table) -> [u32; 2] {
    let paths = paths(table);
    let most = |of: usize| paths.iter().map(|uses| uses[of]).max();
    [0, 1].map(|of| most(of).expect("a node"))
}

/// Whether both have a use on one path.
pub fn on_one_path(table: &Table) -> bool {
    let both = |uses: &[u32; 2]| uses.iter().all(|uses| *uses > 0);
    paths(table).iter().any(both)
}

/// The uses of the first total and of the second on the path to each node, itself counted.
fn paths(table: &Table) -> Vec<[u32; 2]> {
    let mut paths: Vec<[u32; 2]> = Vec::with_capacity(table.nodes.len());
    for node in &table.nodes {
        let mut uses = node.parent.map_or([0; 2], |parent| paths[parent]);
        if node.kind == Kind::Chance {
            uses[usize::from(node.sum != table.total)] += 1;
        }
        paths.push(uses);
    }
    paths
}

/// Compares the two engines on texts by every call.
pub struct Everything {
    pub reading: reading::Comparison,
    pub worth: Tally,
    pub judging: judging::Comparison,
    pub plain: searching::Comparison,
    pub within: budget::Comparison,
    /// Two calls: building and searching.
    pub indexed: indexed::Comparison,
    pub turning: turning::Comparison,
    pub rolling: rolling::Comparison,
    pub reporting: reporting::Comparison,
    /// What the accepted tables and the refused ones were like, and where a wrong engine
    /// would have answered otherwise.
    pub tables: Seen,
    pub refused: Seen,
    pub wrong: Seen,
}

impl Everything {
    /// The names say what is compared, in the sequence of the calls above.
    pub fn new(names: [&'static str; 10]) -> Everything {
        let [reading, worth, judging, plain, within, names @ ..] = names;
        let [building, indexed, turning, rolling, reporting] = names;
        Everything {
            reading: reading::Comparison::new(reading),
            worth: Tally::new(worth),
            judging: judging::Comparison::new(judging),
            plain: searching::Comparison::new(plain),
            within: budget::Comparison::new(within),
            indexed: indexed::Comparison::new(building, indexed),
            turning: turning::Comparison::new(turning),
            rolling: rolling::Comparison::new(rolling),
            reporting: reporting::Comparison::new(reporting),
            tables: Seen::default(),
            refused: Seen::default(),
            wrong: Seen::default(),
        }
    }

    /// Gives a text to both engines by every call. Fails the test unless they agree.
    pub fn hold(&mut self, text: &[u8], random: &mut Random) -> Result<Table, Refusal> {
        let answer = self.reading.hold(text);
        let table = answer.as_ref().ok();
        let _ = worth::hold(&mut self.worth, text);

        let any = random.between(-2, 4);
        let _ = self.judging.hold(text, |children| match children {
            Some(children) => vec![1, children as i64, children as i64 + 1, any],
            None => vec![any, i64::MAX],
        });

        // The refusal is the same for every question, so a few will do.
        let margins = match table {
            Some(table) => margins(random, table),
            None => vec![0, random.pick(&[-1, i64::MAX])],
        };
        let asked = match table {
            Some(table) => questions_at(random, table, &valid(&margins)),
            None => vec![budget::Asked {
                margin: random.pick(&[0, -1]),
                budget: random.pick(&[0, 1, -1, i64::MAX]),
            }],
        };
        let with_index = vec![random.pick(&margins), random.pick(&margins)];
        let _ = self.plain.hold(text, |_| margins);
        let _ = self.within.hold(text, random, |_, _| asked);
        let _ = self.indexed.hold(text, random, |_, _| with_index);

        let _ = self.turning.hold(text);
        let policies = policies(random);
        let _ = self.rolling.hold(text, &policies[..1 + random.below(2)]);
        self.hold_report(text, random);
        self.count(text, &answer);
        answer
    }

    /// Reports on a file in which the text is the last position; those before are leaves.
    fn hold_report(&mut self, text: &[u8], random: &mut Random) {
        let before = random.below(4);
        let play = random.pick(&[1, 1, 1, 2, 0]);
        let mut positions = vec![Position::new(7, dotted(LONE_LEAF)); before];
        positions.push(Position::new(play, text.to_vec()));
        let scale = random.between(1, 2);
        let stop = self.reporting.hold(&file(&positions), scale).err();
        let grains = stop.filter(|stop| stop.refusal.number == 18);
        let place = grains.map(|stop| stop.position);
        for position in 1..=4 {
            let sort = format!("18 at position {position} of a match");
            self.refused.count(&sort, place == Some(position));
        }
    }

    fn count(&mut self, text: &[u8], answer: &Result<Table, Refusal>) {
        match answer {
            Ok(table) => {
                count_table(&mut self.tables, table);
                count_wrong(&mut self.wrong, table);
                let stricter = second::read_up_to(text, MOST_GRAINS - 1);
                let sort = "refused if the greatest grain count were";
                self.wrong.count(sort, stricter.is_err());
            }
            Err(refusal) => {
                let anyway = second::read_up_to(text, i64::MAX);
                if let (18, Ok(table)) = (refusal.number, &anyway) {
                    for grains in &GRAINS[2..] {
                        let here = grains.contains(table.grains);
                        self.refused.count(&format!("18, {grains:?}"), here);
                    }
                }
                let untested = refusal.number == 18 && anyway.is_ok();
                self.wrong.count("answered if 18 were not tested", untested);
            }
        }
    }

    /// The tallies, one for each call.
    pub fn tallies(&self) -> [&Tally; 10] {
        [
            &self.reading.tally,
            &self.worth,
            &self.judging.tally,
            &self.plain.tally,
            &self.within.tally,
            &self.indexed.building,
            &self.indexed.searching,
            &self.turning.tally,
            &self.rolling.tally,
            &self.reporting.tally,
        ]
    }

    /// Reports, then fails the test where a call refused 18 too seldom.
    pub fn demand_grains(&self) {
        for tally in self.tallies() {
            tally.report();
            tally.demand_refusals(&[18]);
        }
        let counts = self.tallies().map(|tally| tally.counts[18]);
        say(&format!("18 by each call: {counts:?}"));
    }
}

/// Those that are no refusal by themselves.
fn valid(margins: &[i64]) -> Vec<i64> {
    let valid = margins
        .iter()
        .filter(|margin| (0..=second::GREATEST_MARGIN).contains(*margin));
    valid.copied().collect()
}

/// Counts what the totals of an accepted table are like.
pub fn count_table(seen: &mut Seen, table: &Table) {
    let two = table.second.is_some();
    let [first, second] = uses(table).map(|uses| uses > 0);
    let together = on_one_path(table);
    seen.count("one total", !two);
    seen.count("both totals on a path", together);
    let apart = first && second && !together;
    seen.count("both totals, never on one path", apart);
    seen.count("the second total without a use", two && first && !second);
    seen.count("the first total without a use", two && second && !first);
    seen.count("two totals and no C", two && table.chances == 0);
    for uses in 1..=4 {
        let all = self::uses(table);
        seen.count(&format!("{uses} uses of the first"), two && all[0] == uses);
        seen.count(&format!("{uses} uses of the second"), two && all[1] == uses);
    }
    let larger = table.second.is_some_and(|second| second > table.total);
    seen.count("the second total is the larger", larger);
    seen.count("the first total is the larger", two && !larger);
    let above = |node: &second::Node| node.weight.is_some_and(|weight| weight > table.total);
    seen.count(
        "a weight above the first total",
        table.nodes.iter().any(above),
    );
    for grains in &GRAINS[..2] {
        let sort = format!("{grains:?}");
        seen.count(&sort, two && grains.contains(table.grains));
    }
    if two {
        seen.count_root(&[Kind::Max, Kind::Min, Kind::Chance], table);
        seen.count_chances(table);
    }
}

/// Divisors that are not Item 5's.
const DIVISORS: [(&str, Divisor); 3] = [
    ("divided by the larger total", Divisor::Larger),
    ("divided by the smaller total", Divisor::Smaller),
    ("divided by the first total", Divisor::First),
];

/// Grain counts that are not.
const GRAIN_COUNTS: [(&str, GrainCount); 4] = [
    ("the grain count of one path", GrainCount::OfOnePath),
    ("the larger total to the power K", GrainCount::Larger),
    ("the first total to the power K", GrainCount::First),
    ("both totals to the power K", GrainCount::Both),
];

/// Counts where an engine with another divisor or another grain count would have found
/// another worth or another G, or a remainder.
fn count_wrong(seen: &mut Seen, table: &Table) {
    let worth = i128::from(second::worth(table));
    for (sort, divisor) in DIVISORS {
        let other = worth_divided_by(table, divisor) != worth;
        seen.count(&format!("another worth if {sort}"), other);
    }
    // The right way leaves none.
    assert!(!leaves_remainder(table, table.grains), "a remainder");
    for (sort, way) in GRAIN_COUNTS {
        let grains = grains_by(table, way);
        seen.count(&format!("another G by {sort}"), grains != table.grains);
        // That one is a multiple of G.
        if way != GrainCount::Both {
            let left = leaves_remainder(table, grains);
            seen.count(&format!("a remainder by {sort}"), left);
        }
    }
}
