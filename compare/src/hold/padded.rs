//! Zero-padded texts (document 02, Item 9): every call on them, held to the second engine and
//! to what the proved engine answers of the blank-padded text; and which fields were padded.

use super::budget::{self, no_budget, Asked};
use super::indexed::{self, Index};
use super::judging;
use super::numbers::ROOM;
use super::reading;
use super::reporting;
use super::rolling::{self, RECORD};
use super::searching::{self, PATTERN};
use super::seen::Seen;
use super::tally::{Tally, OF_GRAINS, OF_TABLES};
use super::{span, turning, worth};
use crate::engine;
use crate::random::Random;
use crate::second::{
    root_children, Refusal, Report, Stop, Table, GREATEST_MARGIN, LINE, MOST_POSITIONS,
};
use crate::texts::examples::{dotted, escaped, LONE_LEAF};
use crate::texts::matches::{self, Position};
use crate::texts::padding::{
    self, blanked, filled, is_padded_line, padded_fields, padded_line, SIGNED,
};

/// Compares the two engines on padded texts by every call.
pub struct Everything {
    pub reading: reading::Comparison,
    pub worth: Tally,
    pub judging: judging::Comparison,
    pub plain: searching::Comparison,
    pub within: budget::Comparison,
    /// Two calls: building and searching.
    pub indexed: indexed::Comparison,
    pub turning: turning::Comparison,
    pub rolling: rolling::Comparison,
    pub reporting: reporting::Comparison,
    /// What was padded in the accepted tables, in the refused ones, and among play numbers.
    pub accepted: Seen,
    pub refused: Seen,
    pub plays: Seen,
}

impl Everything {
    /// The names say what is compared, in the sequence of the calls above.
    pub fn new(names: [&'static str; 10]) -> Everything {
        let [reading, worth, judging, plain, within, names @ ..] = names;
        let [building, indexed, turning, rolling, reporting] = names;
        Everything {
            reading: reading::Comparison::new(reading),
            worth: Tally::new(worth),
            judging: judging::Comparison::new(judging),
            plain: searching::Comparison::new(plain),
            within: budget::Comparison::new(within),
            indexed: indexed::Comparison::new(building, indexed),
            turning: turning::Comparison::new(turning),
            rolling: rolling::Comparison::new(rolling),
            reporting: reporting::Comparison::new(reporting),
            accepted: Seen::default(),
            refused: Seen::default(),
            plays: Seen::default(),
        }
    }

    /// Gives a text to both engines by every call, and the blank-padded one to the proved
    /// engine too. Fails the test unless all agree.
    pub fn hold(&mut self, text: &[u8], random: &mut Random) -> Result<Table, Refusal> {
        let answer = self.reading.hold(text);
        let asked = Questions::of(answer.as_ref().ok(), random);
        let _ = worth::hold(&mut self.worth, text);
        let _ = self.judging.hold(text, |_| asked.plays.clone());
        let _ = self.plain.hold(text, |_| asked.margins.clone());
        let within = |_: Option<&Table>, _: &mut Random| asked.within.clone();
        let _ = self.within.hold(text, random, within);
        let with_index = |_: Option<&Table>, _: &mut Random| asked.with_index.clone();
        let _ = self.indexed.hold(text, random, with_index);
        let _ = self.turning.hold(text);
        let _ = self.rolling.hold(text, &asked.policies);

        let blank = blanked(text);
        let answers = [text, &blank].map(|text| Answers::of(text, &asked));
        let [of_padded, of_blank] = &answers;
        let place = || format!("{}\n{}", self.reading.tally.place(), escaped(text));
        assert_eq!(of_padded, of_blank, "another padding: {}", place());
        if answer.is_ok() {
            let twice = turning::turned(&turning::turned(text));
            assert_eq!(escaped(&twice), escaped(&blank), "turned twice");
            let sort = "another text when turned twice";
            self.accepted.count(sort, twice != text);
        }
        self.hold_report(text, &blank, random);
        self.count(text, answer.is_ok());
        answer
    }

    /// Reports on a file in which the text is the last position; those before are leaves.
    fn hold_report(&mut self, text: &[u8], blank: &[u8], random: &mut Random) {
        let before = match random.below(120) {
            0 => MOST_POSITIONS,
            _ => random.below(3),
        };
        let leaf = Position::new(random.between(-99, 999), dotted(LONE_LEAF));
        let mut played = Position::new(random.pick(&[1, 1, 1, 2, 0, -7]), blank.to_vec());
        if random.one_in(12) {
            let bad = random.pick(&BAD_PLAYS);
            played.play[..4].copy_from_slice(bad);
        }
        let mut blanks = vec![leaf; before];
        blanks.push(played);
        let padded = blanks.iter().enumerate().map(|(place, position)| Position {
            play: padded_line(&position.play, random),
            table: match place == before {
                true => text.to_vec(),
                false => padding::padded(&position.table, random),
            },
        });
        let padded: Vec<Position> = padded.collect();
        let play = padded[before].play.clone();
        let scale = matches::scale(random);
        let [padded, blank] = [padded, blanks].map(|positions| matches::file(&positions));
        let report = hold_files(&mut self.reporting, [&padded, &blank], scale);
        self.count_play(&play, &report);
    }

    /// Counts how a play number was written.
    fn count_play(&mut self, play: &[u8], report: &Result<Report, Stop>) {
        let seen = &mut self.plays;
        let padded = is_padded_line(play);
        let below = padded && play.contains(&b'-');
        let number = report.as_ref().err().map(|stop| stop.refusal.number);
        seen.count("a padded play number", padded);
        seen.count("one that is reported", padded && number.is_none());
        seen.count("one below zero", below);
        seen.count("one that is reported below zero", below && number.is_none());
        seen.count(
            "one that no child has, refused 14",
            padded && number == Some(14),
        );
        let ill = BAD_PLAYS.iter().any(|bad| play.starts_with(*bad));
        seen.count("zeros ill-written, refused 16", ill && number == Some(16));
    }

    /// Counts what is padded in a text.
    fn count(&mut self, text: &[u8], accepted: bool) {
        let found = padded_fields(text);
        let seen = match accepted {
            true => &mut self.accepted,
            false => &mut self.refused,
        };
        let has = |name: &str| found.iter().any(|(field, _)| field.name == name);
        for field in padding::OF_TABLES {
            seen.count(field.name, has(field.name));
        }
        for field in SIGNED {
            let below = found.contains(&(field, true));
            seen.count(&format!("{} below zero", field.name), below);
        }
        let header = text.get(..LINE).unwrap_or(&[b' '; LINE]);
        seen.count("` 0` in columns 5-6", header[4..6] == *b" 0");
        seen.count("`00` in columns 5-6", header[4..6] == *b"00");
        let both = has("the second total") && has("T beside a second total");
        seen.count("both totals", both);
        let full = !found.is_empty() && text == filled(text);
        seen.count("every number to its width", full);
    }

    /// The tallies, one for each call.
    pub fn tallies(&self) -> [&Tally; 10] {
        [
            &self.reading.tally,
            &self.worth,
            &self.judging.tally,
            &self.plain.tally,
            &self.within.tally,
            &self.indexed.building,
            &self.indexed.searching,
            &self.turning.tally,
            &self.rolling.tally,
            &self.reporting.tally,
        ]
    }

    /// Reports, then fails the test where a call refused too seldom for one of its reasons.
    pub fn demand(&self) {
        const BESIDES: [&[usize]; 9] = [
            &[],
            &[],
            &[14],
            &[12, 11],
            &[12, 17, 11],
            &[11],
            &[22, 12, 11],
            &[11],
            &[13, 11],
        ];
        for (tally, besides) in self.tallies().into_iter().zip(BESIDES) {
            tally.report();
            tally.demand_refusals(&OF_TABLES);
            tally.demand_refusals(&OF_GRAINS);
            tally.demand_refusals(besides);
        }
        let reports = &self.reporting.tally;
        reports.report();
        reports.demand_refusals(&OF_TABLES[1..]);
        reports.demand_refusals(&[11, 14, 15, 16, 18, 20]);
    }
}

/// Gives a padded match file to both engines, and the blank-padded one to the proved engine.
/// Fails the test unless all agree.
pub fn hold_files(
    comparison: &mut reporting::Comparison,
    [padded, blank]: [&[u8]; 2],
    scale: i64,
) -> Result<Report, Stop> {
    let report = comparison.hold(padded, scale);
    let answers = [padded, blank].map(|file| reporting::proved(file, scale));
    let place = || format!("{}\n{}", comparison.tally.place(), escaped(padded));
    assert_eq!(answers[0], answers[1], "another padding: {}", place());
    report
}

/// Play numbers that zeros make ill-written.
const BAD_PLAYS: [&[u8; 4]; 8] = [
    b"  -0", b"-000", b" -00", b"0 01", b" 0 1", b"0-01", b"+001", b"01  ",
];

// ---------------------------------------------------------------------------
// The proved engine on two paddings
// ---------------------------------------------------------------------------

/// What is asked of a text by every call, and what is lent to it.
struct Questions {
    plays: Vec<i64>,
    margins: Vec<i64>,
    within: Vec<Asked>,
    with_index: Vec<i64>,
    policies: Vec<Vec<u8>>,
    /// Entries of lists by node, of leaf lists, and of numbers.
    rooms: [usize; 3],
    /// Bytes of a buffer past the text, or too few.
    spare: isize,
}

impl Questions {
    /// About a table, or about a text that is refused.
    fn of(table: Option<&Table>, random: &mut Random) -> Questions {
        let (nodes, leaves) = table.map_or((1, 1), |table| (table.nodes.len(), table.leaves));
        let children = table.map_or(0, root_children) as i64;
        let span = table.map_or(0, span);
        let margin = random.between(0, span);
        let bad = random.pick(&[-1, GREATEST_MARGIN + 1, i64::MIN]);
        let mut margins = vec![random.pick(&[0, 1, margin]), margin];
        if random.one_in(6) {
            margins.push(bad);
        }
        let asked = |random: &mut Random| Asked {
            margin: match random.one_in(8) {
                true => bad,
                false => margin,
            },
            budget: match random.one_in(6) {
                true => no_budget(random),
                false => random.between(0, leaves as i64 + 1),
            },
        };
        let length = random.below(30);
        let policy: Vec<u8> = (0..length).map(|_| random.bits() as u8).collect();
        Questions {
            plays: vec![1, random.between(0, children + 1)],
            within: vec![asked(random)],
            with_index: vec![random.pick(&margins)],
            margins,
            policies: vec![policy],
            rooms: [
                random.pick(&[nodes, nodes, nodes + 3, nodes - 1]),
                random.pick(&[leaves, leaves, leaves + 3, leaves - 1]),
                random.below(ROOM + 1),
            ],
            spare: random.pick(&[0, 0, 7, -1]),
        }
    }
}

/// What the proved engine returns of a text by each call, and what then stands in all that it
/// was lent.
#[derive(Debug, Default, PartialEq, Eq)]
struct Answers(Vec<(&'static str, u64, Vec<i64>)>);

impl Answers {
    fn of(text: &[u8], asked: &Questions) -> Answers {
        let [nodes, leaves, room] = asked.rooms;
        let mut all = Answers::default();

        let mut numbers = vec![-7; room];
        let (mut kind, mut weight) = (vec![0xa5; nodes], vec![0xa5; nodes]);
        let (mut stop, mut height) = (vec![0xa5a5; nodes], vec![0xa5a5_a5a5; nodes]);
        let code = engine::read_into(
            text,
            &mut numbers,
            &mut kind,
            &mut stop,
            &mut weight,
            &mut height,
        );
        let arrays = [wide(kind), wide(stop), wide(weight), wide(height)];
        all.add("reading", code, numbers, arrays.concat());

        let mut numbers = vec![-7; room];
        let code = engine::worth(text, &mut numbers);
        all.add("the worth", code, numbers, Vec::new());

        for &play in &asked.plays {
            let mut numbers = vec![-7; room];
            let code = engine::judge(text, play, &mut numbers);
            all.add("judging", code, numbers, Vec::new());
        }

        for &margin in &asked.margins {
            all.add_search("searching", (leaves, room), |list, numbers| {
                engine::search(text, margin, list, numbers)
            });
        }
        for &Asked { margin, budget } in &asked.within {
            all.add_search("within a budget", (leaves, room), |list, numbers| {
                engine::search_within(text, margin, budget, list, numbers)
            });
        }

        let mut index = Index::unbuilt((nodes, nodes));
        let code = engine::index(text, &mut index.lows, &mut index.highs);
        let Index { lows, highs } = &index;
        all.add("indexing", code, lows.clone(), highs.clone());
        for &margin in &asked.with_index {
            all.add_search("searching by index", (leaves, room), |list, numbers| {
                engine::search_indexed(text, margin, lows, highs, list, numbers)
            });
        }

        let mut buffer = vec![0xa5; text.len().saturating_add_signed(asked.spare)];
        let code = engine::turn(text, &mut buffer);
        all.add("turning", code, Vec::new(), wide(buffer));

        for policy in &asked.policies {
            let mut store = vec![RECORD; nodes];
            all.add_search("rolling out", (leaves, room), |list, numbers| {
                engine::rollout(text, policy, &mut store, list, numbers)
            });
            let records = store.iter().flat_map(|record| [record.low, record.high]);
            all.add("its store", 0, Vec::new(), records.collect());
        }
        all
    }

    fn add(&mut self, call: &'static str, code: u64, numbers: Vec<i64>, rest: Vec<i64>) {
        self.0.push((call, code, [numbers, rest].concat()));
    }

    /// Adds the answer of a call that fills a leaf list and numbers of these lengths.
    fn add_search(
        &mut self,
        call: &'static str,
        (leaves, room): (usize, usize),
        ask: impl FnOnce(&mut [u16], &mut [i64]) -> u64,
    ) {
        let (mut list, mut numbers) = (vec![PATTERN; leaves], vec![-7; room]);
        let code = ask(&mut list, &mut numbers);
        self.add(call, code, numbers, wide(list));
    }
}

fn wide<T: Into<i64>>(entries: Vec<T>) -> Vec<i64> {
    entries.into_iter().map(Into::into).collect()
}
