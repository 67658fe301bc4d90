//! The marks in the report of a match (document 02, Item 11): which loss has which
//! mark by both scales, with losses that are chosen next to the steps; and the
//! numbers that no scale has.
//!
//! The environment variable SEED sets the seed of the random files.

use std::slice::from_ref;

use compare::hold::mark_number;
use compare::hold::numbers::ROOM;
use compare::hold::reporting::{hold_to, proved, Comparison, Lent};
use compare::hold::seen::{Seen, SIDES};
use compare::hold::tally::Tally;
use compare::random::Random;
use compare::second::{self, mark, steps, Entry, Mark, Report, Total, MARKS};
use compare::texts::examples::*;
use compare::texts::matches::chosen::{chosen, Chosen, Lost, NEAR_STEPS};
use compare::texts::matches::rounding::Loss;
use compare::texts::matches::{self, file, Position, NO_SCALES};
use Mark::{Blunder, Doubtful, Error, NoMark};

/// The scales.
const SCALES: [i64; 2] = [1, 2];

// ---------------------------------------------------------------------------
// Marks that are known
// ---------------------------------------------------------------------------

/// A loss in thousandths, and its mark by scale 1 and by scale 2.
const KNOWN: [(i64, Mark, Mark); 26] = [
    (0, NoMark, NoMark),
    (1, NoMark, NoMark),
    (19, NoMark, NoMark),
    (20, NoMark, Doubtful),
    (21, NoMark, Doubtful),
    (39, NoMark, Doubtful),
    (40, Doubtful, Doubtful),
    (41, Doubtful, Doubtful),
    (49, Doubtful, Doubtful),
    (50, Doubtful, Error),
    (51, Doubtful, Error),
    (79, Doubtful, Error),
    (80, Error, Error),
    (81, Error, Error),
    (99, Error, Error),
    (100, Error, Blunder),
    (101, Error, Blunder),
    (159, Error, Blunder),
    (160, Blunder, Blunder),
    (161, Blunder, Blunder),
    (255, Blunder, Blunder),
    (256, Blunder, Blunder),
    (1_000, Blunder, Blunder),
    (65_536, Blunder, Blunder),
    (999_999, Blunder, Blunder),
    (1_000_000, Blunder, Blunder),
];

/// The second engine's marks are those above, and between two of them that are
/// alike no other.
#[test]
fn the_second_engines_marks() {
    let [one, two] = SCALES.map(|scale| steps(scale).expect("a scale"));
    let marks = |loss| (mark(one, loss), mark(two, loss));
    for (loss, by_one, by_two) in KNOWN {
        assert_eq!(marks(loss), (by_one, by_two), "{loss} thousandths");
    }
    let mut compared = 0;
    for pair in KNOWN.windows(2) {
        let (first, last) = (pair[0], pair[1]);
        for loss in first.0..last.0 {
            assert_eq!(marks(loss), (first.1, first.2), "{loss} thousandths");
            compared += 1;
        }
    }
    assert_eq!(compared, 1_000_000);
    assert_eq!(marks(i64::MAX), (Blunder, Blunder));
    for number in NO_SCALES {
        assert_eq!(steps(number), None, "{number}");
    }
    assert!(MARKS.is_sorted(), "the milder before the harder");
}

/// A position that loses so many thousandths, and no part of one more.
fn losing(side: u8, thousandths: i64) -> Position {
    let loss = Loss {
        side,
        points: thousandths,
        total: 10,
        weight: 1,
        chances: 3,
    };
    assert_eq!(loss.fraction(), (1_000 * thousandths, 1_000));
    loss.position()
}

/// Each known loss alone, and all of them in one match with a position that has no
/// decision after each, at both sides.
#[test]
fn known_losses() {
    let mut tally = Tally::new("marks of known losses");
    for (side, root) in [(b'M', SIDES[0]), (b'N', SIDES[1])] {
        for scale in SCALES {
            let (mut positions, mut entries) = (vec![], vec![]);
            for (thousandths, by_one, by_two) in KNOWN {
                let mark = if scale == 1 { by_one } else { by_two };
                let entry = Entry {
                    root,
                    loss: Some(thousandths),
                    mark: Some(mark),
                };
                let position = losing(side, thousandths);
                hold_known(&mut tally, from_ref(&position), scale, vec![entry]);
                positions.extend([position, Position::new(0, dotted(LONE_LEAF))]);
                entries.extend([entry, no_decision()]);
            }
            hold_known(&mut tally, &positions, scale, entries);
        }
    }
    tally.report();
}

fn no_decision() -> Entry {
    Entry {
        root: second::Kind::Leaf,
        loss: None,
        mark: None,
    }
}

/// Holds both engines to a report with these entries.
fn hold_known(tally: &mut Tally, positions: &[Position], scale: i64, entries: Vec<Entry>) {
    let total = |root| {
        let here = entries.iter().filter(|entry| entry.root == root);
        let losses: Vec<i64> = here.filter_map(|entry| entry.loss).collect();
        Total {
            decisions: losses.len() as i64,
            sum: losses.iter().sum(),
        }
    };
    let [max, min] = SIDES.map(total);
    let expected = Ok(Report { entries, max, min });
    let (file, lent) = (file(positions), Lent::lists(positions.len()));
    let answer = second::report(&file, scale, lent.room());
    assert_eq!(answer, expected, "{}\n{}", tally.place(), escaped(&file));
    hold_to(tally, &file, scale, lent, &expected);
    tally.add(&[0]);
}

// ---------------------------------------------------------------------------
// Chosen losses
// ---------------------------------------------------------------------------

/// Matches of losses next to the steps, by both scales. It also fails where such
/// losses were seldom listed.
#[test]
fn chosen_losses() {
    let mut comparison = Comparison::new("reports of chosen losses");
    let mut counts = Counts::default();
    for number in 0..6_000 {
        let mut random = Random::of_case(comparison.tally.seed, number);
        let chosen = chosen(&mut random);
        let file = file_of(&chosen);
        let reports = SCALES.map(|scale| {
            let report = comparison.hold(&file, scale).expect("a whole match");
            counts.add_report(scale, &report);
            report
        });
        hold_plan(&chosen, &reports, &comparison.tally);
        counts.add_roundings(&chosen);
        counts.add_differing(&reports);
    }
    let tally = &comparison.tally;
    tally.report();
    counts.listed.demand(200);
    counts.sides.demand(100);
    counts.exact.demand(50);
    counts.differing.demand(1_000);
    counts.roundings.demand(200);
    counts.others.demand(200);
    comparison.lists.demand(100);
    tally.demand_refusals(&[11]);
}

fn file_of(chosen: &[Chosen]) -> Vec<u8> {
    let positions = chosen.iter().map(|chosen| chosen.position.clone());
    file(&positions.collect::<Vec<_>>())
}

/// Every loss is listed as it was planned.
fn hold_plan(chosen: &[Chosen], reports: &[Report; 2], tally: &Tally) {
    for report in reports {
        for (chosen, entry) in chosen.iter().zip(&report.entries) {
            if let Some(lost) = chosen.lost {
                let planned = Some(lost.thousandths());
                assert_eq!(entry.loss, planned, "{}", tally.place());
            }
        }
    }
}

/// What the second engine lists of the chosen matches.
#[derive(Default)]
struct Counts {
    /// Losses next to a step by each scale, and so at each side.
    listed: Seen,
    sides: Seen,
    /// Plays that lose exactly what is listed, and those that lose more.
    exact: Seen,
    /// Entries with other marks by the two scales.
    differing: Seen,
    /// Entries with another mark if losses were rounded otherwise.
    roundings: Seen,
    /// No loss, and great ones.
    others: Seen,
}

impl Counts {
    fn add_report(&mut self, scale: i64, report: &Report) {
        let entries = &report.entries;
        let count = |is_one: &dyn Fn(&Entry) -> bool| {
            let found = entries.iter().filter(|entry| is_one(entry));
            found.count() as u64
        };
        for of in SCALES {
            let add = |seen: &mut Seen, sort: &str, is_one: &dyn Fn(&Entry) -> bool| {
                let found = if of == scale { count(is_one) } else { 0 };
                seen.add(&format!("{sort} by scale {of}"), found);
            };
            for near in NEAR_STEPS {
                let is_near = |entry: &Entry| entry.loss == Some(near);
                add(&mut self.listed, &near.to_string(), &is_near);
                for root in SIDES {
                    let sort = format!("{near} at {root:?}");
                    let is_here = |entry: &Entry| is_near(entry) && entry.root == root;
                    add(&mut self.sides, &sort, &is_here);
                }
            }
            let others = &mut self.others;
            add(others, "0", &|entry| entry.loss == Some(0));
            add(others, "no decision", &|entry| entry.loss.is_none());
            add(others, "a point or more", &|entry| {
                entry.loss >= Some(1_000)
            });
            add(others, "a million points or more", &|entry| {
                entry.loss >= Some(1_000_000_000)
            });
            let steps = steps(of).expect("a scale");
            for bits in [8, 16] {
                let sort = format!("another mark in a type of {bits} bits");
                add(others, &sort, &|entry| {
                    let kept = entry.loss.map(|loss| loss % (1 << bits));
                    entry.mark != kept.map(|kept| mark(steps, kept))
                });
            }
        }
    }

    /// Counts by the plan what rounding changes.
    fn add_roundings(&mut self, chosen: &[Chosen]) {
        let planned: Vec<Lost> = chosen.iter().filter_map(|chosen| chosen.lost).collect();
        let count = |is_one: &dyn Fn(&Lost) -> bool| {
            let found = planned.iter().filter(|lost| is_one(lost));
            found.count() as u64
        };
        for near in NEAR_STEPS {
            for (sort, rounded) in [("exactly", false), ("and a part", true)] {
                let found =
                    count(&|lost| lost.thousandths() == near && lost.is_rounded() == rounded);
                self.exact.add(&format!("{near} {sort}"), found);
            }
        }
        for scale in SCALES {
            let steps = steps(scale).expect("a scale");
            let other = |lost: &Lost, thousandths: i64| {
                mark(steps, thousandths) != mark(steps, lost.thousandths())
            };
            let nearest = count(&|lost| other(lost, lost.nearest()));
            let sort = format!("another mark if rounded to the nearest by scale {scale}");
            self.roundings.add(&sort, nearest);
            let up = count(&|lost| other(lost, lost.thousandths() + i64::from(lost.is_rounded())));
            let sort = format!("another mark if rounded up by scale {scale}");
            self.roundings.add(&sort, up);
        }
    }

    fn add_differing(&mut self, [one, two]: &[Report; 2]) {
        let pairs = one.entries.iter().zip(&two.entries);
        let differing = pairs.filter(|(one, two)| one.mark != two.mark).count();
        self.differing
            .add("other marks by the two scales", differing as u64);
    }
}

// ---------------------------------------------------------------------------
// One file by both scales, by the proved engine alone
// ---------------------------------------------------------------------------

/// Whatever the file, only the marks go by the scale, and those of scale 2 are never
/// milder than those of scale 1.
#[test]
fn both_scales() {
    let mut tally = Tally::new("one file by both scales");
    let mut seen = Seen::default();
    for number in 0..6_000 {
        let mut random = Random::of_case(tally.seed, number);
        let file = match number % 3 {
            0 => matches::case(&mut random),
            _ => file_of(&chosen(&mut random)),
        };
        let [one, two] = SCALES.map(|scale| proved(&file, scale));
        let place = || format!("{}\n{}", tally.place(), escaped(&file));
        assert_eq!(one.returned, two.returned, "{}", place());
        assert_eq!(one.kinds, two.kinds, "{}", place());
        assert_eq!(one.losses, two.losses, "{}", place());
        assert_eq!(one.numbers, two.numbers, "{}", place());
        assert_eq!(one.marks.len(), two.marks.len(), "{}", place());
        let none = mark_number(None);
        for (i, (&one, &loss)) in one.marks.iter().zip(&one.losses).enumerate() {
            let two = two.marks[i];
            assert!(one <= two, "{one} and {two} for {loss}: {}", place());
            let marked = [one, two].map(|mark| mark != none);
            assert_eq!(marked, [loss >= 0; 2], "{one}, {two}: {}", place());
            seen.count("no decision", loss < 0);
            seen.count("the same mark", loss >= 0 && one == two);
            seen.count("a harder mark by scale 2", one < two);
        }
        seen.count("a refused file", one.returned > 0);
        tally.add(&[one.returned, two.returned]);
    }
    tally.report();
    seen.demand(1_000);
}

// ---------------------------------------------------------------------------
// Numbers that no scale has
// ---------------------------------------------------------------------------

/// Numbers around 0 and the farthest, and those that a narrower type would take for
/// 1 or 2, with files and lists of every sort: only 1 and 2 are not refused.
#[test]
fn every_other_number() {
    let mut tally = Tally::new("reports by numbers that no scale has");
    let good = file(&[losing(b'M', 39), losing(b'N', 100)]);
    let files = [&good[..], b"", b"x", &good[..good.len() - 1]];
    let bits = (0..63).flat_map(|bit| [0, 1, 2].map(|low| low + (1_i64 << bit)));
    let around = (-300..=300).chain(NO_SCALES).chain(bits);
    for scale in around.filter(|scale| !SCALES.contains(scale)) {
        for file in files {
            for length in [0, 1, 2, 3] {
                let lent = Lent {
                    numbers: length * ROOM / 3,
                    ..Lent::lists(length)
                };
                let expected = second::report(file, scale, lent.room());
                let stop = expected.as_ref().expect_err("no scale");
                let (refusal, position) = (stop.refusal, stop.position);
                assert_eq!((refusal.number, refusal.line, position), (20, 0, 0));
                hold_to(&tally, file, scale, lent, &expected);
                tally.add(&[20]);
            }
        }
    }
    tally.report();
    tally.demand_refusals(&[20]);
}
