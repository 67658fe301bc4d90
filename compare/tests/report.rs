//! The report of a match, held to the second engine, to judging each position
//! alone, and to answers that are known. What marks are given for which losses is
//! in `marking.rs`.
//!
//! The environment variable SEED sets the seed of the random files, CASES their
//! number.

use std::collections::HashSet;

use compare::engine::{self, Lent as Arrays};
use compare::hold::mark_number;
use compare::hold::numbers::ROOM;
use compare::hold::reporting::{code, hold_to, numbers, proved, Answer, Comparison, Lent};
use compare::hold::seen::Seen;
use compare::hold::tally::{say, Tally};
use compare::random::{number_from_environment, Random};
use compare::second::{
    self, Entry, Kind, Mark, Refusal, Report, Stop, FARTHEST_END, LINE, MOST_POSITIONS, MOST_TOTAL,
};
use compare::texts::examples::*;
use compare::texts::knobs::Knobs;
use compare::texts::largest;
use compare::texts::matches::rounding::Loss;
use compare::texts::matches::{self, file, whole, whole_of, Position, NO_SCALES};
use compare::texts::padding::ways;

/// The mark of a loss by scale 1 or 2, as document 02 has it.
fn marked(scale: i64, loss: i64) -> Mark {
    match (scale, loss) {
        (1, ..40) | (2, ..20) => Mark::NoMark,
        (1, ..80) | (2, ..50) => Mark::Doubtful,
        (1, ..160) | (2, ..100) => Mark::Error,
        (1 | 2, _) => Mark::Blunder,
        _ => panic!("no scale {scale}"),
    }
}

// ---------------------------------------------------------------------------
// Random files
// ---------------------------------------------------------------------------

/// The refusals of a report; 1 is not given.
const REFUSALS: [usize; 15] = [2, 3, 4, 5, 6, 7, 8, 9, 10, 11, 14, 15, 16, 18, 20];

/// The main comparison. It also fails where the files were too much alike to
/// mean anything.
#[test]
fn random_files() {
    let mut comparison = Comparison::new("reports of random files");
    let cases = number_from_environment("CASES", 36_000);
    for number in 0..cases {
        let mut random = Random::of_case(comparison.tally.seed, number);
        let file = matches::case(&mut random);
        let _ = comparison.hold(&file, matches::scale(&mut random));
    }
    let tally = &comparison.tally;
    tally.report();
    assert!(tally.cases >= 20_000, "only {} files", tally.cases);
    comparison.accepted.demand(50);
    comparison.refused.demand(50);
    comparison.lists.demand(100);
    comparison.scales.demand(100);
    comparison.forced.demand(100);
    tally.demand_refusals(&REFUSALS);
    tally.demand_two_totals();
    assert!(tally.counts[20] >= 1_000, "too few refused scales");
    for (number, count) in tally.counts.iter().enumerate().skip(1) {
        let given = REFUSALS.contains(&number);
        assert!(given || *count == 0, "refused {number}");
    }
}

// ---------------------------------------------------------------------------
// A position among others, by the proved engine alone
// ---------------------------------------------------------------------------

/// What reading and judging say of a position alone.
struct Alone {
    kind: u8,
    /// The loss, or none for "no decision".
    grains: Option<i64>,
    /// G.
    point: i64,
}

impl Alone {
    fn of(position: &Position) -> Alone {
        let columns = std::str::from_utf8(&position.play[..4]).expect("digits");
        let play = columns.trim_start().parse().expect("a number");
        let mut arrays = Box::new(Arrays::PATTERN);
        assert_eq!(engine::read(&position.table, &mut arrays), 0);
        let mut judged = [0; 3];
        assert_eq!(engine::judge(&position.table, play, &mut judged), 0);
        Alone {
            kind: arrays.kind[0],
            grains: (judged[0] == 1).then_some(judged[1]),
            point: arrays.numbers[5],
        }
    }

    fn thousandths(&self) -> Option<i64> {
        self.grains.map(|grains| 1_000 * grains / self.point)
    }

    /// What is left when the loss is rounded down, in parts of G.
    fn rest(&self) -> i64 {
        1_000 * self.grains.unwrap_or(0) % self.point
    }
}

/// The report that these make by scale 1 or 2.
fn put_together(positions: &[Alone], scale: i64) -> Answer {
    let losses = |kind: u8| -> Vec<i64> {
        let here = positions.iter().filter(|alone| alone.kind == kind);
        here.filter_map(Alone::thousandths).collect()
    };
    let (max, min) = (losses(1), losses(2));
    let listed = || positions.iter().map(Alone::thousandths);
    let mark = |loss: Option<i64>| mark_number(loss.map(|loss| marked(scale, loss)));
    Answer {
        returned: 0,
        kinds: positions.iter().map(|alone| alone.kind).collect(),
        losses: listed().map(|loss| loss.unwrap_or(-1)).collect(),
        marks: listed().map(mark).collect(),
        numbers: [
            positions.len() as i64,
            max.len() as i64,
            max.iter().sum(),
            min.len() as i64,
            min.iter().sum(),
        ],
    }
}

/// Counts where another way to round would have changed a loss or a sum.
fn count_rounding(seen: &mut Seen, positions: &[Alone]) {
    for alone in positions.iter().filter(|alone| alone.grains.is_some()) {
        let (rest, point) = (alone.rest(), alone.point);
        seen.count("another loss if rounded up", rest > 0);
        let nearest = 2 * rest >= point;
        seen.count("another loss if rounded to the nearest", nearest);
        let whole = rest == 0 && point > 1 && alone.grains > Some(0);
        seen.count("whole thousandths of several grains", whole);
    }
    for (kind, side) in [(1, "M"), (2, "N")] {
        let here = positions.iter().filter(|alone| alone.kind == kind);
        let rests: f64 = here
            .map(|alone| alone.rest() as f64 / alone.point as f64)
            .sum();
        let sort = format!("another sum at {side} if rounded last");
        // A little more than 1, as the sum is not exact.
        seen.count(&sort, rests > 1.001);
    }
}

/// Each entry is what reading and judging say of that position alone, and the
/// totals are those of the entries. Another way to round would often have listed
/// another loss.
#[test]
fn each_position_alone() {
    let mut tally = Tally::new("reports and the judgements of each position");
    let mut seen = Seen::default();
    for number in 0..4_000 {
        let mut random = Random::of_case(tally.seed, number);
        let positions = whole(&mut random);
        let alone: Vec<Alone> = positions.iter().map(Alone::of).collect();
        for scale in [1, 2] {
            let expected = put_together(&alone, scale);
            let answer = proved(&file(&positions), scale);
            assert_eq!(answer, expected, "{}", tally.place());
        }
        tally.add(&[0; 2]);
        count_rounding(&mut seen, &alone);
    }
    tally.report();
    seen.demand(100);
}

/// The answer for a file that is made of two, the first with nothing wrong in it.
fn joined(first: Answer, second: Answer) -> Answer {
    let refused = |returned| Answer {
        returned,
        ..Answer::default()
    };
    let mut both = first;
    let (before, code) = (both.kinds.len(), second.returned);
    let position = code / 1_000_000;
    let reached = before + second.kinds.len().max(position as usize);
    if reached > MOST_POSITIONS {
        return refused(501_000_015);
    }
    if code > 0 {
        return refused(code + 1_000_000 * before as u64);
    }
    both.kinds.extend(second.kinds);
    both.losses.extend(second.losses);
    both.marks.extend(second.marks);
    for (number, more) in both.numbers.iter_mut().zip(second.numbers) {
        *number += more;
    }
    both
}

/// A file made of two has the entries of both, and the sums of their totals,
/// where there are no more than 500; a refusal in the second has its position in
/// the whole.
#[test]
fn two_files_in_one() {
    let mut tally = Tally::new("reports of two files in one");
    for number in 0..4_000 {
        let mut random = Random::of_case(tally.seed, number);
        let first = file(&whole(&mut random));
        let second = match number % 2 {
            0 => file(&whole(&mut random)),
            _ => matches::case(&mut random),
        };
        let scale = random.between(1, 2);
        let expected = joined(proved(&first, scale), proved(&second, scale));
        let whole = [first, second].concat();
        assert_eq!(proved(&whole, scale), expected, "{}", tally.place());
        tally.add(&[expected.returned]);
    }
    tally.report();
    tally.demand_refusals(&[2, 15, 16]);
    assert!(tally.counts[0] >= 1_000, "too few reports");
}

/// A refused position stops the report, whatever follows it, and so does a refused
/// scale. (What follows may stand for missing lines, so 16 is left out.)
#[test]
fn what_follows_a_refused_position() {
    let mut tally = Tally::new("reports that stop");
    for number in 0..4_000 {
        let mut random = Random::of_case(tally.seed, number);
        let mut file = matches::case(&mut random);
        let scale = matches::scale(&mut random);
        let before = proved(&file, scale);
        if before.returned == 0 || before.returned % 100 == 16 {
            continue;
        }
        file.extend(match random.below(3) {
            0 => matches::case(&mut random),
            1 => vec![random.bits() as u8],
            _ => (0..random.below(200))
                .map(|_| random.bits() as u8)
                .collect(),
        });
        assert_eq!(proved(&file, scale), before, "{}", tally.place());
        tally.add(&[before.returned]);
    }
    tally.report();
    assert!(tally.cases >= 500, "only {} files", tally.cases);
    tally.demand_refusals(&[2, 14, 20]);
}

// ---------------------------------------------------------------------------
// Answers that are known
// ---------------------------------------------------------------------------

/// What is listed of a position by every scale: the root's kind, and the loss in
/// thousandths or none for "no decision".
type Listed = (Kind, Option<i64>);

/// What is known of a file by every scale.
type Known = Result<Vec<Listed>, Stop>;

/// Holds both engines to what is known, where so much is lent, by both scales; and
/// by numbers that no scale has, one of them for each file: they are refused before
/// all else.
fn hold_known(tally: &mut Tally, file: &[u8], lent: Lent, known: &Known) {
    let no_scale = NO_SCALES[tally.cases as usize % NO_SCALES.len()];
    let codes = [1, 2, no_scale].map(|scale| {
        let expected = match known {
            _ if scale == no_scale => Err(stop(20, 0, 0)),
            Ok(listed) => Ok(report_of(scale, listed)),
            Err(stop) => Err(*stop),
        };
        let answer = second::report(file, scale, lent.room());
        assert_eq!(answer, expected, "{}\n{}", tally.place(), escaped(file));
        hold_to(tally, file, scale, lent, &expected);
        code(&expected)
    });
    tally.add(&codes);
}

/// The report that lists this by scale 1 or 2; a side's total is taken from those
/// with a loss.
fn report_of(scale: i64, listed: &[Listed]) -> Report {
    let mut report = Report::default();
    let sides = [(Kind::Max, &mut report.max), (Kind::Min, &mut report.min)];
    for (kind, total) in sides {
        let here = listed.iter().filter(|(root, _)| *root == kind);
        let losses: Vec<i64> = here.filter_map(|(_, loss)| *loss).collect();
        total.decisions = losses.len() as i64;
        total.sum = losses.iter().sum();
    }
    let entries = listed.iter().map(|&(root, loss)| Entry {
        root,
        loss,
        mark: loss.map(|loss| marked(scale, loss)),
    });
    report.entries = entries.collect();
    report
}

fn stop(number: u8, line: usize, position: usize) -> Stop {
    let refusal = Refusal { number, line };
    Stop { refusal, position }
}

fn refused(number: u8, line: usize, position: usize) -> Known {
    Err(stop(number, line, position))
}

fn lost(root: Kind, loss: i64) -> Listed {
    (root, Some(loss))
}

fn no_decision(root: Kind) -> Listed {
    (root, None)
}

/// Positions of document 01's tables and two with a forced play, each with what is
/// listed of it.
fn known() -> Vec<(Position, Listed)> {
    let chance = Position::new(9_999, table_b_under_chance());
    let at = |play, table: &str| Position::new(play, dotted(table));
    vec![
        (at(1, TABLE_A), lost(Kind::Max, 0)),
        (at(2, TABLE_A), lost(Kind::Max, 1_000)),
        (at(1, TABLE_B), lost(Kind::Max, 0)),
        (at(2, TABLE_B), lost(Kind::Max, 1_500)),
        (at(1, TABLE_B_TURNED), lost(Kind::Min, 0)),
        (at(2, TABLE_B_TURNED), lost(Kind::Min, 1_500)),
        (at(0, LONE_LEAF), no_decision(Kind::Leaf)),
        (at(-999, LONE_LEAF), no_decision(Kind::Leaf)),
        (chance, no_decision(Kind::Chance)),
        (forced_at('M', 0), no_decision(Kind::Max)),
        (forced_at('N', 2), no_decision(Kind::Min)),
    ]
}

/// A position with one child at a root of this kind, and this play number.
fn forced_at(root: char, play: i64) -> Position {
    Position::new(play, with_root(FORCED_CHANCE, root))
}

/// Every two of the known positions, with every room for the numbers; and all of
/// them.
#[test]
fn known_positions() {
    let mut tally = Tally::new("reports of known positions");
    let known = known();
    for (first, listed) in &known {
        for (second, other) in &known {
            let file = file(&[first.clone(), second.clone()]);
            let report = vec![*listed, *other];
            for numbers in 0..=ROOM {
                let lent = Lent {
                    numbers,
                    ..Lent::lists(2)
                };
                hold_known(&mut tally, &file, lent, &Ok(report.clone()));
            }
            for length in 0..2 {
                let lent = Lent::lists(length);
                hold_known(&mut tally, &file, lent, &refused(11, 0, 0));
            }
            for length in 3..5 {
                let lent = Lent::lists(length);
                hold_known(&mut tally, &file, lent, &Ok(report.clone()));
            }
        }
    }
    let (positions, listed): (Vec<_>, Vec<_>) = known.into_iter().unzip();
    for scale in [1, 2] {
        let report = report_of(scale, &listed);
        assert_eq!(numbers(&report), [11, 4, 2_500, 2, 1_500]);
    }
    let lent = Lent::lists(listed.len());
    hold_known(&mut tally, &file(&positions), lent, &Ok(listed));
    // Nothing lent and nothing in the file.
    hold_known(&mut tally, b"", Lent::lists(0), &Ok(vec![]));
    tally.report();
}

/// A forced play of either side between two decisions counts for neither side,
/// whatever its number (document 02, Item 2).
#[test]
fn a_forced_play_between_decisions() {
    let mut tally = Tally::new("reports of a forced play between decisions");
    let first = |table: &str| Position::new(2, dotted(table));
    let last = |play, root| Position::new(play, with_root(TWO_LEAVES, root));
    let decisions = [
        (Kind::Max, first(TABLE_B), last(1, 'M'), [3, 2, 4_500, 0, 0]),
        (
            Kind::Min,
            first(TABLE_B_TURNED),
            last(2, 'N'),
            [3, 0, 0, 2, 4_500],
        ),
    ];
    for (kind, first, last, totals) in decisions {
        for (root, forced) in [('M', Kind::Max), ('N', Kind::Min)] {
            for play in [1, 0, 2, -1, -999, 9_999] {
                let file = file(&[first.clone(), forced_at(root, play), last.clone()]);
                let listed = vec![lost(kind, 1_500), no_decision(forced), lost(kind, 3_000)];
                for scale in [1, 2] {
                    assert_eq!(numbers(&report_of(scale, &listed)), totals);
                }
                hold_known(&mut tally, &file, Lent::lists(3), &Ok(listed));
            }
        }
    }
    tally.report();
}

/// A file of three positions, cut after each of its bytes.
#[test]
fn every_cut() {
    let mut tally = Tally::new("reports of cut files");
    let known = known();
    let (positions, listed): (Vec<_>, Vec<_>) =
        [3, 6, 5].map(|i| known[i].clone()).into_iter().unzip();
    let whole = file(&positions);
    let mut ends = vec![0];
    for position in &positions {
        ends.push(ends[ends.len() - 1] + position.length());
    }
    for length in 0..=whole.len() {
        let before = ends.iter().filter(|end| **end <= length).count() - 1;
        let expected = match ends.contains(&length) {
            true => Ok(listed[..before].to_vec()),
            false => refused(16, 0, before + 1),
        };
        hold_known(&mut tally, &whole[..length], Lent::lists(3), &expected);
    }
    tally.report();
    // Each by both scales.
    assert_eq!((tally.counts[0], tally.cases), (8, whole.len() as u64 + 1));
}

/// Every play number in table B, where two are a child's, and where the play is
/// forced.
#[test]
fn every_play_number() {
    let mut tally = Tally::new("reports of every play number");
    for play in -999..=9_999 {
        let expected = match play {
            1 => Ok(vec![lost(Kind::Max, 0)]),
            2 => Ok(vec![lost(Kind::Max, 1_500)]),
            _ => refused(14, 0, 1),
        };
        let file = file(&[Position::new(play, dotted(TABLE_B))]);
        hold_known(&mut tally, &file, Lent::lists(1), &expected);
        for (root, kind) in [('M', Kind::Max), ('N', Kind::Min)] {
            let file = matches::file(&[forced_at(root, play)]);
            let expected = Ok(vec![no_decision(kind)]);
            hold_known(&mut tally, &file, Lent::lists(1), &expected);
        }
    }
    tally.report();
}

/// All that 4 columns may hold of some bytes, and every byte after them, before a
/// table where every play number is accepted.
#[test]
fn every_play_line() {
    let mut tally = Tally::new("reports of every play number's line");
    let lines = (-999..=9_999).flat_map(|play| ways(play, 4));
    let well: HashSet<Vec<u8>> = lines.map(|way| [&way[..], b"\n"].concat()).collect();
    let mut hold = |play: Vec<u8>| {
        let expected = match well.contains(&play) {
            true => Ok(vec![no_decision(Kind::Leaf)]),
            false => refused(16, 0, 1),
        };
        let table = dotted(LONE_LEAF);
        let file = file(&[Position { play, table }]);
        hold_known(&mut tally, &file, Lent::lists(1), &expected);
    };
    let bytes = b" -01289+/:\n";
    for i in 0..bytes.len().pow(4) {
        let column = |place: u32| bytes[i / bytes.len().pow(place) % bytes.len()];
        hold(vec![column(3), column(2), column(1), column(0), b'\n']);
    }
    for byte in 0..=u8::MAX {
        hold(vec![b' ', b' ', b' ', b'1', byte]);
        hold(vec![b' ', b' ', b' ', byte, b'\n']);
    }
    tally.report();
}

/// Every count in the header of table B, which has five node lines, with nothing
/// after it and with many lines after it. Of 1 to 4 the lines left over would be
/// the next position.
#[test]
fn every_count() {
    let mut tally = Tally::new("reports of every count");
    for count in (-999..=0).chain(5..=9_999) {
        let table = table_b_with(0, &format!("{count:>4}...4.......0.......8"));
        let mut file = file(&[Position::new(1, table)]);
        let short = match count {
            5 => Ok(vec![lost(Kind::Max, 0)]),
            6..=1_024 => refused(16, 0, 1),
            _ => refused(4, 0, 1),
        };
        hold_known(&mut tally, &file, Lent::lists(1), &short);
        // A node 5 follows that is none, and lines enough for the greatest count;
        // where table B ends before them, they are no play number's line.
        file.extend([b'x'; LINE * 10_000]);
        let long = match count {
            5 => refused(16, 0, 2),
            6..=1_024 => refused(2, 6, 1),
            _ => refused(4, 0, 1),
        };
        hold_known(&mut tally, &file, Lent::lists(1), &long);
    }
    tally.report();
}

// ---------------------------------------------------------------------------
// The sequence of the refusals
// ---------------------------------------------------------------------------

/// A file whose last position, table B's with its second child played, gets
/// faults; and what is lent for it.
struct Faulty {
    /// Positions before it.
    before: usize,
    position: Position,
    /// Entries that the lists lack.
    lacking: usize,
}

/// A fault, and the refusal and line that it has alone.
type Fault = (u8, usize, fn(&mut Faulty));

/// The faults, in the sequence in which a report looks for them; those in one
/// list have one place in it. Where two change the same bytes, the earlier one
/// is made last and stays.
const FAULTS: [&[Fault]; 9] = [
    &[(15, 0, |file| file.before = MOST_POSITIONS)],
    &[
        (16, 0, |file| file.position.play[1] = b'0'),
        (16, 0, |file| file.position.play[3] = b' '),
        (16, 0, |file| file.position.play[4] = b' '),
        (16, 0, |file| file.position.table.truncate(LINE - 1)),
    ],
    &[
        (2, 0, |file| file.put(0, "  +5")),
        (2, 0, |file| file.put(4, "    ")),
        (2, 0, |file| file.put(4, " 4  ")),
        (2, 0, |file| file.put(4, "00 4")),
        (2, 0, |file| file.put(14, "-0")),
        (2, 0, |file| file.put(24, " ")),
    ],
    &[
        (3, 0, |file| file.put(4, "   0")),
        (3, 0, |file| file.put(4, "  65")),
        (3, 0, |file| file.put(4, " 100")),
        (3, 0, |file| file.put(4, " 4 4")),
        (3, 0, |file| file.put(4, "65 4")),
        (3, 0, |file| file.put(15, "9")),
        (3, 0, |file| file.put(16, " 1000001")),
    ],
    &[
        (4, 0, |file| file.put(0, "   0")),
        (4, 0, |file| file.put(0, "  -1")),
        (4, 0, |file| file.put(0, "1025")),
        (4, 0, |file| file.put(0, "9999")),
    ],
    &[
        (16, 0, |file| file.put(0, "   6")),
        (16, 0, |file| file.put(0, "1024")),
        (16, 0, |file| file.position.table.truncate(6 * LINE - 1)),
        (16, 0, |file| file.position.table.truncate(5 * LINE)),
        (16, 0, |file| file.position.table.truncate(LINE)),
    ],
    &[
        (2, 1, |file| file.put(LINE + 4, "x")),
        (4, 2, |file| file.put(2 * LINE, "   2")),
        (5, 2, |file| file.put(2 * LINE + 5, "X")),
        (8, 5, |file| file.put(5 * LINE, "   4 M    2    1        ")),
        (9, 3, |file| file.put(4 * LINE + 15, "2")),
    ],
    &[
        (14, 0, |file| file.position.play[3] = b'0'),
        (14, 0, |file| file.position.play[3] = b'3'),
        (14, 0, |file| file.position.play[2] = b'-'),
    ],
    &[
        (11, 0, |file| file.lacking = 1),
        (11, 0, |file| file.lacking = file.before + 1),
    ],
];

impl Faulty {
    /// Writes in the table.
    fn put(&mut self, start: usize, written: &str) {
        let columns = self.position.table.get_mut(start..start + written.len());
        let columns = columns.expect("not cut yet");
        columns.copy_from_slice(written.as_bytes());
    }

    /// The positions, and what is listed of them if the last one has no fault.
    fn written(&self) -> (Vec<Position>, Vec<Listed>) {
        let before = Position::new(7, dotted(LONE_LEAF));
        let mut positions = vec![before; self.before];
        positions.push(self.position.clone());
        let mut listed = vec![no_decision(Kind::Leaf); self.before];
        listed.push(lost(Kind::Max, 1_500));
        (positions, listed)
    }
}

/// Every set of faults, each made in one of its ways: the report names the first, or
/// the scale if that is refused.
#[test]
fn every_set_of_faults() {
    let mut tally = Tally::new("reports of files with several faults");
    let seed = tally.seed;
    for number in 0..8 << FAULTS.len() {
        let mut random = Random::of_case(seed, number);
        let mut faulty = Faulty {
            before: random.pick(&[0, 2, MOST_POSITIONS - 1]),
            position: Position::new(2, dotted(TABLE_B)),
            lacking: 0,
        };
        let mut first = None;
        for place in (0..FAULTS.len()).rev() {
            if number >> place & 1 == 1 {
                let (number, line, make) = random.pick(FAULTS[place]);
                make(&mut faulty);
                first = Some((number, line));
            }
        }
        let (positions, listed) = faulty.written();
        let expected = match first {
            None => Ok(listed),
            Some((11, line)) => refused(11, line, 0),
            Some((number, line)) => refused(number, line, positions.len()),
        };
        let mut lent = Lent::lists(positions.len());
        // By fives, so that every set of faults comes with each of these.
        match number % 5 {
            0 => lent.kinds -= faulty.lacking,
            1 => lent.losses -= faulty.lacking,
            2 => lent.marks -= faulty.lacking,
            3 => {
                lent.losses -= faulty.lacking;
                lent.marks -= faulty.lacking;
            }
            _ => lent = Lent::lists(positions.len() - faulty.lacking),
        }
        hold_known(&mut tally, &file(&positions), lent, &expected);
    }
    tally.report();
    for (number, ..) in FAULTS.concat() {
        let count = tally.counts[usize::from(number)];
        assert!(count > 0, "never refused {number}");
    }
}

// ---------------------------------------------------------------------------
// Rounding, and the greatest matches
// ---------------------------------------------------------------------------

/// Losses for every T and weight, with one C to four.
fn losses() -> Vec<Loss> {
    let mut points = [1, 7, 1_000, 999_999, FARTHEST_END].into_iter().cycle();
    let mut losses = Vec::new();
    for total in 2..=MOST_TOTAL {
        for weight in 1..total {
            for chances in 1..=4 {
                let points = points.next().expect("a cycle");
                losses.extend(b"MN".map(|side| Loss {
                    side,
                    points,
                    total,
                    weight,
                    chances,
                }));
            }
        }
    }
    losses
}

/// Nearly all of these losses are no whole number of thousandths.
#[test]
fn losses_are_rounded_down() {
    let mut tally = Tally::new("losses rounded down");
    let (mut up, mut nearest, mut none) = (0, 0, 0);
    for losses in losses().chunks(MOST_POSITIONS) {
        let mut listed_so = Vec::new();
        for loss in losses {
            let (thousandths, grains) = loss.fraction();
            let (listed, rest) = (thousandths / grains, thousandths % grains);
            up += u64::from(rest > 0);
            nearest += u64::from(2 * rest >= grains);
            none += u64::from(listed == 0);
            let root = match loss.side {
                b'M' => Kind::Max,
                _ => Kind::Min,
            };
            listed_so.push(lost(root, listed));
        }
        let positions: Vec<Position> = losses.iter().map(Loss::position).collect();
        let expected = Ok(listed_so);
        let lent = Lent::lists(positions.len());
        hold_known(&mut tally, &file(&positions), lent, &expected);
    }
    tally.report();
    say(&format!(
        "rounded up {up} would differ, to the nearest {nearest}; {none} are listed as 0"
    ));
    assert!(up >= 10_000 && nearest >= 5_000 && none >= 100);
}

/// 500 tables of 1,024 lines, the greatest losses and the least; and one more.
#[test]
fn greatest_matches() {
    const LOST: [i64; 5] = [2_000_000_000, 0, 0, 0, 1_000];
    let mut tally = Tally::new("reports of the greatest matches");
    let roots = [
        (b'M', Kind::Max, FARTHEST_END),
        (b'N', Kind::Min, -FARTHEST_END),
    ];
    for (kind, root, best) in roots {
        let table = largest::plays(kind, best);
        let known = (1..)
            .zip(LOST)
            .map(|(play, loss)| (Position::new(play, table.clone()), lost(root, loss)));
        let known: Vec<_> = known.collect();
        // All of the greatest loss, and all five by turns.
        for of in [1, 5] {
            let turns = known[..of].iter().cycle().take(MOST_POSITIONS);
            let (mut positions, listed): (Vec<_>, Vec<_>) = turns.cloned().unzip();
            let expected = Ok(listed);
            let whole = file(&positions);
            hold_known(&mut tally, &whole, Lent::lists(MOST_POSITIONS), &expected);
            let short = Lent::lists(MOST_POSITIONS - 1);
            hold_known(&mut tally, &whole, short, &refused(11, 0, 0));
            positions.push(positions[0].clone());
            let lent = Lent::lists(MOST_POSITIONS + 1);
            hold_known(&mut tally, &file(&positions), lent, &refused(15, 0, 501));
        }
    }
    tally.report();
}

/// 500 positions, and then each byte that there is, or more: it is refused 15,
/// whatever follows.
#[test]
fn a_byte_after_500_positions() {
    let mut tally = Tally::new("reports of a byte too many");
    let mut random = Random::of_case(tally.seed, 0);
    let positions = whole_of(MOST_POSITIONS, &mut random);
    let lent = Lent::lists(MOST_POSITIONS);
    let mut file = file(&positions);
    let length = file.len();
    for scale in [1, 2] {
        let report = second::report(&file, scale, MOST_POSITIONS);
        hold_to(&tally, &file, scale, lent, &report);
        assert_eq!(proved(&file, scale).numbers[0], 500);
    }
    for byte in 0..=u8::MAX {
        file.truncate(length);
        for bytes in [1, 4, 25] {
            file.resize(file.len() + bytes, byte);
            hold_known(&mut tally, &file, lent, &refused(15, 0, 501));
        }
    }
    tally.report();
}

/// Random tables of 1,024 lines, in short matches.
#[test]
fn largest_tables() {
    let mut comparison = Comparison::new("reports of the largest tables");
    for number in 0..150 {
        let mut random = Random::of_case(comparison.tally.seed, number);
        let setting = [Knobs::largest, Knobs::largest_chains, Knobs::largest_plain];
        let positions = (0..3).map(|i| matches::position(setting[i], &mut random));
        let positions: Vec<Position> = positions.collect();
        let scale = random.between(1, 2);
        comparison.hold(&file(&positions), scale).expect("whole");
    }
    comparison.tally.report();
}
