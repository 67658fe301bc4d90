//! Holds the reports of the desk's command to the second engine, in both forms, of
//! one file and of several: the answers to the byte, what is shown of a refused
//! match, the totals over all or why there are none, and the exit status.
//!
//! SEED sets the seed of the random matches.

use std::ffi::OsString;
use std::fs::{self, File};
use std::io::{BufRead, BufReader};
use std::os::unix::ffi::OsStringExt;
use std::slice::from_ref;
use std::time::{Duration, Instant};

use compare::hold::desk::*;
use compare::hold::seen::{Seen, ROOTS, SIDES};
use compare::hold::tally::Tally;
use compare::random::Random;
use compare::second::desk::{self, Form, Reported, Stretch, FORMS, USUAL_SCALE};
use compare::second::{
    self, Refusal, Report, Stop, Total, FARTHEST_END, LINE, MARKS, MOST_POSITIONS, PLAY_LINE,
};
use compare::texts::examples::*;
use compare::texts::largest;
use compare::texts::matches::chosen::chosen;
use compare::texts::matches::rounding::Loss;
use compare::texts::matches::{self, file, whole, whole_of, Position};
use compare::texts::padding::padded_match;

/// The position of this play in a table that is written with dots.
fn position(play: i64, table: &str) -> Position {
    Position::new(play, dotted(table))
}

/// A position with one child at a root of this kind, and this play number.
fn forced(root: char, play: i64) -> Position {
    Position::new(play, with_root(FORCED_CHANCE, root))
}

/// A position that loses so many thousandths.
fn losing(side: u8, thousandths: i64) -> Position {
    let loss = Loss {
        side,
        points: thousandths,
        total: 10,
        weight: 1,
        chances: 3,
    };
    assert_eq!(loss.fraction(), (1_000 * thousandths, 1_000));
    loss.position()
}

/// In a match of tables A and B, the place of node 3's weight in B.
const WEIGHT: usize = PLAY_LINE + 8 * LINE + PLAY_LINE + 4 * LINE + 15;

/// Writes a match to a file that no other test writes.
fn in_file(name: &str, bytes: &[u8]) -> Given {
    Given::file(written(&format!("desk-report-{name}.txt"), bytes), bytes)
}

// ---------------------------------------------------------------------------
// Answers
// ---------------------------------------------------------------------------

/// The example by every way.
#[test]
fn the_example() {
    let (name, bytes) = example("match");
    let ways = [
        Given::file(name, &bytes),
        Given::input(&bytes),
        Given::dash(&bytes),
    ];
    for (turn, way) in ways.into_iter().enumerate() {
        for form in FORMS {
            for scale in [None, Some(1), Some(2)] {
                let manner = Manner {
                    form,
                    scale,
                    turn: turn as u64,
                };
                let outcomes = hold_report(from_ref(&way), manner, "the example");
                assert!(matches!(outcomes[..], [Outcome::Reported(_)]));
            }
        }
    }
}

/// One file and several: the same one twice, empty ones, standard input among
/// them, 500 positions, and 500 of the greatest tables.
#[test]
fn one_file_and_several() {
    let random = &mut Random::of_case(1, 1);
    let (name, bytes) = example("match");
    let example = Given::file(name, &bytes);
    let empty = in_file("empty", b"");
    let many = in_file("many", &file(&whole_of(MOST_POSITIONS, random)));
    let short = in_file("short", &file(&[losing(b'M', 1), losing(b'N', 2)]));
    let leaf = in_file("leaf", &file(&[position(-999, LONE_LEAF)]));
    let dash = Given::dash(&file(&[losing(b'N', 987_654)]));
    let greatest = Position::new(1, largest::plays(b'M', FARTHEST_END));
    let greatest = Given::input(&file(&vec![greatest; MOST_POSITIONS]));
    let sets: [&[&Given]; 18] = [
        &[&empty],
        &[&Given::input(b"")],
        &[&Given::dash(b"")],
        &[&many],
        &[&short],
        &[&leaf],
        &[&dash],
        &[&greatest],
        &[&example, &example],
        &[&empty, &empty],
        &[&empty, &leaf],
        &[&leaf, &leaf],
        &[&empty, &example],
        &[&example, &empty, &short],
        &[&dash, &example],
        &[&leaf, &dash, &empty, &short],
        &[&many, &many, &many],
        &[&short, &leaf, &example, &many, &empty, &short, &short],
    ];
    for (turn, set) in sets.into_iter().enumerate() {
        let given: Vec<Given> = set.iter().map(|&file| file.clone()).collect();
        for form in FORMS {
            let manner = Manner {
                turn: turn as u64,
                ..form.into()
            };
            let outcomes = hold_report(&given, manner, "chosen files");
            let reported = |outcome: &Outcome| matches!(outcome, Outcome::Reported(_));
            assert!(outcomes.iter().all(reported));
        }
    }
}

const FORCED_REPORTED: &str = "\
position  side  play         loss  mark
       1  M        2        1.500  blunder
       2  M        1  no decision
       3  N        0  no decision
       4  M       -1  no decision
       5  M        1        0.000  no mark
       6  N        1  no decision
       7  M        2  no decision
       8  N     -999  no decision
       9  M     9999  no decision

M       2 decisions, 1.500 points lost, 0.7500 each
marks   1 no mark, 0 doubtful, 0 errors, 1 blunder
N       no decisions
scale   2
";

const FORCED_IN_FIELDS: &str = "\
file\tstandard input
scale\t2
position\t1\tM\t2\t1500\t1.500\tblunder
position\t2\tM\t1\t\t\t
position\t3\tN\t0\t\t\t
position\t4\tM\t-1\t\t\t
position\t5\tM\t1\t0\t0.000\tno mark
position\t6\tN\t1\t\t\t
position\t7\tM\t2\t\t\t
position\t8\tN\t-999\t\t\t
position\t9\tM\t9999\t\t\t
positions\t9
total\tM\t2\t1500\t1.500\t0.7500\t1\t0\t0\t1
total\tN\t0\t0\t0.000\t\t0\t0\t0\t0
";

/// A forced play counts for neither side, whatever its number: by the words that
/// are printed, and with the same match among several.
#[test]
fn forced_plays() {
    let bytes = file(&[
        position(2, TABLE_B),
        forced('M', 1),
        forced('N', 0),
        forced('M', -1),
        position(1, TABLE_B),
        forced('N', 1),
        forced('M', 2),
        forced('N', -999),
        forced('M', 9_999),
    ]);
    let given = Given::input(&bytes);
    let printed = [
        (Form::People, FORCED_REPORTED),
        (Form::Tsv, FORCED_IN_FIELDS),
    ];
    for (form, printed) in printed {
        let (words, input) = report_words(from_ref(&given), form);
        let ran = run(&words, input);
        ran.answers(printed);
        hold_reported(&ran, from_ref(&given), form, "forced plays");

        let several = [Given::dash(&bytes), in_file("forced", &bytes)];
        let (words, input) = report_words(&several, form);
        let ran = run(&words, input);
        hold_reported(&ran, &several, form, "forced plays in two files");
        let all = match form {
            Form::People => FORCED_OVER_ALL,
            Form::Tsv => {
                "\nall\t2\t18\t4\t3000\t3.000\t0.7500\t0\t0\t0.000\t\t2\t0\t0\t2\t0\t0\t0\t0\n"
            }
        };
        assert!(ran.out.ends_with(all), "{all}: {}", ran.out);
    }
}

const FORCED_OVER_ALL: &str = "
scale   2

all     2 files, 18 positions
M       4 decisions, 3.000 points lost, 0.7500 each
marks   2 no mark, 0 doubtful, 0 errors, 2 blunders
N       no decisions
scale   2
";

const TWO_TOTALS_REPORTED: &str = "\
position  side  play         loss  mark
       1  M        1        1.166  blunder
       2  M        2        0.000  no mark
       3  N        1        1.166  blunder
       4  C        1  no decision
       5  M        2        1.500  blunder

M       3 decisions, 2.666 points lost, 0.8887 each
marks   1 no mark, 0 doubtful, 0 errors, 2 blunders
N       1 decision, 1.166 points lost, 1.1660 each
marks   0 no mark, 0 doubtful, 0 errors, 1 blunder
scale   2
";

/// Tables with two totals among others: what a play loses there is 14 of 12 grains to
/// the point.
#[test]
fn two_totals() {
    let turned = second_turned(&dotted(TWO_TOTALS));
    let bytes = file(&[
        position(1, TWO_TOTALS),
        position(2, TWO_TOTALS),
        Position::new(1, turned),
        Position::new(1, example("first-roll").1),
        position(2, TABLE_B),
    ]);
    let given = in_file("two-totals", &bytes);
    let (words, _) = report_words(from_ref(&given), Form::People);
    run(&words, &[]).answers(TWO_TOTALS_REPORTED);
    for form in FORMS {
        hold_report(from_ref(&given), form, "two totals");
        hold_report(&[given.clone(), Given::dash(&bytes)], form, "two totals");
    }
}

/// The turned table, by the second engine.
fn second_turned(text: &[u8]) -> Vec<u8> {
    let mut turned = vec![0; text.len()];
    second::turn(text, &mut turned).expect("accepted");
    turned
}

/// Losses of one side in thousandths, and what is said of them: exact averages, then
/// some that go down or up, then 0.00025 and 0.00075. After a bar stand the marks.
const AVERAGES: &str = "\
: no decisions
0: 1 decision, 0.000 points lost, 0.0000 each|1 no mark, 0 doubtful, 0 errors, 0 blunders
1: 1 decision, 0.001 points lost, 0.0010 each|1 no mark, 0 doubtful, 0 errors, 0 blunders
999999: 1 decision, 999.999 points lost, 999.9990 each|0 no mark, 0 doubtful, 0 errors, 1 blunder
0 1: 2 decisions, 0.001 points lost, 0.0005 each|2 no mark, 0 doubtful, 0 errors, 0 blunders
2999 1 0: 3 decisions, 3.000 points lost, 1.0000 each|2 no mark, 0 doubtful, 0 errors, 1 blunder
1 0 0: 3 decisions, 0.001 points lost, 0.0003 each|3 no mark, 0 doubtful, 0 errors, 0 blunders
2 0 0: 3 decisions, 0.002 points lost, 0.0007 each|3 no mark, 0 doubtful, 0 errors, 0 blunders
999999 999999 1000000: 3 decisions, 2999.998 points lost, 999.9993 each|0 no mark, 0 doubtful, 0 errors, 3 blunders
1 0 0 0: 4 decisions, 0.001 points lost, 0.0003 each|4 no mark, 0 doubtful, 0 errors, 0 blunders
3 0 0 0: 4 decisions, 0.003 points lost, 0.0008 each|4 no mark, 0 doubtful, 0 errors, 0 blunders
";

/// The lines of a side of which this is said.
fn lines_of(side: &str, said: &str) -> String {
    match said.split_once('|') {
        None => format!("{side}       {said}\n"),
        Some((lost, marks)) => format!("{side}       {lost}\nmarks   {marks}\n"),
    }
}

/// Each side with each list of losses, and what is said of it over all files.
#[test]
fn averages() {
    let known: Vec<(&str, &str)> = AVERAGES
        .lines()
        .map(|line| line.split_once(": ").expect("losses and what is said"))
        .collect();
    let plays = |side, losses: &str| -> Vec<Position> {
        let losses = losses.split_whitespace();
        let losses = losses.map(|loss| loss.parse().expect("a number"));
        losses.map(|loss| losing(side, loss)).collect()
    };
    for (at, (max, said_max)) in known.iter().enumerate() {
        let (min, said_min) = known[(at + 5) % known.len()];
        let positions = [plays(b'M', max), plays(b'N', min)].concat();
        let given = in_file("averages", &file(&positions));
        let ran = run(&report_words(from_ref(&given), Form::People).0, &[]);
        let said = lines_of("M", said_max) + &lines_of("N", said_min);
        let totals = format!("\n{said}scale   2\n");
        assert!(ran.out.ends_with(&totals), "{totals}: {}", ran.out);
        hold_reported(&ran, from_ref(&given), Form::People, "averages");

        let several = [given, Given::dash(b"")];
        let ran = run(&report_words(&several, Form::People).0, &[]);
        let plural = if positions.len() == 1 { "" } else { "s" };
        let counted = format!("{} position{plural}", positions.len());
        let all = format!("\n\nall     2 files, {counted}\n{said}scale   2\n");
        assert!(ran.out.ends_with(&all), "{all}: {}", ran.out);
        for form in FORMS {
            hold_report(&several, form, "averages over all");
        }
    }
}

/// Whole matches, damaged ones and missing ones, one file or several. It also fails
/// where they were too much alike to mean anything.
#[test]
fn random_matches() {
    let mut tally = Tally::new("desk on random matches");
    let (mut files, mut runs) = (Seen::default(), Seen::default());
    let (mut forced, mut marks) = (Seen::default(), Seen::default());
    for number in 0..2_400 {
        let random = &mut Random::of_case(tally.seed, number);
        let given = random_files(random);
        let manner = Manner {
            form: random.pick(&FORMS),
            scale: random_scale(random),
            turn: number,
        };
        let form = manner.form;
        let outcomes = hold_report(&given, manner, &tally.place());
        let mut codes = Vec::new();
        for outcome in &outcomes {
            match outcome {
                Outcome::Reported(reported) => {
                    codes.push(0);
                    count_report(&mut files, reported.report());
                    count_forced(&mut forced, reported, form);
                }
                Outcome::Refused(refused) => codes.push(u64::from(refused.refusal.number)),
                Outcome::Unread => {}
            }
        }
        if outcomes.is_empty() {
            codes.push(20);
        }
        count_run(&mut runs, &outcomes, form);
        count_marks(&mut marks, &given, &outcomes, manner);
        tally.add(&codes);
    }
    tally.report();
    files.demand(5);
    runs.demand(5);
    forced.demand(30);
    marks.demand(5);
}

/// None, one of the scales, or rarely another number.
fn random_scale(random: &mut Random) -> Option<i64> {
    match random.below(12) {
        0 => Some(matches::no_scale(random)),
        1..=3 => None,
        4..=7 => Some(1),
        _ => Some(2),
    }
}

fn random_files(random: &mut Random) -> Vec<Given> {
    let count = random.pick(&[1, 1, 2, 3, 4, 6]);
    let dash = random.below(2 * count);
    let (damaged, lacking) = (random.one_in(2), random.one_in(3));
    let files = (0..count).map(|at| {
        let bytes = match (damaged && random.one_in(2), random.below(2)) {
            (true, _) => matches::case(random),
            (false, 0) => file(&whole(random)),
            (false, _) => {
                let positions = chosen(random).into_iter().map(|one| one.position);
                file(&positions.collect::<Vec<_>>())
            }
        };
        let bytes = some_padded(bytes, random);
        if lacking && random.one_in(4) {
            Given::missing(&format!("no-such-{at}.txt"))
        } else if at != dash {
            in_file(&format!("random-{at}"), &bytes)
        } else if count == 1 && random.one_in(2) {
            Given::input(&bytes)
        } else {
            Given::dash(&bytes)
        }
    });
    files.collect()
}

fn count_report(seen: &mut Seen, report: &Report) {
    seen.count("an empty file", report.entries.is_empty());
    seen.count("500 positions", report.entries.len() == MOST_POSITIONS);
    for kind in ROOTS {
        let found = report.entries.iter().filter(|entry| entry.root == kind);
        seen.add(&format!("root {kind:?}"), found.count() as u64);
    }
    for (side, total) in [("M", report.max), ("N", report.min)] {
        let Total { decisions, sum } = total;
        let mut count = |sort: &str, is_one| seen.count(&format!("{sort} at {side}"), is_one);
        count("no decisions", decisions == 0);
        count("one decision", decisions == 1);
        count("several decisions", decisions > 1);
        let twice = (2 * 10 * sum).checked_rem(2 * decisions).unwrap_or(0);
        count("an average rounded up", twice > decisions);
        count("an average rounded down", 0 < twice && twice < decisions);
        count("an average at a half", 0 < twice && twice == decisions);
    }
    let (max, min) = (report.max, report.min);
    seen.count("other totals at M and N", max != min);
}

/// Counts whether a report has forced plays at M and at N: by the number played, and
/// by whether that side has decisions besides.
fn count_forced(seen: &mut Seen, reported: &Reported, form: Form) {
    let report = reported.report();
    for (kind, total) in SIDES.into_iter().zip([report.max, report.min]) {
        let entries = report.entries.iter().zip(reported.plays());
        let plays: Vec<i64> = entries
            .filter(|(entry, _)| entry.root == kind && entry.loss.is_none())
            .map(|(_, &play)| play)
            .collect();
        for one in FORMS {
            let mut count = |sort: &str, is_one| {
                let sort = format!("forced at {kind:?}, {sort} for {one:?}");
                seen.count(&sort, form == one && is_one);
            };
            count("number 1", plays.contains(&1));
            count("number 0", plays.contains(&0));
            count("number 2", plays.contains(&2));
            count("below zero", plays.iter().any(|&play| play < 0));
            count("a greater number", plays.iter().any(|&play| play > 2));
            let forced = !plays.is_empty();
            count("decisions besides", forced && total.decisions > 0);
            count("no decision besides", forced && total.decisions == 0);
        }
    }
}

/// Counts the marks of reported files and the refused scales, for each form and by
/// each way to name a scale.
fn count_marks(seen: &mut Seen, given: &[Given], outcomes: &[Outcome], manner: Manner) {
    let reported: Vec<&Report> = outcomes
        .iter()
        .filter_map(|outcome| match outcome {
            Outcome::Reported(reported) => Some(reported.report()),
            _ => None,
        })
        .collect();
    for form in FORMS {
        for scale in [None, Some(1), Some(2)] {
            let here = (manner.form, manner.scale) == (form, scale);
            let mut count = |sort: &str, is_one| {
                let scale = scale.map_or("no scale named".to_string(), |n| format!("scale {n}"));
                seen.count(&format!("{sort}, {scale}, for {form:?}"), here && is_one);
            };
            for mark in MARKS {
                let mut entries = reported.iter().flat_map(|report| &report.entries);
                let marked = entries.any(|entry| entry.mark == Some(mark));
                count(&format!("{mark:?}"), marked);
            }
            let all = given.len() > 1 && reported.len() == given.len();
            let with_marks = reported.iter().filter(|report| report.max.decisions > 0);
            count("marks added up", all && with_marks.count() > 1);
        }
        let refused = manner.form == form && outcomes.is_empty();
        let name = |several: bool| if several { "several files" } else { "one file" };
        for several in [false, true] {
            let sort = format!("a refused scale and {} for {form:?}", name(several));
            seen.count(&sort, refused && several == (given.len() > 1));
        }
        let unread = given.iter().any(|file| {
            let outcome = file.outcome(USUAL_SCALE);
            matches!(outcome, Outcome::Unread)
        });
        let sort = format!("a refused scale and a file that cannot be read for {form:?}");
        seen.count(&sort, refused && unread);
    }
}

fn count_run(seen: &mut Seen, outcomes: &[Outcome], form: Form) {
    let several = outcomes.len() > 1;
    let (mut reported, mut refused, mut unread) = (0, 0, 0);
    for outcome in outcomes {
        match outcome {
            Outcome::Reported(_) => reported += 1,
            Outcome::Refused(_) => refused += 1,
            Outcome::Unread => unread += 1,
        }
    }
    for one in FORMS {
        let mut count = |sort: &str, is_one| {
            seen.count(&format!("{sort} for {one:?}"), form == one && is_one);
        };
        count("one file reported", !several && reported == 1);
        count("one file refused", !several && refused == 1);
        count("totals over all", several && reported == outcomes.len());
        count(
            "one of several refused",
            several && refused == 1 && unread == 0,
        );
        count("several refused", several && refused > 1);
        count(
            "one of several unread",
            several && unread == 1 && refused == 0,
        );
        count("refused and unread", refused > 0 && unread > 0);
        let others = several && refused > 0 && reported > 0;
        count("reported besides a refused one", others);
    }
}

// ---------------------------------------------------------------------------
// The marking scale
// ---------------------------------------------------------------------------

/// A match with every mark by either scale, and a position without a decision.
fn every_mark() -> Vec<u8> {
    let max = [19, 20, 40, 50, 80, 100, 160].map(|loss| losing(b'M', loss));
    let min = [39, 79, 159].map(|loss| losing(b'N', loss));
    file(&[&max[..], &min, &[position(5, LONE_LEAF)]].concat())
}

const MARKED_BY_1: &str = "\
position  side  play         loss  mark
       1  M        2        0.019  no mark
       2  M        2        0.020  no mark
       3  M        2        0.040  doubtful
       4  M        2        0.050  doubtful
       5  M        2        0.080  error
       6  M        2        0.100  error
       7  M        2        0.160  blunder
       8  N        2        0.039  no mark
       9  N        2        0.079  doubtful
      10  N        2        0.159  error
      11  L        5  no decision

M       7 decisions, 0.469 points lost, 0.0670 each
marks   2 no mark, 2 doubtful, 2 errors, 1 blunder
N       3 decisions, 0.277 points lost, 0.0923 each
marks   1 no mark, 1 doubtful, 1 error, 0 blunders
scale   1
";

const MARKED_BY_2: &str = "\
position  side  play         loss  mark
       1  M        2        0.019  no mark
       2  M        2        0.020  doubtful
       3  M        2        0.040  doubtful
       4  M        2        0.050  error
       5  M        2        0.080  error
       6  M        2        0.100  blunder
       7  M        2        0.160  blunder
       8  N        2        0.039  doubtful
       9  N        2        0.079  error
      10  N        2        0.159  blunder
      11  L        5  no decision

M       7 decisions, 0.469 points lost, 0.0670 each
marks   1 no mark, 2 doubtful, 2 errors, 2 blunders
N       3 decisions, 0.277 points lost, 0.0923 each
marks   0 no mark, 1 doubtful, 1 error, 1 blunder
scale   2
";

const FIELDS_BY_1: &str = "\
file\tstandard input
scale\t1
position\t1\tM\t2\t19\t0.019\tno mark
position\t2\tM\t2\t20\t0.020\tno mark
position\t3\tM\t2\t40\t0.040\tdoubtful
position\t4\tM\t2\t50\t0.050\tdoubtful
position\t5\tM\t2\t80\t0.080\terror
position\t6\tM\t2\t100\t0.100\terror
position\t7\tM\t2\t160\t0.160\tblunder
position\t8\tN\t2\t39\t0.039\tno mark
position\t9\tN\t2\t79\t0.079\tdoubtful
position\t10\tN\t2\t159\t0.159\terror
position\t11\tL\t5\t\t\t
positions\t11
total\tM\t7\t469\t0.469\t0.0670\t2\t2\t2\t1
total\tN\t3\t277\t0.277\t0.0923\t1\t1\t1\t0
";

const FIELDS_BY_2: &str = "\
file\tstandard input
scale\t2
position\t1\tM\t2\t19\t0.019\tno mark
position\t2\tM\t2\t20\t0.020\tdoubtful
position\t3\tM\t2\t40\t0.040\tdoubtful
position\t4\tM\t2\t50\t0.050\terror
position\t5\tM\t2\t80\t0.080\terror
position\t6\tM\t2\t100\t0.100\tblunder
position\t7\tM\t2\t160\t0.160\tblunder
position\t8\tN\t2\t39\t0.039\tdoubtful
position\t9\tN\t2\t79\t0.079\terror
position\t10\tN\t2\t159\t0.159\tblunder
position\t11\tL\t5\t\t\t
positions\t11
total\tM\t7\t469\t0.469\t0.0670\t1\t2\t2\t2
total\tN\t3\t277\t0.277\t0.0923\t0\t1\t1\t1
";

/// The options of a scale, and the scale that they name; of several the last counts.
const NAMED: [(&[&str], i64); 11] = [
    (&[], 2),
    (&["--scale", "1"], 1),
    (&["--scale=1"], 1),
    (&["--scale", "2"], 2),
    (&["--scale=2"], 2),
    (&["--scale", "1", "--scale", "2"], 2),
    (&["--scale", "2", "--scale", "1"], 1),
    (&["--scale=2", "--scale", "1"], 1),
    (&["--scale", "1", "--scale=1"], 1),
    (&["--scale", "3", "--scale", "1"], 1),
    (&["--scale=-1", "--scale=2"], 2),
];

/// Every way to name a scale: by the words that are printed, in both forms, with the
/// options before the file, after it and on both sides of it.
#[test]
fn by_both_scales() {
    let bytes = every_mark();
    for (named, scale) in NAMED {
        for form in FORMS {
            let printed = match (form, scale) {
                (Form::People, 1) => MARKED_BY_1,
                (Form::People, _) => MARKED_BY_2,
                (Form::Tsv, 1) => FIELDS_BY_1,
                (Form::Tsv, _) => FIELDS_BY_2,
            };
            let tsv: &[&str] = match form {
                Form::People => &[],
                Form::Tsv => &["--tsv"],
            };
            let lines = [
                [&["report"], named, tsv].concat(),
                [&["report", "-"], tsv, named].concat(),
                [&["report"], named, &["-"], tsv].concat(),
                [&["report"], tsv, named, &["--", "-"]].concat(),
            ];
            let manner = Manner {
                scale: Some(scale),
                ..form.into()
            };
            for words in lines {
                let ran = run(&words, &bytes);
                ran.answers(printed);
                hold_reported(&ran, &[Given::dash(&bytes)], manner, "every mark");
            }
        }
    }
}

const ALL_BY_1: &str = "
scale   1

all     4 files, 24 positions
M       15 decisions, 1.058 points lost, 0.0705 each
marks   4 no mark, 4 doubtful, 5 errors, 2 blunders
N       6 decisions, 0.554 points lost, 0.0923 each
marks   2 no mark, 2 doubtful, 2 errors, 0 blunders
scale   1
";

const ALL_BY_2: &str = "
scale   2

all     4 files, 24 positions
M       15 decisions, 1.058 points lost, 0.0705 each
marks   2 no mark, 4 doubtful, 4 errors, 5 blunders
N       6 decisions, 0.554 points lost, 0.0923 each
marks   0 no mark, 2 doubtful, 2 errors, 2 blunders
scale   2
";

const ALL_FIELDS_BY_1: &str = "\nall\t4\t24\
    \t15\t1058\t1.058\t0.0705\t6\t554\t0.554\t0.0923\
    \t4\t4\t5\t2\t2\t2\t2\t0\n";

const ALL_FIELDS_BY_2: &str = "\nall\t4\t24\
    \t15\t1058\t1.058\t0.0705\t6\t554\t0.554\t0.0923\
    \t2\t4\t4\t5\t0\t2\t2\t2\n";

/// The counts of several files are added up.
#[test]
fn marks_over_all() {
    let (one, two) = (every_mark(), file(&[losing(b'M', 120), forced('N', 1)]));
    let known = [
        (Form::People, 1, ALL_BY_1),
        (Form::People, 2, ALL_BY_2),
        (Form::Tsv, 1, ALL_FIELDS_BY_1),
        (Form::Tsv, 2, ALL_FIELDS_BY_2),
    ];
    let given = [
        in_file("marks-1", &one),
        Given::dash(b""),
        in_file("marks-2", &two),
        in_file("marks-3", &one),
    ];
    for (form, scale, all) in known {
        for turn in 0..8 {
            let scale = Some(scale);
            let manner = Manner { form, scale, turn };
            let (words, input) = report_words(&given, manner);
            let ran = run(&words, input);
            hold_reported(&ran, &given, manner, "marks over all");
            assert!(ran.out.ends_with(all), "{all}: {}", ran.out);
        }
    }
}

/// Numbers that no scale has, as they are written, also such as have no room in 64
/// bits or would be 1 or 2 in fewer.
const NO_SUCH_SCALES: [&str; 16] = [
    "0",
    "3",
    "-1",
    "-2",
    "257",
    "258",
    "65537",
    "4294967297",
    "4294967298",
    "-4294967295",
    "9223372036854775807",
    "-9223372036854775808",
    "9223372036854775808",
    "-9223372036854775809",
    "18446744073709551617",
    "100000000000000000000000000000000000000000000000000000000002",
];

/// A refused scale is told of once, before any file is looked at: whatever files are
/// named, also where one is refused or cannot be read.
#[test]
fn refused_scales() {
    let good = in_file("scales-good", &every_mark());
    let bad = in_file("scales-bad", b"x");
    let missing = Given::missing("no-such-match.txt");
    let dash = Given::dash(&every_mark());
    let sets: [&[&Given]; 9] = [
        &[],
        &[&good],
        &[&dash],
        &[&bad],
        &[&missing],
        &[&good, &good],
        &[&good, &missing, &dash, &bad],
        &[&missing, &missing],
        &[&bad, &bad, &bad],
    ];
    let mut tally = Tally::new("desk on refused scales");
    for written in NO_SUCH_SCALES {
        let joined = format!("--scale={written}");
        let options: [&[&str]; 3] = [
            &["--scale", written],
            &[&joined],
            &["--scale", "1", "--scale", written],
        ];
        for (set, options) in sets.iter().flat_map(|set| options.map(|one| (set, one))) {
            let given: Vec<Given> = set.iter().map(|&file| file.clone()).collect();
            for form in FORMS {
                let manner = Manner {
                    turn: tally.cases,
                    ..form.into()
                };
                let (mut words, input) = report_words(&given, manner);
                let at = if tally.cases.is_multiple_of(3) {
                    words.len()
                } else {
                    1
                };
                words.splice(at..at, options.iter().map(OsString::from));
                hold_refused_scale(&run(&words, input), form, written);
                tally.add(&[20]);
            }
        }
    }
    tally.report();
}

/// Fails the test unless this scale was refused, and nothing else was printed.
fn hold_refused_scale(ran: &Ran, form: Form, written: &str) {
    let refusal = Refusal {
        number: 20,
        line: 0,
    };
    let stop = Stop {
        refusal,
        position: 0,
    };
    Refused::of_scale(stop).hold(ran, form, "", written);
    let (printed, name) = match form {
        Form::People => (&ran.err, "reason  "),
        Form::Tsv => (&ran.out, "reason\t"),
    };
    let mut lines = printed.lines();
    let reason = lines.find_map(|line| line.strip_prefix(name));
    let given = format!(": {written} was given");
    assert!(reason.unwrap_or_default().ends_with(&given), "{printed}");
}

/// It is told of while standard input is still open and nothing has come from it.
#[test]
fn refused_before_input() {
    for words in [
        &["report", "--scale", "3"][..],
        &["report", "--scale=0", "-"],
    ] {
        let mut child = start(command(words));
        let input = child.stdin.take();
        let began = Instant::now();
        while child.try_wait().expect("a program").is_none() {
            let waits = began.elapsed() > Duration::from_secs(20);
            if waits {
                child.kill().expect("a program");
            }
            assert!(!waits, "{words:?}: it waits for its input");
            std::thread::sleep(Duration::from_millis(5));
        }
        drop(input);
        let output = child.wait_with_output().expect("the program ends");
        let ran = Ran::new(words.join(" "), output);
        assert_eq!((ran.status, &*ran.out), (Some(1), ""));
        assert!(ran.err.starts_with("desk: refused 20\n"), "{}", ran.err);
    }
}

// ---------------------------------------------------------------------------
// Refusals
// ---------------------------------------------------------------------------

/// A match that is refused: what is wrong with it, and what must be printed.
struct Bad {
    why: String,
    file: Vec<u8>,
    refused: Refused,
}

impl Bad {
    /// A refusal of the second position, after one of nine lines. The second engine
    /// must have the same number, line, line of the file and columns.
    fn second(refusal: (u8, usize), line: usize, marks: &str, why: &str, rest: &[u8]) -> Bad {
        let first = file(&[position(1, TABLE_A)]);
        let bytes = [&first, rest].concat();
        Bad::new(refusal, (2, line), marks, why, bytes)
    }

    fn new(
        (number, line): (u8, usize),
        at: (usize, usize),
        marks: &str,
        why: &str,
        file: Vec<u8>,
    ) -> Bad {
        let stop = Stop {
            refusal: Refusal { number, line },
            position: at.0,
        };
        let report = second::report(&file, USUAL_SCALE, usize::MAX);
        assert_eq!(report, Err(stop), "{why}");
        let refused = Refused::of_match(&file, stop);
        assert_eq!(refused.at, Some(at), "{why}");
        let stretches = marks.split(',').filter(|stretch| !stretch.is_empty());
        let stretches: Vec<Stretch> = stretches.map(|s| stretch_of(s, '-')).collect();
        assert_eq!(refused.marks, stretches, "{why}");
        let why = why.to_string();
        Bad { why, file, refused }
    }

    /// Fails unless this line is shown, with this number in its table.
    fn showing(self, number: Option<usize>, line: &str) -> Bad {
        let shown = Some((number, line.to_string()));
        assert_eq!(self.refused.shown, shown, "{}", self.why);
        self
    }

    fn showing_nothing(self) -> Bad {
        assert_eq!(self.refused.shown, None, "{}", self.why);
        self
    }

    /// Asks about it in both forms, alone.
    fn hold(&self, way: Given) {
        for (turn, form) in FORMS.into_iter().enumerate() {
            let turn = turn as u64;
            let manner = Manner {
                turn,
                ..form.into()
            };
            hold_report(from_ref(&way), manner, &self.why);
        }
    }
}

/// The columns marked in a play-number line before table B, how it is written, and
/// what is wrong. Dots stand for blanks, and `$` for a newline.
const PLAY_LINES: &str = "\
1-4 2$ one column
1-4 ..2$ three columns
1-4 $ an empty line
1-4 ...$ three blanks
1-4 ....$ no number
1-4 .0.2$ a blank after a zero
1-4 00.2$ a blank after zeros
1-4 02..$ left-justified with a zero
1-4 ..+2$ a plus
1-4 ..-0$ minus zero
1-4 -000$ minus zeros
1-4 00-2$ zeros before a minus
1-4 ...-$ a minus alone
1-4 .-.2$ a blank after the minus
1-4 .--2$ two minus
1-4 2...$ left-justified
1-4 ..2.$ a blank after it
1-4 .1.2$ a blank inside
1-4 ..2x$ a letter
1-4,5 ....2$ a blank too many
1-4,5 ..2..$ five columns, not right-justified
5 00002$ five columns with zeros
5 ...2.$ a blank after column 4
5 ...22$ a digit too many
5 ...2.good.words$ words
5 ...2 no newline
";

/// The same of what stands at the file's end; - where no line is shown.
const ENDS: &str = "\
- . a blank
- 2 one column
- ... three blanks
- ...2 a number without its newline
- abcd four columns that are no number
- ...2$ a play number alone
1-4 $ an empty line
1-4 2$ a line of one column
1-4 ...$ a line of three blanks
1-4 $$ two empty lines
1-4 ..-0$ an ill-written number
5 ...2x five columns
1-4,5 xxxxx five columns that are no number
";

/// Lines of the lists above: columns, bytes, what is wrong.
fn listed(list: &str) -> Vec<(&str, Vec<u8>, &str)> {
    let lines = list.lines().map(|case| {
        let parts: Vec<&str> = case.splitn(3, ' ').collect();
        let [marks, written, why] = parts[..] else {
            panic!("{case}");
        };
        (marks, dotted(&written.replace('$', "\n")), why)
    });
    lines.collect()
}

/// A text's first line.
fn first_line(text: &[u8]) -> String {
    let text = String::from_utf8(text.to_vec()).expect("ASCII");
    text.split('\n').next().unwrap_or_default().to_string()
}

/// 16: ill-written play-number lines.
fn play_lines() -> Vec<Bad> {
    let mut list = Vec::new();
    let follows = [dotted(TABLE_B), file(&[position(1, LONE_LEAF)])].concat();
    let mut bad = |line: &[u8], shown: &str, marks, why| {
        let rest = [line, &follows].concat();
        list.push(Bad::second((16, 0), 10, marks, why, &rest).showing(None, shown));
    };
    for (marks, line, why) in listed(PLAY_LINES) {
        let shown = first_line(&[&line[..], &follows].concat());
        bad(&line, &shown, marks, why);
    }
    bad(b"", "   5   4       0       8", "5", "no play number");
    bad(b"  \t2\n", "  ?2", "1-4", "a tab");
    bad(b"  \xc3\xa9\n", "  ??", "1-4", "not ASCII");
    bad(b"  2\0\n", "  2?", "1-4", "a byte 0");
    bad(
        b"\xef\xbb\xbf   2\n",
        "???   2",
        "1-4,5",
        "a byte order mark",
    );
    bad(b"   2\r\n", "   2?", "5", "a carriage return");
    for width in [39, 40, 41, 5_000] {
        let line = [&b"x".repeat(width)[..], b"\n"].concat();
        bad(&line, &"x".repeat(width.min(40)), "1-4,5", "a long line");
    }
    // As the first position.
    let table = dotted(TABLE_B);
    let header = first_line(&table);
    let alone = Bad::new((16, 0), (1, 1), "5", "a table alone", table);
    list.push(alone.showing(None, &header));
    list
}

/// 16: what may stand at the end, after a position and alone.
fn ends() -> Vec<Bad> {
    let mut list = Vec::new();
    for (marks, rest, why) in listed(ENDS) {
        let none = marks == "-";
        let marks = if none { "" } else { marks };
        for bad in [
            Bad::second((16, 0), 10, marks, why, &rest),
            Bad::new((16, 0), (1, 1), marks, why, rest.clone()),
        ] {
            list.push(match none {
                true => bad.showing_nothing(),
                false => bad.showing(None, &first_line(&rest)),
            });
        }
    }
    list
}

/// 16: the file cut at each byte of its second position; where the header is
/// whole, it is shown.
fn cuts() -> Vec<Bad> {
    let whole = file(&[position(2, TABLE_B)]);
    let mut list = Vec::new();
    for length in 1..whole.len() {
        let (why, rest) = (format!("cut after {length} bytes"), &whole[..length]);
        list.push(if length < PLAY_LINE + LINE {
            Bad::second((16, 0), 10, "", &why, rest).showing_nothing()
        } else {
            let bad = Bad::second((16, 0), 11, "1-4", &why, rest);
            bad.showing(Some(0), "   5   4       0       8")
        });
    }
    // The header counts a line more than the file has.
    let text = [&b"   2\n"[..], &table_b_with(0, "...6...4.......0.......8")].concat();
    let bad = Bad::second((16, 0), 11, "1-4", "a node line missing", &text);
    list.push(bad.showing(Some(0), "   6   4       0       8"));
    list
}

/// 14, and 15 for a byte and for a position.
fn no_such_play_and_too_many() -> Vec<Bad> {
    let mut list = Vec::new();
    for table in [TABLE_B, TABLE_B_TURNED] {
        for play in [0, 3, -1, -2, 258, 9_999, -999] {
            let rest = file(&[position(play, table), position(1, LONE_LEAF)]);
            let bad = Bad::second((14, 0), 10, "", &format!("play {play}"), &rest);
            list.push(bad.showing_nothing());
        }
    }
    let full = file(&vec![position(1, LONE_LEAF); MOST_POSITIONS]);
    for rest in [&b"\n"[..], b" ", b"   1\n", &full] {
        let (at, why) = ((501, 1_501), "a 501st position");
        let bad = Bad::new((15, 0), at, "", why, [&full, rest].concat());
        list.push(bad.showing_nothing());
    }
    // After the longest match there is.
    let greatest = Position::new(1, largest::plays(b'N', FARTHEST_END));
    let full = file(&vec![greatest; MOST_POSITIONS]);
    assert_eq!(full.len(), MOST_POSITIONS * (PLAY_LINE + LINE * 1_025));
    let (at, why) = ((501, 500 * 1_026 + 1), "a byte after the longest match");
    list.push(Bad::new((15, 0), at, "", why, [&full, &b"x"[..]].concat()).showing_nothing());
    list
}

/// 2 to 10 and 18: refused tables in the second position. A table whose count is not
/// that of its lines is none of them, as the file is divided otherwise.
fn refused_tables() -> Vec<Bad> {
    let mut list = Vec::new();
    let mut bad = |text: &[u8], number, line| {
        let refusal = Refusal { number, line };
        let marks = desk::marks(text, refusal).into_iter();
        let marks: Vec<String> = marks.map(|(a, b)| format!("{a}-{b}")).collect();
        let (_, shown) = desk::shown(text, refusal).expect("a line");
        let why = format!("refused {number} at line {line}");
        let rest = [b"   1\n", text, &file(&[position(1, LONE_LEAF)])].concat();
        let bad = Bad::second((number, line), 11 + line, &marks.join(","), &why, &rest);
        list.push(bad.showing(Some(line), &shown));
    };
    for (text, number, line) in refused_examples() {
        if number > 1 && (number, line) != (4, 0) {
            bad(&text, number, line);
        }
    }
    for count in [
        "...0", "0000", "..-1", "-001", "..-5", "-999", "1025", "9999",
    ] {
        let header = format!("{count}...4.......0.......8");
        bad(&table_b_with(0, &header), 4, 0);
    }
    for (header, number) in [
        ("...500.4.......0.......8", 2),
        ("...50.36.......0.......8", 2),
        ("...536.........0.......8", 2),
        ("...5.100.......0.......8", 3),
        ("...50000.......0.......8", 3),
        ("...565.4.......0.......8", 3),
        ("...5.4.4.......0.......8", 3),
        ("...515.0.......0.......8", 3),
    ] {
        bad(&table_b_with(0, header), number, 0);
    }
    bad(&table_b_with(0, "...51536.......0.......8"), 9, 3);
    bad(&too_many_grains(), 18, 0);
    // 18 comes before 14.
    let rest = file(&[Position::new(3, too_many_grains()), position(1, LONE_LEAF)]);
    let bad = Bad::second((18, 0), 11, "5-6,7-8", "18 before 14", &rest);
    list.push(bad.showing(Some(0), "   86364       0       0"));
    list
}

/// Every bad match, in both forms and by each way in turn.
#[test]
fn refused_matches() {
    let mut tally = Tally::new("desk on refused matches");
    let lists = [
        play_lines(),
        ends(),
        cuts(),
        no_such_play_and_too_many(),
        refused_tables(),
    ];
    for bad in lists.iter().flatten() {
        let way = match tally.cases % 3 {
            0 => in_file("refused", &bad.file),
            1 => Given::input(&bad.file),
            _ => Given::dash(&bad.file),
        };
        bad.hold(way);
        tally.add(&[u64::from(bad.refused.refusal.number)]);
    }
    tally.report();
    for number in [2, 3, 4, 5, 6, 7, 8, 9, 10, 14, 15, 16, 18] {
        let count = tally.counts[number];
        assert!(count >= 2, "refusal {number} came only {count} times");
    }
}

/// Matches that are damaged at random.
#[test]
fn random_refused_matches() {
    let mut tally = Tally::new("desk on random refused matches");
    let mut seen = Seen::default();
    for case in 0..1_500 {
        let random = &mut Random::of_case(tally.seed, case);
        let bytes = damaged(random);
        let manner = Manner {
            form: random.pick(&FORMS),
            scale: random.pick(&[None, Some(1), Some(2)]),
            turn: case,
        };
        let outcomes = hold_report(&[Given::input(&bytes)], manner, &tally.place());
        let [Outcome::Refused(refused)] = &outcomes[..] else {
            panic!("{}: accepted", tally.place());
        };
        let (position, line) = refused.at.expect("of a match");
        let header = matches!(refused.shown, Some((Some(0), _)));
        let node = matches!(refused.shown, Some((Some(1..), _)));
        let play = matches!(refused.shown, Some((None, _)));
        for (at, is_here) in [
            ("the first position", position == 1),
            ("a later one", position > 1),
        ] {
            seen.count(&format!("a header in {at}"), is_here && header);
            seen.count(&format!("a node line in {at}"), is_here && node);
            seen.count(&format!("a play-number line in {at}"), is_here && play);
            let nothing = refused.shown.is_none();
            seen.count(&format!("nothing shown in {at}"), is_here && nothing);
        }
        seen.count("a line after the thousandth", line > 1_000);
        seen.count("two stretches marked", refused.marks.len() > 1);
        tally.add(&[u64::from(refused.refusal.number)]);
    }
    tally.report();
    seen.demand(10);
    for number in [2, 3, 4, 5, 6, 7, 8, 9, 10, 14, 15, 16, 18] {
        let count = tally.counts[number];
        assert!(count >= 10, "refusal {number} came only {count} times");
    }
}

/// The file, or in one of three cases the same with zeros before its numbers (document 02,
/// Item 9).
fn some_padded(bytes: Vec<u8>, random: &mut Random) -> Vec<u8> {
    match random.one_in(3) {
        true => padded_match(&bytes, random),
        false => bytes,
    }
}

/// A damaged match that is refused.
fn damaged(random: &mut Random) -> Vec<u8> {
    loop {
        let bytes = some_padded(matches::case(random), random);
        if second::report(&bytes, USUAL_SCALE, usize::MAX).is_err() {
            return bytes;
        }
    }
}

/// The fields of the row of this name in a refusal.
fn row_of(ran: &Ran, name: &str) -> String {
    let mut lines = ran.out.lines();
    let row = lines.find_map(|line| line.strip_prefix(name)?.strip_prefix('\t'));
    row.unwrap_or_else(|| panic!("{}: no {name} in {}", ran.asked, ran.out))
        .to_string()
}

/// A refused table has the same reason in a match as alone, and so has a play that is
/// not there. (Where the count is refused, alone it is also compared with the lines.)
#[test]
fn reasons_as_of_the_table_alone() {
    let first = file(&[position(1, TABLE_A)]);
    let in_match = |play: &str, text: &[u8]| {
        let play = format!("{play:>4}\n").into_bytes();
        let bytes = [&first, &play, text].concat();
        run(&["report", "--tsv"], &bytes)
    };
    let mut tally = Tally::new("desk on reasons in a match");
    let more = [
        (table_b_with(0, "...50.36.......0.......8"), 2, 0),
        (table_b_with(0, "...5.100.......0.......8"), 3, 0),
        (table_b_with(0, "...5.4.4.......0.......8"), 3, 0),
        (table_b_with(0, "...51536.......0.......8"), 9, 3),
        (too_many_grains(), 18, 0),
    ];
    for (text, number, line) in refused_examples().into_iter().chain(more) {
        let ran = in_match("1", &text);
        if number == 1 || (number, line) == (4, 0) || row_of(&ran, "refused") == "16" {
            continue;
        }
        assert_eq!(row_of(&ran, "refused"), number.to_string());
        let alone = run(&["worth", "--tsv"], &text);
        assert_eq!(row_of(&ran, "reason"), row_of(&alone, "reason"));
        tally.add(&[u64::from(number)]);
    }
    // A padded number is told as the number that it is.
    for (play, written) in [
        ("0", "0"),
        ("0", "0000"),
        ("3", "3"),
        ("3", "003"),
        ("-1", "-1"),
        ("-1", "-001"),
        ("9999", "9999"),
    ] {
        let text = dotted(TABLE_B);
        let alone = run(&["judge", "--tsv", "--", play], &text);
        let ran = in_match(written, &text);
        assert_eq!(row_of(&ran, "refused"), "14");
        assert_eq!(row_of(&ran, "reason"), row_of(&alone, "reason"));
        tally.add(&[14]);
    }
    tally.report();
    for number in [2, 3, 4, 5, 6, 7, 8, 9, 10, 14, 18] {
        assert!(tally.counts[number] > 0, "refusal {number} never came");
    }
}

/// The mend for blanks that an editor cut off the ends of lines gives the match back.
#[test]
fn mend_of_cut_off_blanks() {
    let bytes = file(&[
        position(1, TABLE_A),
        position(2, TABLE_B),
        position(-5, LONE_LEAF),
    ]);
    let text = String::from_utf8(bytes.clone()).expect("ASCII");
    let cut: String = text
        .lines()
        .map(|line| format!("{}\n", line.trim_end()))
        .collect();
    let name = written("desk-report-cut.txt", cut.as_bytes());
    let mend = row_of(&run(&["report", "--tsv", &name], &[]), "mend");
    let program = mend
        .split_once("awk '")
        .and_then(|(_, rest)| rest.split_once('\''));
    let (program, _) = program.unwrap_or_else(|| panic!("no awk program: {mend}"));
    let filled = std::process::Command::new("awk")
        .args([program, &name])
        .output();
    assert_eq!(filled.expect("awk").stdout, bytes);
}

/// Files by their letters, and why there are no totals over all: a good match, an
/// empty one, one refused (`b`), one refused from standard input (`i`), a missing one,
/// a folder.
const LACKING: &str = "\
gb: 1 was refused
bg: 1 was refused
be: 1 was refused
giemg: 1 was refused, 1 could not be read
gieg: 1 was refused
ib: 2 were refused
bib: 3 were refused
mg: 1 could not be read
gm: 1 could not be read
mf: 2 could not be read
mb: 1 was refused, 1 could not be read
bm: 1 was refused, 1 could not be read
mgifbme: 2 were refused, 3 could not be read
bmbbg: 3 were refused, 1 could not be read
";

/// Files that cannot be reported among others that can.
#[test]
fn several_with_a_refused_one() {
    let (name, bytes) = example("match");
    let mut light = file(&[position(1, TABLE_A), position(1, TABLE_B)]);
    light[WEIGHT] = b'2';
    let files = [
        ('g', Given::file(name, &bytes)),
        ('e', in_file("several-empty", b"")),
        ('b', in_file("several-bad", b"x")),
        ('i', Given::dash(&light)),
        ('m', Given::missing("no-such-match.txt")),
        ('f', Given::missing("examples")),
    ];
    let file_of = |letter| {
        let file = files.iter().find(|(of, _)| *of == letter);
        file.expect("a letter of a file").1.clone()
    };
    for (turn, line) in LACKING.lines().enumerate() {
        let (letters, why) = line.split_once(": ").expect("letters and why");
        let given: Vec<Given> = letters.chars().map(file_of).collect();
        for form in FORMS {
            let manner = Manner {
                turn: turn as u64,
                ..form.into()
            };
            let (words, input) = report_words(&given, manner);
            let ran = run(&words, input);
            hold_reported(&ran, &given, manner, line);
            let count = letters.len();
            let last = format!("desk: no totals over all {count} files: {why}\n");
            assert!(ran.err.ends_with(&last), "{last}: {}", ran.err);
            let unread = why.contains("could not be read");
            assert_eq!(ran.status, Some(if unread { 2 } else { 1 }), "{line}");
            let totals = ran.out.lines().filter(|line| line.starts_with("all"));
            assert_eq!(totals.count(), 0, "{line}: {}", ran.out);
        }
    }
}

/// Each file is told of at its turn: where both outputs are one, in the sequence of
/// the files.
#[test]
fn at_its_turn() {
    let first = in_file("turn-1", &file(&[losing(b'M', 5)]));
    let bad = in_file("turn-2", b"x");
    let missing = Given::missing("no-such-match.txt");
    let last = in_file("turn-4", &file(&[losing(b'N', 6)]));
    let given = [first, bad, missing, last];
    for form in FORMS {
        let (words, _) = report_words(&given, form);
        let both = folder().join(format!("desk-report-both-{form:?}"));
        let output = File::create(&both).expect("a file");
        let mut command = command(&words);
        command.stdout(output.try_clone().expect("the same file"));
        command.stderr(output);
        let ran = finish(command, &[]);
        assert_eq!(ran.status, Some(2));
        let printed = fs::read_to_string(&both).expect("what was printed");
        let [one, two, three, four] = given.each_ref().map(Given::name);
        let starts = match form {
            Form::People => [
                format!("file    {one}\n"),
                format!("desk: {two}: position 1, line 1 of the file: refused 16\n"),
                three,
                format!("file    {four}\n"),
            ],
            Form::Tsv => [
                format!("file\t{one}\nscale\t2\nposition\t"),
                format!("file\t{two}\nrefused\t16\n"),
                three,
                format!("file\t{four}\nscale\t2\nposition\t"),
            ],
        };
        let places = starts.map(|start| {
            printed
                .find(&start)
                .unwrap_or_else(|| panic!("{start}: {printed}"))
        });
        assert!(places.is_sorted(), "{places:?}: {printed}");
        let none = "desk: no totals over all 4 files: 1 was refused, 1 could not be read\n";
        assert!(printed.ends_with(none), "{printed}");
    }
}

// ---------------------------------------------------------------------------
// The command line
// ---------------------------------------------------------------------------

/// Names as they are printed: a control character as an escape.
#[test]
fn names() {
    let folder = folder().join("desk-report-names");
    fs::create_dir_all(&folder).expect("a folder in the target folder");
    let known: [(&[u8], &str); 10] = [
        (b"a match", "a match"),
        (b"./-a.txt", "./-a.txt"),
        (b"a\tb", "a\\tb"),
        (b"a\nb", "a\\nb"),
        (b"a\rb", "a\\rb"),
        (b"\x1b[1mbold", "\\u{1b}[1mbold"),
        (b"a\x7fb\x01", "a\\u{7f}b\\u{1}"),
        (b"c\xc2\x9bd", "c\\u{9b}d"),
        (b"back\\slash \xc3\xa4", "back\\slash \u{e4}"),
        (b"not \xff UTF-8", "not \u{fffd} UTF-8"),
    ];
    let bytes = file(&[losing(b'M', 1)]);
    for (name, printed) in known {
        let name = OsString::from_vec(name.to_vec());
        let given = |bytes: &[u8]| {
            fs::write(folder.join(&name), bytes).expect("a file");
            let given = Given::file(&name, bytes);
            assert_eq!(given.name(), printed);
            given
        };
        for bytes in [&bytes[..], b"x"] {
            let given = given(bytes);
            for files in [vec![given.clone()], vec![given.clone(), given]] {
                for form in FORMS {
                    let mut command = command(&report_words(&files, form).0);
                    command.current_dir(&folder);
                    hold_reported(&finish(command, &[]), &files, form, printed);
                }
            }
        }
    }
    let missing = [Given::missing("no\t\u{1b}such"), Given::missing("file\n")];
    for form in FORMS {
        hold_report(&missing, form, "names of files that are not there");
    }
}

/// `--` ends the options, and a word that is no option is a file.
#[test]
fn words() {
    let (file, bytes) = example("match");
    let given = [Given::file(&file, &bytes), Given::file(&file, &bytes)];
    let lines: [(&[&str], Form); 6] = [
        (&["report", "--", &file, &file], Form::People),
        (&["report", &file, "--", &file], Form::People),
        (&["report", "--tsv", "--", &file, &file], Form::Tsv),
        (&["report", &file, "--tsv", &file], Form::Tsv),
        (&["report", &file, &file, "--tsv", "--"], Form::Tsv),
        (&["report", &file, "--tsv", "--", &file], Form::Tsv),
    ];
    for (words, form) in lines {
        hold_reported(&run(words, &[]), &given, form, "words");
    }
    let numbered = [Given::missing("2"), Given::missing("--tsv")];
    let ran = run(&["report", "--", "2", "--tsv"], &[]);
    hold_reported(&ran, &numbered, Form::People, "words that name no file");
}

/// An output that is closed early ends the program quietly, with the status that it
/// has come to. Much more is written than a pipe holds, so that this is noticed.
#[test]
fn closed_output() {
    let many = vec![losing(b'M', 1); MOST_POSITIONS];
    let many = in_file("closed-many", &file(&many));
    let bad = in_file("closed-bad", b"x");
    for before in [&[][..], from_ref(&bad)] {
        let given = [before, &vec![many.clone(); 20]].concat();
        let mut child = start(command(&report_words(&given, Form::People).0));
        let mut stdout = BufReader::new(child.stdout.take().expect("a pipe"));
        let mut line = String::new();
        stdout.read_line(&mut line).expect("a line");
        assert_eq!(line, format!("file    {}\n", many.name()));
        drop(stdout);
        let output = child.wait_with_output().expect("the program ends");
        let ran = Ran::new("desk report, closed".to_string(), output);
        hold_reported(&ran, before, Form::People, "closed early");
    }
}

/// Inputs of megabytes are refused, and soon.
#[test]
fn inputs_of_megabytes() {
    const LENGTH: usize = 10_000_000;
    for (byte, marks) in [(b' ', "1-4,5"), (0xff, "1-4,5"), (b'\n', "1-4")] {
        let why = format!("bytes {byte:#x}");
        let bad = Bad::new((16, 0), (1, 1), marks, &why, vec![byte; LENGTH]);
        let began = Instant::now();
        bad.hold(Given::input(&bad.file));
        let took = began.elapsed();
        assert!(took < Duration::from_secs(4), "{why}: {took:?}");
    }
}

// ---------------------------------------------------------------------------
// The description
// ---------------------------------------------------------------------------

/// The example in the description is what the second engine and the program answer.
#[test]
fn example_in_the_description() {
    let described = block("docs/DESK.md", "`desk report examples/marks.txt`");
    let (file, bytes) = example("marks");
    let reported = Reported::of(&file, &bytes, USUAL_SCALE).expect("accepted");
    assert_eq!(described, desk::report(&reported, false, Form::People));
    run(&["report", &file], &[]).answers(&described);
}

/// So is the refusal of a scale.
#[test]
fn refused_scale_in_the_description() {
    let described = block("docs/DESK.md", "Another number is refused once");
    for files in [&[][..], &["examples/marks.txt"], &["no-such-match.txt"; 2]] {
        let ran = run(&[&["report", "--scale", "3"], files].concat(), &[]);
        assert_eq!((ran.status, &*ran.out), (Some(1), ""));
        assert_eq!(ran.err, described);
    }
}

/// The steps in the description are those of the second engine.
#[test]
fn steps_in_the_description() {
    let text = fs::read_to_string(root().join("docs/DESK.md")).expect("a document");
    for scale in [1, 2] {
        let steps = second::steps(scale).expect("a scale");
        let [doubtful, error, blunder] = steps.map(|step| format!("0.{step:03}"));
        let row = format!(
            "| {scale} | below {doubtful} points | from {doubtful} | from {error} | \
             from {blunder} |\n"
        );
        assert!(text.contains(&row), "docs/DESK.md has no row {row}");
    }
}

/// So are the totals over all files.
#[test]
fn totals_in_the_description() {
    let described = block(
        "docs/DESK.md",
        "Where several files are named, each that is reported has a line",
    );
    let (file, bytes) = example("marks");
    let given = vec![Given::file(&file, &bytes); 2];
    let manner = Manner {
        form: Form::People,
        scale: Some(1),
        turn: 0,
    };
    let ran = run(&report_words(&given, manner).0, &[]);
    hold_reported(&ran, &given, manner, "described");
    assert!(
        ran.out.ends_with(&format!("\n\n{described}")),
        "{}",
        ran.out
    );
}

/// So are the line that says why there is none, and the first line of a refusal.
#[test]
fn refusals_in_the_description() {
    let none = block(
        "docs/DESK.md",
        "A file that is refused or cannot be read is told of",
    );
    let refusal = block(
        "docs/DESK.md",
        "Of a match the position at fault is named too",
    );
    let mut light = file(&[position(1, TABLE_A), position(1, TABLE_B)]);
    light[WEIGHT] = b'2';
    let folder = folder().join("desk-report-described");
    fs::create_dir_all(&folder).expect("a folder in the target folder");
    fs::write(folder.join("match.txt"), &light).expect("a file");
    fs::write(folder.join("empty.txt"), b"").expect("a file");
    let empty = Given::file("empty.txt", b"");
    let given = [
        empty.clone(),
        Given::file("match.txt", &light),
        Given::missing("missing.txt"),
        empty,
    ];
    let mut command = command(&report_words(&given, Form::People).0);
    command.current_dir(&folder);
    let ran = finish(command, &[]);
    hold_reported(&ran, &given, Form::People, "described");
    assert!(ran.err.starts_with(&refusal), "{}", ran.err);
    assert!(ran.err.ends_with(&none), "{}", ran.err);
}
