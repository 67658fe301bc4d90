//! Zeros before numbers (document 02, Item 9): every call, held to the second engine, to what
//! the proved engine answers of the blank-padded text, and to answers worked out by hand; and
//! every content of a field over a few bytes. Padded inputs of the margin program are in
//! `program.rs`, the desk's answers on a padded example in `desk.rs`.
//!
//! The environment variable SEED sets the seed of the random texts, CASES their number.

use std::collections::HashMap;

use compare::engine;
use compare::hold::numbers::{agree, ROOM};
use compare::hold::padded::{hold_files, Everything};
use compare::hold::reporting::{self, Lent};
use compare::hold::searching::{self, Expected};
use compare::hold::seen::Seen;
use compare::hold::tally::Tally;
use compare::hold::{code, judging, reading, turning, worth};
use compare::random::{number_from_environment, Random};
use compare::second::{self, Entry, Judgement, Kind, Mark, Refusal, Stop, Total, LINE};
use compare::texts::broken::broken;
use compare::texts::examples::*;
use compare::texts::knobs::Knobs;
use compare::texts::matches::{self, file, Position};
use compare::texts::padding::{blanked, filled, padded, padded_fields, padded_match, ways, FAULTS};
use compare::texts::totals::Plan;
use compare::texts::{self, padding};

// ---------------------------------------------------------------------------
// Random texts
// ---------------------------------------------------------------------------

/// A blank-padded table of any sort.
fn any_table(number: u64, random: &mut Random) -> Vec<u8> {
    match number % 8 {
        0 => Plan::any(random).text(random),
        1 => texts::make(Knobs::any, random),
        2 => texts::make(Knobs::plain, random),
        3 => texts::make(Knobs::chancy, random),
        4 => texts::make(Knobs::narrow, random),
        5 => texts::make(Knobs::ties, random),
        6 => texts::make(Knobs::close, random),
        _ if random.one_in(4) => texts::make(Knobs::dice, random),
        _ => texts::make(Knobs::forced, random),
    }
}

/// The main comparison, by every call. It fails where a field was padded in too few texts, or
/// a call refused too seldom for one of its reasons.
#[test]
fn random_texts_by_every_call() {
    const REFUSALS: [u8; 11] = [1, 2, 3, 4, 5, 6, 7, 8, 9, 10, 18];
    let mut all = Everything::new([
        "padded, reading",
        "padded, the worth",
        "padded, judging",
        "padded, searching",
        "padded, searching within a budget",
        "padded, indexing",
        "padded, searching with an index",
        "padded, turning",
        "padded, rolling out",
        "padded, reports",
    ]);
    let mut faults = Seen::default();
    let cases = number_from_environment("CASES", 24_000);
    for number in 0..cases {
        let mut random = Random::of_case(all.worth.seed, number);
        // Tables, refused texts, and tables with a fault of zeros.
        let (blank, refusal) = match number % 16 {
            0..=8 => (any_table(number / 16, &mut random), None),
            9..=11 => {
                let number = random.pick(&REFUSALS);
                let (text, refusal) = broken(number, &mut random);
                (text, Some(refusal))
            }
            12 => (texts::case(&mut random).text, None),
            _ => (any_table(number / 16, &mut random), None),
        };
        let mut text = padded(&blank, &mut random);
        let mut fault = None;
        if number % 16 > 12 {
            let (name, put) = random.pick(&FAULTS);
            fault = put(&mut text, &mut random).then_some(name);
        }
        if fault.is_none() && padded_fields(&text).is_empty() {
            continue;
        }
        let answer = all.hold(&text, &mut random);
        let place = || format!("case {number}\n{}", escaped(&text));
        match (number % 16, refusal) {
            (0..=8, _) => {
                assert!(answer.is_ok(), "a table made valid is refused: {}", place());
                assert_eq!(escaped(&blanked(&text)), escaped(&blank), "{}", place());
                assert_eq!(answer, second::read(&blank), "{}", place());
            }
            (_, Some(refusal)) => assert_eq!(answer, Err(refusal), "{}", place()),
            _ => {}
        }
        for (name, _) in FAULTS {
            let refused = answer.is_err() && fault == Some(name);
            faults.count(&format!("{name}, refused"), refused);
        }
    }
    all.demand();
    all.worth.demand_two_totals();
    let texts = all.reading.tally.cases;
    assert!(texts >= 20_000, "only {texts} texts");
    // About half of what the usual seed gives, or less.
    all.accepted.demand_by(|sort| match sort {
        "another text when turned twice" => 6_000,
        "` 0` in columns 5-6" => 150,
        _ => 400,
    });
    all.refused.demand(100);
    all.plays.demand(100);
    faults.demand(150);
}

/// Whole matches and damaged ones, with zeros in every position that can be told from the
/// next.
#[test]
fn random_matches() {
    let mut comparison = reporting::Comparison::new("padded matches");
    let mut seen = Seen::default();
    for number in 0..7_000 {
        let mut random = Random::of_case(comparison.tally.seed, number);
        let blank = matches::case(&mut random);
        let padded = padded_match(&blank, &mut random);
        let scale = matches::scale(&mut random);
        let report = hold_files(&mut comparison, [&padded, &blank], scale);
        let positions = second::positions(&padded);
        let several = positions.len() > 1 && padded != blank;
        seen.count("several positions reported", several && report.is_ok());
        let position = report.err().map_or(0, |stop| stop.position);
        seen.count("stopped at the first", padded != blank && position == 1);
        seen.count("stopped at a later one", padded != blank && position > 1);
    }
    comparison.tally.report();
    comparison
        .tally
        .demand_refusals(&[2, 3, 4, 11, 14, 15, 16, 20]);
    seen.demand(300);
}

// ---------------------------------------------------------------------------
// Every content of a field
// ---------------------------------------------------------------------------

/// Every content of so many columns over these bytes.
fn every_content(bytes: &[u8], width: u32) -> impl Iterator<Item = Vec<u8>> + '_ {
    let count = bytes.len();
    (0..count.pow(width)).map(move |content| {
        let column = |place: u32| bytes[content / count.pow(place) % count];
        (0..width).rev().map(column).collect()
    })
}

/// Columns 5-8 of three tables: without C, with one whose weights sum to 36, and with one
/// whose weights sum to 1. (What must come of them by the words of the request is in
/// `totals.rs`, over more bytes.)
#[test]
fn every_content_of_columns_5_to_8() {
    let mut all = Everything::new([
        "every total of zeros, reading",
        "every total of zeros, the worth",
        "every total of zeros, judging",
        "every total of zeros, searching",
        "every total of zeros, searching within a budget",
        "every total of zeros, indexing",
        "every total of zeros, searching with an index",
        "every total of zeros, turning",
        "every total of zeros, rolling out",
        "every total of zeros, reports",
    ]);
    let mut random = Random::new(all.worth.seed);
    for body in [dotted(TWO_LEAVES), chain(b"NC", 36), chain(b"CC", 1)] {
        for columns in every_content(b" 0136-", 4) {
            let mut text = body.clone();
            text[4..8].copy_from_slice(&columns);
            let _ = all.hold(&text, &mut random);
        }
    }
    for tally in all.tallies() {
        tally.report();
    }
    let counts = all.reading.tally.counts;
    assert_eq!(all.reading.tally.cases, 3 * 1_296);
    assert!(counts[0] >= 200 && counts[2] >= 1_000 && counts[3] >= 200);
}

/// What must come of a field with this content, from the words of the request alone: nothing
/// where it is ill-written, then a blank or a number.
type Content = Option<Option<i64>>;

/// The numbers that have room in so many columns, by all that may stand there.
fn all_ways(width: usize) -> HashMap<Vec<u8>, i64> {
    let most = 10_i64.pow(width as u32);
    let numbers = 1 - most / 10..most;
    let ways = numbers.flat_map(|number| ways(number, width).into_iter().map(move |w| (w, number)));
    ways.collect()
}

/// Ten nodes: six leaves under the root, then an N as node 7 with two leaves; the last may
/// stand under the root too. T is 7.
const TEN_NODES: &str = "\
..10...7.....-77......77
...0.M..................
...1.L....0............1
...2.L....0............2
...3.L....0............3
...4.L....0............4
...5.L....0............5
...6.L....0............6
...7.N....0.............
...8.L....7............7
...9.L....7............7
";

/// Seven nodes: a C whose only child has weight 7, which is T, beside leaves.
const SEVEN_NODES: &str = "\
...7...7.....-77......77
...0.M..................
...1.C....0.............
...2.L....1....7......70
...3.L....0............3
...4.L....0............4
...5.L....0............5
...6.L....0............6
";

/// A field of four or five columns, and what is refused where the number there is right, is
/// another, or is missing; the table, its line and the columns from 0 on.
struct Varied {
    name: &'static str,
    table: &'static str,
    line: usize,
    start: usize,
    width: usize,
    known: fn(Content) -> u8,
}

const VARIED: [Varied; 4] = [
    Varied {
        name: "the count",
        table: SEVEN_NODES,
        line: 0,
        start: 0,
        width: 4,
        known: |content| match content.flatten() {
            None => 2,
            Some(7) => 0,
            Some(_) => 4,
        },
    },
    Varied {
        name: "a node number",
        table: TEN_NODES,
        line: 8,
        start: 0,
        width: 4,
        known: |content| match content.flatten() {
            None => 2,
            Some(7) => 0,
            Some(_) => 4,
        },
    },
    Varied {
        name: "a parent",
        table: TEN_NODES,
        line: 10,
        start: 6,
        width: 5,
        known: |content| match content {
            None => 2,
            Some(Some(0 | 7)) => 0,
            Some(_) => 6,
        },
    },
    Varied {
        name: "a weight",
        table: SEVEN_NODES,
        line: 3,
        start: 11,
        width: 5,
        known: |content| match content {
            None => 2,
            Some(None) => 7,
            Some(Some(7)) => 0,
            Some(Some(_)) => 3,
        },
    },
];

/// Every count, node number, parent and weight over blanks, zeros, sevens and minus: what is
/// refused, and where, is known from the words of the request.
#[test]
fn every_content_of_a_field() {
    let mut all = Everything::new([
        "every field of zeros, reading",
        "every field of zeros, the worth",
        "every field of zeros, judging",
        "every field of zeros, searching",
        "every field of zeros, searching within a budget",
        "every field of zeros, indexing",
        "every field of zeros, searching with an index",
        "every field of zeros, turning",
        "every field of zeros, rolling out",
        "every field of zeros, reports",
    ]);
    let mut random = Random::new(all.worth.seed);
    for varied in &VARIED {
        let numbers = all_ways(varied.width);
        let columns =
            LINE * varied.line + varied.start..LINE * varied.line + varied.start + varied.width;
        let mut accepted = 0;
        for content in every_content(b" 07-", varied.width as u32) {
            let mut text = dotted(varied.table);
            text[columns.clone()].copy_from_slice(&content);
            let blank = content.iter().all(|byte| *byte == b' ');
            let known = match blank {
                true => Some(None),
                false => numbers.get(&content).map(|number| Some(*number)),
            };
            let expected = match (varied.known)(known) {
                0 => 0,
                number => 100 * varied.line as u64 + u64::from(number),
            };
            let answer = all.hold(&text, &mut random);
            assert_eq!(
                code(&answer),
                expected,
                "{}\n{}",
                varied.name,
                escaped(&text)
            );
            accepted += usize::from(answer.is_ok());
        }
        // Of 7 there is a way for each number of zeros, and of 0 too.
        let ways = match varied.name {
            "a parent" => 5 + 5,
            _ => varied.width,
        };
        assert_eq!(accepted, ways, "{}", varied.name);
    }
    for tally in all.tallies() {
        tally.report();
    }
    let cases = all.reading.tally.cases;
    assert_eq!(cases, 2 * 4_u64.pow(4) + 2 * 4_u64.pow(5));
}

/// Every play number over the same bytes, where the root has seven children.
#[test]
fn every_play_number() {
    let mut comparison = reporting::Comparison::new("every play number of zeros");
    let numbers = all_ways(4);
    let mut reported = 0;
    for content in every_content(b" 07-", 4) {
        let play = [&content[..], b"\n"].concat();
        let table = dotted(TEN_NODES);
        let expected = match numbers.get(&content) {
            Some(7) => 0,
            Some(_) => 1_000_014,
            None => 1_000_016,
        };
        let report = comparison.hold(&file(&[Position { play, table }]), 1);
        let place = content.escape_ascii();
        assert_eq!(reporting::code(&report), expected, "{place}");
        reported += usize::from(report.is_ok());
    }
    comparison.tally.report();
    assert_eq!((comparison.tally.cases, reported), (256, 4));
}

/// Every utility and end over the same bytes, by reading alone, as they are many.
#[test]
fn every_content_of_a_wide_field() {
    let mut comparison = reading::Comparison::new("every wide field of zeros");
    let mut seen = Seen::default();
    for (name, line, start) in [
        ("a utility", 3, 16),
        ("the lowest end", 0, 8),
        ("the highest end", 0, 16),
    ] {
        let mut text = dotted(SEVEN_NODES);
        let columns = LINE * line + start..LINE * line + start + 8;
        for content in every_content(b" 07-", 8) {
            text[columns.clone()].copy_from_slice(&content);
            let answer = comparison.hold(&text);
            let refused = answer.err().map_or(0, |refusal| refusal.number);
            seen.count(&format!("{name} accepted"), refused == 0);
            seen.count(&format!("{name} refused 2"), refused == 2);
            seen.count(&format!("{name} refused 3"), refused == 3);
        }
    }
    comparison.tally.report();
    seen.demand(10);
}

// ---------------------------------------------------------------------------
// Answers worked out by hand
// ---------------------------------------------------------------------------

/// Columns 5-8 of a table without C: T and the second total, 0 for none, or the refusal.
const TOTALS: &str = "\
..36 36 0
.036 36 0
0036 36 0
...4 4 0
..04 4 0
.004 4 0
0004 4 0
0064 64 0
1536 36 15
.136 36 1
0136 36 1
.1.4 4 1
01.4 4 1
.104 4 1
0104 4 1
3604 4 36
36.4 4 36
0406 6 4
.... refused 2
00.4 refused 2
.0.4 refused 2
0.36 refused 2
0.04 refused 2
00.. refused 2
.0.. refused 2
0... refused 2
36.. refused 2
-036 refused 2
.-36 refused 2
-0.4 refused 2
-004 refused 2
.-01 refused 2
-001 refused 2
00-1 refused 2
.0-1 refused 2
-000 refused 2
..-0 refused 2
.1-0 refused 2
01-0 refused 2
.00. refused 2
010. refused 2
+036 refused 2
0+36 refused 2
00+4 refused 2
0000 refused 3
.000 refused 3
..00 refused 3
...0 refused 3
.100 refused 3
0100 refused 3
.1.0 refused 3
3600 refused 3
36.0 refused 3
1000 refused 3
0065 refused 3
.065 refused 3
6504 refused 3
0465 refused 3
0404 refused 3
.404 refused 3
04.4 refused 3
..-1 refused 3
-104 refused 3
01-4 refused 3
";

#[test]
fn totals_by_hand() {
    let mut tally = Tally::new("padded totals by hand");
    for case in TOTALS.lines() {
        let parts: Vec<&str> = case.split(' ').collect();
        let [columns, first, second] = parts[..] else {
            panic!("{case}");
        };
        let number = |written: &str| written.parse::<i64>().expect("a number");
        let mut text = dotted(TWO_LEAVES);
        text[4..8].copy_from_slice(&dotted(columns));
        // Three nodes, ends 0 and 10, no C, so that a point is a grain; two leaves.
        let (returned, written) = match first {
            "refused" => (number(second) as u64, vec![]),
            _ => (0, vec![3, number(first), 0, 10, 0, 1, 2, number(second)]),
        };
        let answer = second::read(&text);
        assert_eq!(code(&answer), returned, "{case}");
        if let Ok(table) = answer {
            let totals = (table.total, table.second.unwrap_or(0));
            assert_eq!(totals, (number(first), number(second)), "{case}");
        }
        hold_read(&tally, &text, returned, &written);
        tally.add(&[returned]);
    }
    tally.report();
    assert_eq!(tally.counts[..4], [18, 0, 26, 20]);
}

/// Holds the proved engine's reading to these numbers.
fn hold_read(tally: &Tally, text: &[u8], returned: u64, written: &[i64]) {
    let asked = format_args!("the reading");
    for room in [ROOM, 8] {
        agree(tally, text, asked, room, (returned, written), |numbers| {
            engine::read_into(text, numbers, &mut [], &mut [], &mut [], &mut [])
        });
    }
}

/// A line of table B that is written otherwise: the refusal, or 0 where the table is the
/// same; the line; how it is written; and what stands there.
const LINES_OF_B: &str = "\
0 0 ..05...4.......0.......8 a zero before the count
0 0 0005...4.......0.......8 three
2 0 00.5...4.......0.......8 a blank after two
2 0 05.....4.......0.......8 a blank after it
2 0 -000...4.......0.......8 minus zeros as the count
4 0 0000...4.......0.......8 zeros as the count
4 0 -005...4.......0.......8 a padded count below zero
4 0 0006...4.......0.......8 a padded count that is wrong
0 0 ...5..04.......0.......8 a zero before T
0 0 ...50004.......0.......8 zeros in columns 5-6
0 0 ...5.004.......0.......8 a blank and a zero there
2 0 ...500.4.......0.......8 zeros there, and a blank before T
0 0 ...5...4......00.......8 two zeros as the lowest end
0 0 ...5...400000000.......8 zeros to its width
2 0 ...5...4......-0.......8 minus zero
2 0 ...5...4-0000000.......8 minus zeros to its width
2 0 ...5...40.000000.......8 a blank among zeros
0 0 ...5...4.......0......08 a zero before the highest end
0 0 ...5...4.......000000008 zeros to its width
2 0 ...5...4.......00000008. a blank after it
3 0 ...5...4.......0-0000008 a padded end below the lowest
3 0 ...5...4.......001000001 a padded end too far
3 0 ...5...40000000900000008 padded ends in the wrong order
2 0 ...6...0......-0.......8 2 comes before 3 and 4
0 1 0000.M.................. zeros as node 0's number
0 1 ..00.M.................. two of them
2 1 -000.M.................. minus zeros
6 1 ...0.M00000............. zeros as node 0's parent
6 1 ...0.M....0............. one zero
2 1 ...0.M-0000............. minus zeros
7 1 ...0.M.....00000........ zeros as its weight
7 1 ...0.M..........00000000 zeros as its utility
2 1 ...0.M................-0 minus zero as its utility
0 2 0001.L....0............5 a padded number
4 2 0002.L....0............5 a padded number that is wrong
0 2 ...1.L00000............5 zeros as a parent
0 2 ...1.L...00............5 two of them
2 2 ...1.L-0000............5 minus zeros
2 2 ...1.L00.00............5 a blank among zeros
6 2 ...1.L00001............5 a padded parent that is wrong
6 2 ...1.L-0001............5 a padded parent below zero
7 2 ...1.L....000000.......5 zeros as a weight under no C
7 2 ...1.L....0...00.......5 two of them
2 2 ...1.L....0-0000.......5 minus zeros there
0 2 ...1.L....0.....00000005 a padded utility
0 2 ...1.L....0...........05 one zero
0 2 ...1.L....0......0000005 a blank, then zeros
2 2 ...1.L....0.....0000005. a blank after it
2 2 ...1.L....0.....000000.5 a blank after zeros
2 2 ...1.L....0.....-0000000 minus zeros
2 2 ...1.L....0.....0-000005 a minus among zeros
2 2 ...1.L....0.....+0000005 a plus before zeros
2 2 ...1.L....0.....0x000005 a letter among zeros
3 2 ...1.L....0.....00000009 a padded utility above the ends
3 2 ...1.L....0.....-0000005 a padded utility below the ends
7 3 ...2.C....0.....00000000 zeros as the utility of a C
7 3 ...2.C....000000........ zeros as the weight of a C under no other
0 4 0003.L000020000300000002 every field
0 4 ...3.L..002...03.....002 every field, blanks before
2 4 ...3.L.0.02....3.......2 a blank within a parent
3 4 ...3.L....200000.......2 zeros as a weight under a C
3 4 ...3.L....2....0.......2 one zero
2 4 ...3.L....2-0000.......2 minus zeros
2 4 ...3.L....20.003.......2 a blank within a weight
3 4 ...3.L....2-0003.......2 a padded weight below zero
3 4 ...3.L....200005.......2 a padded weight above T
";

/// Table B's numbers, and what each node has: kind, stop, weight, height.
const NUMBERS_OF_B: [i64; 8] = [5, 4, 0, 8, 1, 4, 3, 0];
const NODES_OF_B: [(u8, u16, u8, u32); 5] = [
    (1, 5, 0, 0),
    (0, 2, 0, 5),
    (3, 5, 0, 0),
    (0, 4, 3, 2),
    (0, 5, 1, 8),
];

/// Holds both engines to table B's known answers, or to this refusal.
fn hold_b(tally: &Tally, text: &[u8], refusal: Option<Refusal>, why: &str) {
    if let Some(refusal) = refusal {
        let returned = 100 * refusal.line as u64 + u64::from(refusal.number);
        assert_eq!(second::read(text), Err(refusal), "{why}");
        hold_read(tally, text, returned, &[]);
        worth::hold_to(tally, text, ROOM, returned, &[]);
        judging::hold_to(tally, text, 2, ROOM, &Err(refusal));
        let refused = Expected::refused(refusal);
        searching::hold_to(tally, text, 12, 3, ROOM, &refused);
        turning::hold_to(tally, text, text.len(), &Err(refusal));
        return;
    }
    let expected = second::read(&dotted(TABLE_B)).expect("accepted");
    assert_eq!(second::read(text), Ok(expected), "{why}");
    hold_read(tally, text, 0, &NUMBERS_OF_B);
    let (mut kind, mut stop, mut weight, mut height) = ([9; 5], [9; 5], [9; 5], [9; 5]);
    let code = engine::read_into(
        text,
        &mut [],
        &mut kind,
        &mut stop,
        &mut weight,
        &mut height,
    );
    assert_eq!(code, 0, "{why}");
    let nodes: Vec<_> = (0..5)
        .map(|i| (kind[i], stop[i], weight[i], height[i]))
        .collect();
    assert_eq!(nodes, NODES_OF_B, "{why}");
    worth::hold_to(tally, text, ROOM, 0, &[20, 4]);
    let lost = Ok(Judgement::Loss {
        grains: 6,
        level: 1,
    });
    judging::hold_to(tally, text, 2, ROOM, &lost);
    let found = Expected::known(20, 32, 1, &[1], 4);
    searching::hold_to(tally, text, 12, 3, ROOM, &found);
    turning::hold_to(tally, text, text.len(), &Ok(&dotted(TABLE_B_TURNED)));
    let turned = turning::turned(text);
    turning::hold_to(tally, &turned, text.len(), &Ok(&dotted(TABLE_B)));
}

#[test]
fn lines_by_hand() {
    let mut tally = Tally::new("padded lines by hand");
    for case in LINES_OF_B.lines() {
        let parts: Vec<&str> = case.splitn(4, ' ').collect();
        let [number, line, written, _] = parts[..] else {
            panic!("{case}");
        };
        let number = number.parse().expect("a number");
        let line = line.parse().expect("a line");
        let refusal = (number > 0).then_some(Refusal { number, line });
        hold_b(&tally, &table_b_with(line, written), refusal, case);
        tally.add(&[u64::from(number)]);
    }
    // Weights of 2 and 1, of which one is padded, and T is 4.
    let light = table_b_with(4, "...3.L....200002.......2");
    let nine = Refusal { number: 9, line: 3 };
    hold_b(&tally, &light, Some(nine), "a padded weight that is wrong");
    tally.report();
    let counts = [0, 2, 3, 4, 6, 7].map(|number| tally.counts[number]);
    assert_eq!(counts, [19, 24, 9, 4, 4, 6]);
}

/// Table B as a spreadsheet pads it.
const FILLED_B: &str = "\
000500040000000000000008
0000.M..................
0001.L00000.....00000005
0002.C00000.............
0003.L000020000300000002
0004.L000020000100000008
";

/// A table of two totals with numbers below zero, padded in several ways; the same with
/// blanks, and turned.
const MIXED: &str = "\
00040304-0000009.....005
.000.C..................
0001.L0000000001-0000007
..02.L...00...02....0005
...3.L.0000.0001.....-01
";

const MIXED_BLANK: &str = "\
...4.3.4......-9.......5
...0.C..................
...1.L....0....1......-7
...2.L....0....2.......5
...3.L....0....1......-1
";

const MIXED_TURNED: &str = "\
...4.3.4......-5.......9
...0.C..................
...1.L....0....1.......7
...2.L....0....2......-5
...3.L....0....1.......1
";

/// A lone leaf of 0 between ends of 0, padded; and the same with blanks, which turning leaves
/// as it is.
const LONE_ZERO: &str = "\
000100010000000000000000
0000.L..........00000000
";

const LONE_ZERO_BLANK: &str = "\
...1...1.......0.......0
...0.L.................0
";

/// Whole tables: table B with every number padded has table B's answers; turning writes
/// blanks, and turning twice gives the text with blanks.
#[test]
fn tables_by_hand() {
    let tally = Tally::new("padded tables by hand");
    let filled_b = dotted(FILLED_B);
    hold_b(&tally, &filled_b, None, "every number padded");
    assert_eq!(escaped(&filled(&dotted(TABLE_B))), escaped(&filled_b));
    assert_eq!(escaped(&blanked(&filled_b)), escaped(&dotted(TABLE_B)));

    let [mixed, blank, turned] = [MIXED, MIXED_BLANK, MIXED_TURNED].map(dotted);
    assert_eq!(escaped(&blanked(&mixed)), escaped(&blank));
    for text in [&mixed, &blank] {
        // 4 nodes, T 4, ends -9 and 5, one C of sum 4; three leaves; the second total is 3.
        hold_read(&tally, text, 0, &[4, 4, -9, 5, 1, 4, 3, 3]);
        // -7 + 2 x 5 - 1 in quarters of a point.
        worth::hold_to(&tally, text, ROOM, 0, &[2, 4]);
        turning::hold_to(&tally, text, text.len(), &Ok(&turned));
        let mut buffer = vec![0; text.len()];
        assert_eq!(second::turn(text, &mut buffer), Ok(()));
        assert_eq!(escaped(&buffer), escaped(&turned));
    }
    turning::hold_to(&tally, &turned, turned.len(), &Ok(&blank));

    let [zeros, blank] = [LONE_ZERO, LONE_ZERO_BLANK].map(dotted);
    for text in [&zeros, &blank] {
        hold_read(&tally, text, 0, &[1, 1, 0, 0, 0, 1, 1, 0]);
        turning::hold_to(&tally, text, text.len(), &Ok(&blank));
    }
}

/// Play numbers before table B, and what is reported: the thousandths lost, or the refusal.
const PLAYS: [(&[u8; 5], Result<i64, u8>); 24] = [
    (b"   2\n", Ok(1_500)),
    (b"  02\n", Ok(1_500)),
    (b" 002\n", Ok(1_500)),
    (b"0002\n", Ok(1_500)),
    (b"0001\n", Ok(0)),
    (b"  01\n", Ok(0)),
    (b"0000\n", Err(14)),
    (b"  00\n", Err(14)),
    (b"0003\n", Err(14)),
    (b"-002\n", Err(14)),
    (b" -02\n", Err(14)),
    (b"  -0\n", Err(16)),
    (b" -00\n", Err(16)),
    (b"-000\n", Err(16)),
    (b"0 02\n", Err(16)),
    (b"00 2\n", Err(16)),
    (b"02  \n", Err(16)),
    (b"002 \n", Err(16)),
    (b"+002\n", Err(16)),
    (b"00-2\n", Err(16)),
    (b"-0 2\n", Err(16)),
    (b"- 02\n", Err(16)),
    (b"00x2\n", Err(16)),
    (b"    \n", Err(16)),
];

#[test]
fn plays_by_hand() {
    let mut tally = Tally::new("padded plays by hand");
    for (play, known) in PLAYS {
        for table in [TABLE_B, FILLED_B] {
            let position = Position {
                play: play.to_vec(),
                table: dotted(table),
            };
            let expected = match known {
                Ok(loss) => Ok(second::Report {
                    entries: vec![Entry {
                        root: Kind::Max,
                        loss: Some(loss),
                        mark: Some(if loss > 0 {
                            Mark::Blunder
                        } else {
                            Mark::NoMark
                        }),
                    }],
                    max: Total {
                        decisions: 1,
                        sum: loss,
                    },
                    min: Total::default(),
                }),
                Err(number) => Err(Stop {
                    refusal: Refusal { number, line: 0 },
                    position: 1,
                }),
            };
            let file = file(&[position]);
            let place = || escaped(&file);
            assert_eq!(second::report(&file, 1, 1), expected, "{}", place());
            reporting::hold_to(&tally, &file, 1, Lent::lists(1), &expected);
            tally.add(&[reporting::code(&expected) % 100]);
        }
    }
    tally.report();
    assert_eq!([0, 14, 16].map(|number| tally.counts[number]), [12, 10, 26]);
}

/// The zeros of every number that has room for some: `ways` has as many ways as there are
/// columns left, and no other number has one of them.
#[test]
fn ways_by_hand() {
    let written = |number, width| -> Vec<String> {
        let ways = ways(number, width).into_iter();
        ways.map(|way| String::from_utf8(way).expect("ASCII"))
            .collect()
    };
    assert_eq!(written(7, 4), ["   7", "  07", " 007", "0007"]);
    assert_eq!(written(-7, 4), ["  -7", " -07", "-007"]);
    assert_eq!(written(0, 2), [" 0", "00"]);
    assert_eq!(written(-99, 3), ["-99"]);
    assert_eq!(padding::padded_fields(&dotted(TABLE_B)), []);
}
