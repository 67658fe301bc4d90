//! Tables with two totals (document 02, Item 5): every call, held to the second engine and
//! to answers worked out by hand; every content of header columns 5-8; every grain count;
//! and how often an engine that takes another total or another grain count would have
//! answered otherwise.
//!
//! The environment variable SEED sets the seed of the random tables, CASES their
//! number.

use std::collections::HashMap;
use std::ops::RangeInclusive;
use std::sync::LazyLock;

use compare::engine::{self, Record};
use compare::hold::budget::{self, turning_points, Asked, Known, NONE};
use compare::hold::indexed::{self, Built, Index};
use compare::hold::numbers::{agree, ROOM};
use compare::hold::searching::{self, Expected, PATTERN};
use compare::hold::seen::Seen;
use compare::hold::sums::{self, beside, Questions};
use compare::hold::tally::{say, Tally};
use compare::hold::totals::{on_one_path, Everything};
use compare::hold::{judging, reading, reporting, rolling, turning, worth};
use compare::random::{number_from_environment, Random};
use compare::second::{
    self, Judgement, Kind, Refusal, Stop, Table, GREATEST_MARGIN, LINE, MOST_GRAINS, MOST_NODES,
    MOST_TOTAL,
};
use compare::texts;
use compare::texts::examples::*;
use compare::texts::knobs::Knobs;
use compare::texts::matches::{file, Position};
use compare::texts::padding::ways;
use compare::texts::small::{for_each_of, six_nodes};
use compare::texts::totals::{
    too_grainy, too_grainy_and_wrong, with_weights, Grains, Plan, GRAINS,
};
use compare::texts::windows::narrowed;

/// The refusal for the grain count.
const GRAINY: Refusal = Refusal {
    number: 18,
    line: 0,
};

// ---------------------------------------------------------------------------
// Random tables
// ---------------------------------------------------------------------------

/// A table of two totals, or of one in some cases, or one that is refused 18 or 9.
fn any_table(number: u64, random: &mut Random) -> Vec<u8> {
    match number % 10 {
        0..=2 => Plan::any(random).text(random),
        3 => {
            let grains = random.pick(&[Grains::JustBelow, Grains::Greatest]);
            Plan::of(grains, random).text(random)
        }
        4 => texts::make(Knobs::chancy, random),
        5 => texts::make(Knobs::narrow, random),
        6 => narrowed(random),
        7 => texts::make(Knobs::any, random),
        8 => too_grainy(random),
        _ if random.one_in(4) => too_grainy_and_wrong(random).0,
        _ if random.one_in(4) => texts::make(Knobs::dice, random),
        _ => Plan::of(random.pick(&GRAINS), random).text(random),
    }
}

/// The main comparison, by every call. It fails where tables of one sort were too few, or
/// refusals 18 by one call, or where too few would have told a wrong engine from the right
/// one.
#[test]
fn random_tables_by_every_call() {
    let mut all = Everything::new([
        "two totals, reading",
        "two totals, the worth",
        "two totals, judging",
        "two totals, searching",
        "two totals, searching within a budget",
        "two totals, indexing",
        "two totals, searching with an index",
        "two totals, turning",
        "two totals, rolling out",
        "two totals, reports",
    ]);
    let cases = number_from_environment("CASES", 22_000);
    for number in 0..cases {
        let mut random = Random::of_case(all.worth.seed, number);
        let text = any_table(number, &mut random);
        let _ = all.hold(&text, &mut random);
    }
    all.demand_grains();
    all.worth.demand_two_totals();
    let texts = all.reading.tally.cases;
    assert!(texts >= 20_000, "only {texts} texts");
    // About half of what the usual seed gives, or less.
    all.tables.demand_by(|sort| match sort {
        "both totals on a path" => 3_000,
        "K 0" => 0,
        _ => 300,
    });
    all.refused.demand(200);
    all.wrong.demand(500);
}

/// 1,024 lines and the widest ends, with 64 as the first total or the second: T times a
/// bound is as large as it may be.
#[test]
fn largest_tables() {
    let mut all = Everything::new([
        "the largest of two totals, reading",
        "the largest of two totals, the worth",
        "the largest of two totals, judging",
        "the largest of two totals, searching",
        "the largest of two totals, searching within a budget",
        "the largest of two totals, indexing",
        "the largest of two totals, searching with an index",
        "the largest of two totals, turning",
        "the largest of two totals, rolling out",
        "the largest of two totals, reports",
    ]);
    let mut greatest = 0;
    for number in 0..120 {
        let mut random = Random::of_case(all.worth.seed, number);
        let knobs = Knobs::largest(&mut random);
        let other = random.pick(&[1, 2, 4, 8, 16, 32, 63]);
        let totals = random.pick(&[[MOST_TOTAL, other], [other, MOST_TOTAL]]);
        let knobs = Knobs {
            totals: totals.to_vec(),
            ..knobs
        };
        let text = knobs.text(&mut random);
        let table = all.hold(&text, &mut random).expect("valid");
        assert_eq!(table.nodes.len(), MOST_NODES);
        greatest += u64::from(table.grains == MOST_GRAINS);
    }
    for tally in all.tallies() {
        tally.report();
    }
    say(&format!("the greatest grain count {greatest} times"));
    assert!(greatest >= 20, "the greatest grain count was rare");
    let together = all.tables.of("both totals on a path");
    assert!(together >= 20, "both totals on a path were rare");
}

/// Every table of up to five nodes over a few entries, with weights of 1 and 2 and the
/// totals 1 and 2 in either place, or 3 and 2. Those whose sums are wrong go in too; others
/// that are refused are compared in other tests.
#[test]
fn every_small_table() {
    let mut all = Everything::new([
        "every small table of two totals, reading",
        "every small table of two totals, the worth",
        "every small table of two totals, judging",
        "every small table of two totals, searching",
        "every small table of two totals, searching within a budget",
        "every small table of two totals, indexing",
        "every small table of two totals, searching with an index",
        "every small table of two totals, turning",
        "every small table of two totals, rolling out",
        "every small table of two totals, reports",
    ]);
    let mut random = Random::new(all.worth.seed);
    for totals in [" 1 2", " 2 1", " 2 3"] {
        let lines = &six_nodes(&["-1", "2"])[..5];
        for_each_of(totals, (-1, 2), lines, &mut |text| {
            let read = second::read(text).map_err(|refusal| refusal.number);
            if matches!(read, Ok(_) | Err(9)) {
                let _ = all.hold(text, &mut random);
            }
            matches!(read, Ok(_) | Err(8 | 9))
        });
    }
    for tally in all.tallies() {
        tally.report();
    }
    let tables = &all.tables;
    for sort in ["both totals on a path", "both totals, never on one path"] {
        let count = tables.of(sort);
        assert!(count >= 20, "{sort} came only {count} times");
    }
    let counts = all.reading.tally.counts;
    assert!(counts[0] >= 1_000 && counts[9] >= 1_000, "too few tables");
}

// ---------------------------------------------------------------------------
// Windows under C of both totals
// ---------------------------------------------------------------------------

/// Every margin at which a cut test just cuts, and those one grain beside it, without a
/// budget and within one, on tables where C of both totals stand one below the other and
/// much hangs on the windows below them. It fails where windows that are rounded the wrong
/// way, or the other total in place of a C's own sum, would have changed too few answers.
#[test]
fn windows_below_both_totals() {
    const SORT: &str = "both totals";
    let mut comparison = sums::Comparison::new(
        "searching in narrow windows of both totals",
        "searching in narrow windows of both totals within a budget",
    );
    let (mut tables, mut deep) = (0, 0);
    for number in 0..12_000 {
        let mut random = comparison.case(number);
        let text = narrowed(&mut random);
        let table = second::read(&text).expect("valid");
        if !on_one_path(&table) {
            continue;
        }
        tables += 1;
        deep += u64::from(table.chances == 4);
        let budget = random.between(1, table.leaves as i64);
        let about = |budget| turning_points(&table, budget).into_iter().flat_map(beside);
        let within = about(Some(budget));
        let questions = Questions {
            margins: about(None).collect(),
            asked: within.map(|margin| Asked { margin, budget }).collect(),
        };
        comparison.count_roundings(SORT, &table, &questions);
        comparison.count_totals(SORT, &table, &questions);
        comparison.hold(SORT, &text, &table, &mut random, questions);
    }
    // About half of what the usual seed gives, or less.
    comparison.demand_tests(600, true);
    comparison.demand_faults(10_000, 3_000);
    comparison.roundings.demand(500);
    comparison.totals.demand(3_000);
    say(&format!("{tables} tables, {deep} with four C on a path"));
    assert!(tables >= 2_000 && deep >= 800, "too few tables");
}

// ---------------------------------------------------------------------------
// The header
// ---------------------------------------------------------------------------

/// What columns 5-8 must come to, from the words of the requests alone (Items 5 and 9):
/// nothing where they are ill-written; otherwise the first total and the second.
fn totals_in(columns: &[u8]) -> Option<(i64, Option<i64>)> {
    let (left, right) = columns.split_at(2);
    match left {
        b"  " | b" 0" | b"00" => Some((written(columns)?, None)),
        _ => Some((written(right)?, Some(written(left)?))),
    }
}

/// The number in a field of two or four columns; nothing where there is none.
fn written(columns: &[u8]) -> Option<i64> {
    static WRITTEN: LazyLock<HashMap<Vec<u8>, i64>> = LazyLock::new(|| {
        let (two, four) = (-9..=99, -999..=9_999);
        let two = two.flat_map(|number| ways(number, 2).into_iter().map(move |way| (way, number)));
        let four =
            four.flat_map(|number| ways(number, 4).into_iter().map(move |way| (way, number)));
        two.chain(four).collect()
    });
    WRITTEN.get(columns).copied()
}

/// The refusal of the totals themselves, if they are refused.
fn of_header(columns: &[u8]) -> Option<u8> {
    const RANGE: RangeInclusive<i64> = 1..=MOST_TOTAL;
    match totals_in(columns) {
        None => Some(2),
        Some((first, _)) if !RANGE.contains(&first) => Some(3),
        Some((first, Some(second))) if !RANGE.contains(&second) || second == first => Some(3),
        Some(_) => None,
    }
}

/// Tables with C of these sums, or with none.
const BODIES: [&[i64]; 5] = [&[], &[36], &[15, 36], &[4], &[64, 64, 64, 64, 2]];

/// A table of two lines or more whose columns 5-8 are yet to be written. The C stand one
/// below the other, four at most, and each has one child; any more stand under the root.
fn body(sums: &[i64]) -> Vec<u8> {
    let (chain, beside) = sums.split_at(sums.len().min(4));
    let lines = 2 + chain.len() + 2 * beside.len();
    let mut text = format!("{lines:>4}           0       9\n   0 M{:>18}\n", "");
    let (mut parent, mut weight) = (0, String::new());
    for (node, sum) in (1..).zip(chain) {
        text += &format!("{node:>4} C{parent:>5}{weight:>5}{:>8}\n", "");
        (parent, weight) = (node, sum.to_string());
    }
    let mut node = chain.len() + 1;
    text += &format!("{node:>4} L{parent:>5}{weight:>5}{:>8}\n", 7);
    for sum in beside {
        let chance = node + 1;
        text += &format!("{chance:>4} C{:>5}{:>13}\n", 0, "");
        node = chance + 1;
        text += &format!("{node:>4} L{chance:>5}{sum:>5}{:>8}\n", 3);
    }
    text.into_bytes()
}

/// What must come of a body with these columns 5-8, from the words of the request alone.
fn known_header(columns: &[u8], sums: &[i64]) -> u64 {
    if let Some(number) = of_header(columns) {
        return u64::from(number);
    }
    let (first, second) = totals_in(columns).expect("not refused");
    let totals = [Some(first), second];
    let larger = first.max(second.unwrap_or(0));
    let (chain, beside) = sums.split_at(sums.len().min(4));
    // The weight of a sum stands on the line after its C: node i is line i + 1.
    let mut lines: Vec<(usize, i64)> = (2..).zip(chain.iter().copied()).collect();
    let after = chain.len() + 3;
    lines.extend((after..).step_by(2).zip(beside.iter().copied()));
    if let Some((line, _)) = lines.iter().find(|(_, sum)| *sum > larger) {
        return 100 * (*line as u64 + 1) + 3;
    }
    if let Some((line, _)) = lines.iter().find(|(_, sum)| !totals.contains(&Some(*sum))) {
        return 100 * *line as u64 + 9;
    }
    let uses = |total: i64| {
        let of = |sums: &[i64]| sums.iter().filter(|sum| **sum == total).count() as u32;
        of(chain).max(u32::from(of(beside) > 0))
    };
    let grains: i64 = totals.iter().flatten().map(|&t| t.pow(uses(t))).product();
    match grains > MOST_GRAINS {
        true => 18,
        false => 0,
    }
}

/// Every content of columns 5-8 over blanks, digits and minus in front of every body, and
/// over some other bytes in front of three of them: the refusals 2, 3, 9 and 18 and acceptance are those that the
/// words of the request give. Each goes to reading and to one other call by turns, and to
/// the report, where the header is checked apart.
#[test]
fn every_content_of_columns_5_to_8() {
    const USUAL: &[u8] = b" 0123456789-";
    const OTHERS: &[u8] = b" 0136-x+\n\t\0\xff/:";
    let mut reading = reading::Comparison::new("every second total, reading");
    let mut others = Tally::new("every second total, another call");
    let mut reports = Tally::new("every second total, reports");
    let mut hold = |columns: [u8; 4], sums: &[i64], text: &mut Vec<u8>| {
        text[4..8].copy_from_slice(&columns);
        let known = known_header(&columns, sums);
        let answer = reading.hold(text);
        let place = || escaped(text);
        assert_eq!(compare::hold::code(&answer), known, "{}", place());
        if let Ok(table) = &answer {
            let totals = (table.total, table.second);
            assert_eq!(Some(totals), totals_in(&columns), "{}", place());
        }
        hold_another(&mut others, text, &answer);

        let positions = [
            Position::new(7, dotted(LONE_LEAF)),
            Position::new(1, text.clone()),
        ];
        let file = file(&positions);
        let report = second::report(&file, 1, 2);
        let code = reporting::code(&report);
        let expected = match known {
            0 => 0,
            _ => 2_000_000 + known,
        };
        assert_eq!(code, expected, "{}", place());
        reporting::hold_to(&reports, &file, 1, reporting::Lent::lists(2), &report);
        reports.add(&[code % 1_000_000]);
    };
    for sums in BODIES {
        let mut text = body(sums);
        for bytes in [USUAL, OTHERS] {
            // The other bytes are many; three bodies will do.
            if bytes == OTHERS && sums.len() > 1 {
                continue;
            }
            let count = bytes.len();
            for content in 0..count.pow(4) {
                let column = |place: u32| bytes[content / count.pow(place) % count];
                let columns = [column(3), column(2), column(1), column(0)];
                hold(columns, sums, &mut text);
            }
        }
    }
    for tally in [&reading.tally, &others, &reports] {
        tally.report();
        for number in [0, 2, 3, 9, 18] {
            let count = tally.counts[number];
            // Of all headers 64 and 2 alone, in either place, make the last body too
            // grainy.
            let least = if number == 18 { 2 } else { 100 };
            assert!(count >= least, "{number} came only {count} times");
        }
    }
}

/// Holds one call to what the second engine says of the text, by turns.
fn hold_another(tally: &mut Tally, text: &[u8], table: &Result<Table, Refusal>) {
    let code = match tally.cases % 7 {
        0 => return drop(worth::hold(tally, text)),
        1 => {
            let answer = match table {
                Ok(table) => second::judge(table, 1),
                Err(refusal) => Err(*refusal),
            };
            judging::hold_to(tally, text, 1, ROOM, &answer);
            compare::hold::code(&answer)
        }
        2 => {
            let room = table.as_ref().map_or(0, |table| table.leaves);
            let expected = Expected::of(table, 0, room);
            searching::hold_to(tally, text, 0, room, ROOM, &expected);
            compare::hold::code(&expected.answer)
        }
        3 => {
            let mut buffer = vec![0; text.len()];
            let turned = second::turn(text, &mut buffer).map(|()| &buffer[..]);
            turning::hold_to(tally, text, text.len(), &turned);
            compare::hold::code(&turned)
        }
        4 => {
            let built = Built::by(table.as_ref(), (MOST_NODES, MOST_NODES));
            indexed::hold_built(tally, text, &built);
            compare::hold::code(&built.answer)
        }
        5 => {
            let Built { index, .. } = Built::by(table.as_ref(), (MOST_NODES, MOST_NODES));
            let expected = indexed::expected(table.as_ref(), 0, &index, MOST_NODES);
            indexed::hold_to(tally, text, 0, &index, (MOST_NODES, ROOM), &expected);
            compare::hold::code(&expected.answer)
        }
        _ => {
            let rooms = rolling::Rooms {
                store: MOST_NODES,
                leaves: MOST_NODES,
                numbers: ROOM,
            };
            let expected = rolling::Expected::of(table, &[], rooms);
            rolling::hold_to(tally, text, &[], rooms, &expected);
            compare::hold::code(&expected.answer)
        }
    };
    tally.add(&[code]);
}

/// Every two totals, each with weights at the larger and one above it, and with sums that
/// are a total or neither: of both together, of their difference, of their product, and one
/// above each and below. What is refused, and where, is worked out from the words of the request.
#[test]
fn weights_and_sums() {
    let mut reading = reading::Comparison::new("weights and sums of two totals");
    let mut others = Tally::new("weights and sums of two totals, another call");
    let mut seen = Seen::default();
    for first in 1..=MOST_TOTAL {
        for second in (1..=MOST_TOTAL).filter(|second| *second != first) {
            let mut random = Random::of_case(reading.tally.seed, (100 * first + second) as u64);
            let (smaller, larger) = (first.min(second), first.max(second));
            let mut hold = |sort: &str, weights: &[i64]| {
                let text = with_weights([first, second], weights, &mut random);
                let sum: i64 = weights.iter().sum();
                // The C is node 2, and its children come after it.
                let known = match weights.iter().position(|weight| *weight > larger) {
                    Some(child) => 100 * (child as u64 + 4) + 3,
                    None if sum == first || sum == second => 0,
                    None => 309,
                };
                let answer = reading.hold(&text);
                let code = compare::hold::code(&answer);
                assert_eq!(code, known, "{sort}\n{}", escaped(&text));
                hold_another(&mut others, &text, &answer);
                let outcome = match known % 100 {
                    0 => "accepted",
                    3 => "refused 3",
                    _ => "refused 9",
                };
                seen.count(&format!("{sort}, {outcome}"), true);
            };
            hold("the larger total", &[larger]);
            hold("one above the larger total", &[larger + 1]);
            hold("the smaller total", &[smaller]);
            hold("one above the smaller total", &[smaller + 1]);
            hold("both together", &[larger, smaller]);
            let difference = larger - smaller;
            hold("the difference", &[difference]);
            hold("the product", &vec![larger; smaller as usize]);
            hold("the larger total in ones", &vec![1; larger as usize]);
            hold("the smaller total in ones", &vec![1; smaller as usize]);
            hold("one above it in ones", &vec![1; smaller as usize + 1]);
            hold(
                "one above the larger in ones",
                &vec![1; larger as usize + 1],
            );
            hold(
                "one below the larger in ones",
                &vec![1; larger as usize - 1],
            );
        }
    }
    reading.tally.report();
    others.report();
    // A difference may be the smaller total, a product the larger, and so on.
    seen.demand(30);
}

/// Rooms for no number to one more than there are: as many are written as there is room
/// for, the second total last, and nothing after them; nothing where the text is refused.
#[test]
fn numbers_of_any_length() {
    let mut tally = Tally::new("numbers of two totals");
    let mut seen = Seen::default();
    for number in 0..2_000 {
        let mut random = Random::of_case(tally.seed, number);
        let text = any_table(number, &mut random);
        let answer = second::read(&text);
        let (returned, full) = reading::expected(&answer);
        let written = match &answer {
            Ok(_) => &full.numbers[..reading::NUMBERS],
            Err(_) => &[],
        };
        for room in 0..=ROOM {
            let asked = format_args!("the reading");
            agree(&tally, &text, asked, room, (returned, written), |numbers| {
                engine::read_into(&text, numbers, &mut [], &mut [], &mut [], &mut [])
            });
        }
        if let Ok(table) = &answer {
            let last = written[7];
            assert_eq!(last, table.second.unwrap_or(0));
            seen.count("a second total", last > 0);
            seen.count("none", last == 0);
        }
        tally.add(&[returned]);
    }
    tally.report();
    seen.demand(200);
    tally.demand_refusals(&[18]);
}

// ---------------------------------------------------------------------------
// Grain counts
// ---------------------------------------------------------------------------

/// Every two totals with every number of uses of each, on chains: the grain count is each
/// to the power of its uses, multiplied, and it is refused 18 exactly above 16,777,216.
#[test]
fn every_grain_count() {
    let mut comparison = reading::Comparison::new("every grain count");
    let mut seen = Seen::default();
    for first in 1..=MOST_TOTAL {
        for second in (1..=MOST_TOTAL).filter(|second| *second != first) {
            for uses in 0..25 {
                let uses = [uses / 5, uses % 5];
                let text = two_chains([first, second], uses);
                let grains = first.pow(uses[0] as u32) * second.pow(uses[1] as u32);
                let answer = comparison.hold(&text);
                let expected = match grains > 16_777_216 {
                    true => Err(GRAINY),
                    false => Ok(grains),
                };
                let got = answer.map(|table| table.grains);
                assert_eq!(got, expected, "{first}, {second}, {uses:?}");
                for sort in GRAINS {
                    seen.count(&format!("{sort:?}"), sort.contains(grains));
                }
            }
        }
    }
    comparison.tally.report();
    // So many there are of one sort, and more of the others.
    seen.demand(18);
}

/// A table that is refused 18 is so by every call, whatever else the call would refuse:
/// no such child, no margin, no budget, another index, a C in rollouts, and all that is lent
/// too short. In a match it has its position and line 0. A sum that is neither total comes
/// before it.
#[test]
fn refused_in_sequence() {
    let mut tally = Tally::new("grain counts refused in sequence");
    for number in 0..600 {
        let mut random = Random::of_case(tally.seed, number);
        let (text, refusal) = match number % 3 {
            0 => too_grainy_and_wrong(&mut random),
            _ => (too_grainy(&mut random), GRAINY),
        };
        assert_eq!(second::read(&text), Err(refusal), "{}", escaped(&text));
        let code = 100 * refusal.line as u64 + u64::from(refusal.number);
        let codes = [code; 10];
        let (_, kept) = reading::expected(&Err(refusal));
        let mut lent = Box::new(kept.clone());
        assert_eq!(engine::read(&text, &mut lent), code, "{}", escaped(&text));
        assert!(*lent == kept, "a refused call writes");
        for room in 0..3 {
            worth::hold_to(&tally, &text, room, code, &[]);
            for play in [1, 0, -1, 999, i64::MIN, i64::MAX] {
                judging::hold_to(&tally, &text, play, room, &Err(refusal));
            }
            let refused = Expected::refused(refusal);
            for margin in [0, -1, GREATEST_MARGIN, GREATEST_MARGIN + 1] {
                searching::hold_to(&tally, &text, margin, room, ROOM, &refused);
                for budget in [0, -1, 1_024, 1_025] {
                    let asked = Asked { margin, budget };
                    budget::hold_to(&tally, &text, asked, (room, ROOM), &refused);
                }
                for lengths in [(0, 0), (MOST_NODES, room), (MOST_NODES, MOST_NODES)] {
                    let index = Index::unbuilt(lengths);
                    indexed::hold_to(&tally, &text, margin, &index, (room, ROOM), &refused);
                }
            }
            for lengths in [(room, room), (MOST_NODES, room), (MOST_NODES, MOST_NODES)] {
                let built = Built::by(Err(&refusal), lengths);
                indexed::hold_built(&tally, &text, &built);
            }
            for room in [0, text.len() - 1, text.len(), text.len() + room] {
                turning::hold_to(&tally, &text, room, &Err(refusal));
            }
            let rooms = rolling::Rooms {
                store: room,
                leaves: room,
                numbers: ROOM,
            };
            let refused = rolling::Expected::refused(refusal);
            rolling::hold_to(&tally, &text, &[1, 2], rooms, &refused);
        }
        hold_in_a_match(&tally, &text, refusal, &mut random);
        tally.add(&codes);
    }
    tally.report();
    // Ten calls each.
    tally.demand_refusals(&[9, 18]);
    assert!(tally.counts[18] >= 10 * 100 && tally.counts[9] >= 10 * 100);
}

/// Reports that stop at this text, whatever its play number and whatever follows.
fn hold_in_a_match(tally: &Tally, text: &[u8], refusal: Refusal, random: &mut Random) {
    for before in [0, 1, 3] {
        let play = random.pick(&[1, 0, -1, 999]);
        let mut positions = vec![Position::new(7, dotted(LONE_LEAF)); before];
        positions.push(Position::new(play, text.to_vec()));
        if random.one_in(2) {
            positions.push(Position::new(3, dotted(TABLE_A)));
        }
        let stop = Stop {
            refusal,
            position: before + 1,
        };
        let file = file(&positions);
        let length = random.below(positions.len() + 1);
        let report = second::report(&file, 2, length);
        assert_eq!(report, Err(stop), "{}", escaped(&file));
        let lent = reporting::Lent::lists(length);
        reporting::hold_to(tally, &file, 2, lent, &Err(stop));
    }
}

// ---------------------------------------------------------------------------
// A total without a use
// ---------------------------------------------------------------------------

/// What the proved engine answers of a table by a question or a few of each call, but for
/// the totals themselves.
#[derive(Debug, PartialEq, Eq)]
struct Answers {
    read: Vec<i64>,
    worth: Vec<i64>,
    judged: Vec<Vec<i64>>,
    found: Vec<(u64, Vec<i64>, Vec<u16>)>,
    index: (u64, Index),
    found_by_index: Vec<(u64, Vec<i64>, Vec<u16>)>,
    rolled: (u64, Vec<i64>, Vec<Record>, Vec<u16>),
    report: reporting::Answer,
    /// Past the totals.
    turned: Vec<u8>,
}

impl Answers {
    fn of(text: &[u8], table: &Table, margins: &[i64]) -> Answers {
        let (nodes, leaves) = (table.nodes.len(), table.leaves);
        let mut read = vec![0; 7];
        let returned = engine::read_into(text, &mut read, &mut [], &mut [], &mut [], &mut []);
        assert_eq!(returned, 0, "{}", escaped(text));
        // T is one of those that may change places.
        read.remove(1);
        let mut worth = vec![0; 2];
        engine::worth(text, &mut worth);
        let judged = (1..4).map(|play| {
            let mut numbers = vec![-7; 3];
            engine::judge(text, play, &mut numbers);
            numbers
        });
        let found = margins.iter().map(|&margin| {
            let (mut list, mut numbers) = (vec![PATTERN; leaves], vec![0; 7]);
            let code = engine::search(text, margin, &mut list, &mut numbers);
            (code, numbers, list)
        });
        let mut index = Index::unbuilt((nodes, nodes));
        let built = engine::index(text, &mut index.lows, &mut index.highs);
        let by_index = margins.iter().map(|&margin| {
            let (mut list, mut numbers) = (vec![PATTERN; leaves], vec![0; 7]);
            let (lows, highs) = (&index.lows, &index.highs);
            let code = engine::search_indexed(text, margin, lows, highs, &mut list, &mut numbers);
            (code, numbers, list)
        });
        let by_index = by_index.collect();
        let mut records = vec![Record::default(); nodes];
        let (mut list, mut numbers) = (vec![PATTERN; leaves], vec![0; 2]);
        let code = engine::rollout(text, &[1, 2], &mut records, &mut list, &mut numbers);
        let position = Position::new(1, text.to_vec());
        Answers {
            read,
            worth,
            judged: judged.collect(),
            found: found.collect(),
            index: (built, index),
            found_by_index: by_index,
            rolled: (code, numbers, records, list),
            report: reporting::proved(&file(&[position]), 1),
            turned: turning::turned(text)[8..].to_vec(),
        }
    }
}

/// On tables with one total, by the proved engine alone: a second total that no C takes
/// changes no answer but the second total itself; nor does it matter which of the two is
/// the first.
#[test]
fn a_total_without_a_use() {
    let mut tally = Tally::new("a total without a use");
    let mut seen = Seen::default();
    for number in 0..4_000 {
        let mut random = Random::of_case(tally.seed, number);
        let text = match number % 3 {
            0 => texts::make(Knobs::chancy, &mut random),
            1 => texts::make(Knobs::dice, &mut random),
            _ => narrowed(&mut random),
        };
        let table = second::read(&text).expect("valid");
        if table.second.is_some() {
            continue;
        }
        let total = table.total;
        let other = 1 + (total + random.between(0, MOST_TOTAL - 2)) % MOST_TOTAL;
        let span = compare::hold::span(&table);
        let margins = [0, 1, random.between(0, span), span / 20, -1];
        let expected = Answers::of(&text, &table, &margins);
        for (first, second) in [(total, other), (other, total)] {
            let mut with_other = text.clone();
            with_other[4..8].copy_from_slice(format!("{second:>2}{first:>2}").as_bytes());
            let answers = Answers::of(&with_other, &table, &margins);
            assert_eq!(answers, expected, "{}\n{}", tally.place(), escaped(&text));
        }
        seen.count("a C", table.chances > 0);
        seen.count("another larger", other > total);
        seen.count("another smaller", other < total);
        tally.add(&[0]);
    }
    tally.report();
    seen.demand(300);
}

// ---------------------------------------------------------------------------
// Answers worked out by hand
// ---------------------------------------------------------------------------

/// A C of each total beside a leaf, never on one path: the first total is 4, the second 3,
/// so a point is 12 grains. The leaf is worth 60, the C of sum 4 (3 × 24 + 96) / 4 = 42, that
/// of sum 3 (2 × 84 + 12) / 3 = 60.
const BESIDE: &str = "\
...8.3.4.......0.......8
...0.M..................
...1.L....0............5
...2.C....0.............
...3.L....2....3.......2
...4.L....2....1.......8
...5.C....0.............
...6.L....5....2.......7
...7.L....5....1.......1
";

/// The C of sum 4 under one of sum 3, again 12 grains: it is worth 42, and the one above
/// it (2 × 42 + 60) / 3 = 48.
const BELOW: &str = "\
...5.3.4.......0.......8
...0.C..................
...1.C....0....2........
...2.L....1....3.......2
...3.L....1....1.......8
...4.L....0....1.......5
";

/// A window through both: the first play is worth 60 grains of 96. The C of sum 3 leads
/// with weight 2 to an N, so that the N's alpha is (60 - 96) × 3 / 2 + 96 = 42.
const THROUGH_BOTH: &str = "\
..10.4.3.......0.......8
...0.M..................
...1.L....0............5
...2.C....0.............
...3.N....2....2........
...4.C....3.............
...5.L....4....3.......6
...6.L....4....1.......4
...7.L....3............3
...8.L....3............4
...9.L....2....1.......8
";

/// A window that is rounded: the first play, of sum 3, is worth (2 × 60 + 72) / 3 = 64
/// grains of 96. The C of sum 4 leads with weight 3 to an N, so that the N's alpha is
/// (64 - 96) × 4 / 3 + 96, which is 53 when it is rounded down.
const ROUNDED: &str = "\
...9.3.4.......0.......8
...0.M..................
...1.C....0.............
...2.L....1....2.......5
...3.L....1....1.......6
...4.C....0.............
...5.N....4....3........
...6.L....5............5
...7.L....5............3
...8.L....4....1.......8
";

const OF_BESIDE: &[Known] = &[
    // The C of sum 4 is 18 to 42 after its first leaf, and is cut as 42 is below 60. That of
    // sum 3 is 56 to 88 after its first leaf: 28 grains above 60.
    ((0, NONE), (60, 60, 1, false), &[1, 3, 6, 7]),
    ((27, NONE), (60, 60, 1, false), &[1, 3, 6, 7]),
    ((28, NONE), (60, 88, 1, false), &[1, 3, 6]),
    ((35, NONE), (60, 88, 1, false), &[1, 3, 6]),
    // The root is cut.
    ((36, NONE), (60, 96, 1, false), &[1]),
    // The second leaf of the C of sum 3 is met unread.
    ((0, 3), (60, 88, 1, true), &[1, 3, 6]),
    // All of that C is.
    ((0, 2), (60, 96, 1, true), &[1, 3]),
];

const OF_BELOW: &[Known] = &[
    // The C below is 18 to 42 after its first leaf: 24 grains; then 42 to 42. The root is 28
    // to 60 after it: 32 grains.
    ((0, NONE), (48, 48, 0, false), &[2, 3, 4]),
    ((23, NONE), (48, 48, 0, false), &[2, 3, 4]),
    // The C below is cut, so the root is 12 to 60 after it: 48 grains; then the leaf adds 20
    // to the low and takes 12 from the high.
    ((24, NONE), (32, 48, 0, false), &[2, 4]),
    ((47, NONE), (32, 48, 0, false), &[2, 4]),
    ((48, NONE), (12, 60, 0, false), &[2]),
    ((0, 1), (12, 60, 0, true), &[2]),
    ((0, 2), (28, 60, 0, true), &[2, 3]),
];

const OF_THROUGH_BOTH: &[Known] = &[
    // The N's window is 42 to 96, and so is that of the C of sum 4 below it, whose bounds
    // are 54 to 78 after its first leaf: 24 grains; then 66 to 66. The N's window is 42 to 66
    // after it: 24 grains; then 42 to 36 after the leaf of 3, so that the N is cut at 0 to
    // 36. The C of sum 3 is 0 to 56 then, and is cut as 56 is below 60.
    ((0, NONE), (60, 60, 1, false), &[1, 5, 6, 7]),
    ((23, NONE), (60, 60, 1, false), &[1, 5, 6, 7]),
    // The C of sum 4 is cut at 54 to 78. The N's window is 42 to 78 after it: 36 grains.
    ((24, NONE), (60, 60, 1, false), &[1, 5, 7]),
    ((35, NONE), (60, 60, 1, false), &[1, 5, 7]),
    // The root is cut.
    ((36, NONE), (60, 96, 1, false), &[1]),
    // The leaf of 3 is met unread: the N is 0 to 66, the C of sum 3 then 0 to 76.
    ((0, 3), (60, 76, 1, true), &[1, 5, 6]),
];

const OF_ROUNDED: &[Known] = &[
    // The N is 36 to 36 and the C above it then 27 to 51, which is cut as 51 is below 64.
    ((0, NONE), (64, 64, 1, false), &[2, 3, 6, 7]),
    // The N's window is 53 to 60 after its first leaf: 7 grains. An alpha of 54, rounded up,
    // would have cut it here; so would one with 3 in place of 4.
    ((6, NONE), (64, 64, 1, false), &[2, 3, 6, 7]),
    // The N is cut at 0 to 60, and the C above it at 0 to 69.
    ((7, NONE), (64, 69, 1, false), &[2, 3, 6]),
    ((31, NONE), (64, 69, 1, false), &[2, 3, 6]),
    // The first play is cut at 40 to 72. The N's alpha is (40 - 96) × 4 / 3 + 96, rounded
    // down 21, and its window 21 to 60.
    ((32, NONE), (40, 72, 1, false), &[2, 6, 7]),
    ((38, NONE), (40, 72, 1, false), &[2, 6, 7]),
    ((39, NONE), (40, 72, 1, false), &[2, 6]),
    ((55, NONE), (40, 72, 1, false), &[2, 6]),
    // The root is cut.
    ((56, NONE), (40, 96, 1, false), &[2]),
    // The N is 0 to 60 as its second leaf is unread, and so is the leaf after it.
    ((0, 3), (64, 69, 1, true), &[2, 3, 6]),
];

/// What is known of these tables.
fn known() -> Vec<(Vec<u8>, Asked, Expected)> {
    budget::known(&[
        (dotted(BESIDE), 12, OF_BESIDE),
        (dotted(BELOW), 12, OF_BELOW),
        (dotted(THROUGH_BOTH), 12, OF_THROUGH_BOTH),
        (dotted(ROUNDED), 12, OF_ROUNDED),
    ])
}

/// The second engine has them, also where the totals change places in the header.
#[test]
fn second_engine_has_the_known_answers() {
    budget::second_has(&known());
    for (mut text, asked, expected) in known() {
        exchange_totals(&mut text);
        budget::second_has(&[(text, asked, expected)]);
    }
}

/// So has the proved engine, whatever the second says.
#[test]
fn examples() {
    let mut all = known();
    for (mut text, asked, expected) in known() {
        exchange_totals(&mut text);
        all.push((text, asked, expected));
    }
    budget::hold_known("searching examples of two totals", &all);

    let mut tally = Tally::new("examples of two totals");
    for (table, known, losses) in [
        (BESIDE, 60, &[0, 18, 0][..]),
        (BELOW, 48, &[]),
        // The second play is worth (2 × 36 + 96) / 3 = 56.
        (THROUGH_BOTH, 60, &[0, 4]),
        // The N is worth 36, and the second play (3 × 36 + 96) / 4 = 51.
        (ROUNDED, 64, &[0, 13]),
    ] {
        let text = dotted(table);
        let read = second::read(&text).expect("accepted");
        let grains = (read.grains, second::worth(&read));
        assert_eq!(grains, (12, known), "{}", escaped(&text));
        let level = losses.iter().filter(|loss| **loss == 0).count();
        for room in 0..=ROOM {
            worth::hold_to(&tally, &text, room, 0, &[known, 12]);
            for (play, &grains) in (1..).zip(losses) {
                let answer = Ok(Judgement::Loss { grains, level });
                judging::hold_to(&tally, &text, play, room, &answer);
            }
        }
        // Both totals stand where they stood.
        let turned = turning::turned(&text);
        assert_eq!(turned[..8], text[..8], "{}", escaped(&turned));
        tally.add(&[0]);
    }
    tally.report();
}

/// Exchanges the totals in columns 5-6 and 7-8.
fn exchange_totals(text: &mut [u8]) {
    let columns = [text[6], text[7], text[4], text[5]];
    text[4..8].copy_from_slice(&columns);
}

/// The totals of a game's first roll and of the others, as an author writes them: fifteen
/// rolls of weight 1 at the root, then the 21 rolls of a later one; every leaf of the first
/// is a point more than the one before it, and the last is a C over 21 leaves of 7.
#[test]
fn opening_rolls() {
    let mut text = format!("{:>4}1536       0      14\n", 1 + 15 + 21);
    text += &format!("   0 C{:>18}\n", "");
    for roll in 1..15 {
        text += &format!("{roll:>4} L    0    1{:>8}\n", roll - 1);
    }
    text += &format!("  15 C    0    1{:>8}\n", "");
    for roll in 0..21 {
        let weight = if roll < 6 { 1 } else { 2 };
        let node = 16 + roll;
        text += &format!("{node:>4} L   15{weight:>5}{:>8}\n", 7);
    }
    let text = text.into_bytes();
    let table = second::read(&text).expect("accepted");
    assert_eq!((table.total, table.second), (36, Some(15)));
    assert_eq!((table.chances, table.grains), (2, 540));
    assert_eq!(
        (table.nodes[0].kind, table.nodes[0].sum),
        (Kind::Chance, 15)
    );
    // 0 to 13 and once 7 are 98 points, a fifteenth of which is 98 × 36 grains.
    assert_eq!(second::worth(&table), 98 * 36);
    let tally = Tally::new("opening rolls");
    worth::hold_to(&tally, &text, 2, 0, &[98 * 36, 540]);
    let expected = Expected::of(&Ok(table), 0, 35);
    let all: Vec<u16> = (1..37).filter(|node| *node != 15).collect();
    assert_eq!(expected.leaves, all);
    searching::hold_to(&tally, &text, 0, 35, ROOM, &expected);

    // The same with 15 first and 36 second.
    let mut other = text.clone();
    exchange_totals(&mut other);
    let expected = Expected::of(&second::read(&other), 0, 35);
    worth::hold_to(&tally, &other, 2, 0, &[98 * 36, 540]);
    searching::hold_to(&tally, &other, 0, 35, ROOM, &expected);
    assert_eq!(other.len(), LINE * 38);
}
