//! The index of ends and the search that is lent one (document 02, Item 14), held to the
//! second engine, to the search without an index where the two must agree, and to answers
//! worked out by hand.
//!
//! The environment variable SEED sets the seed of the random texts, CASES their number.

use compare::engine;
use compare::hold::indexed::{
    count_others, count_sums, expected, hold_built, hold_to, some_margins, turning_points, Built,
    Comparison, Index, ENTRY,
};
use compare::hold::numbers::ROOM;
use compare::hold::searching::{self, count_tests, margins_by, Expected, PATTERN};
use compare::hold::seen::Seen;
use compare::hold::span;
use compare::hold::sums::beside;
use compare::hold::tally::{say, Tally, OF_GRAINS, OF_TABLES};
use compare::hold::totals::on_one_path;
use compare::random::{number_from_environment, Random};
use compare::second::{
    self, ends_under, Bounds, Kind, Refusal, Rounding, Scale, Table, Terms, GREATEST_MARGIN,
    MOST_NODES,
};
use compare::texts;
use compare::texts::broken::broken;
use compare::texts::examples::*;
use compare::texts::knobs::{Kinds, Knobs, Order, Utilities, Weights};
use compare::texts::parts::in_parts;
use compare::texts::small::{for_each, six_nodes};
use compare::texts::ties::alike;
use compare::texts::totals::Plan;
use compare::texts::windows::narrowed;
use compare::texts::{largest, put_utility};

// ---------------------------------------------------------------------------
// Random texts
// ---------------------------------------------------------------------------

/// A text of any sort; some that are valid have their utilities by parts of the scale.
fn any_text(number: u64, random: &mut Random) -> Vec<u8> {
    let setting: fn(&mut Random) -> Knobs = match number % 16 {
        0 => Knobs::close,
        1 => Knobs::dice,
        2 => Knobs::ties,
        3 => Knobs::forced,
        4 => Knobs::narrow,
        5 => Knobs::position,
        6 => Knobs::chancy,
        7 => Knobs::any,
        _ => return texts::case(random).text,
    };
    let text = texts::make(setting, random);
    match random.one_in(2) {
        true => in_parts(text, random),
        false => text,
    }
}

/// The main comparison, by both calls. It also fails where the texts, the calls or the
/// answers were too much alike to mean anything.
#[test]
fn random_texts() {
    let mut comparison = Comparison::new(
        "indexing random texts",
        "searching random texts with an index",
    );
    let mut tests = Seen::default();
    let cases = number_from_environment("CASES", 36_000);
    for number in 0..cases {
        let mut random = comparison.case(number);
        let text = any_text(number, &mut random);
        let mut chosen = 0;
        let table = comparison.hold(&text, &mut random, |table, random| match table {
            Some(table) => {
                let margins = margins_by(random, table, Terms::indexed);
                let some: Vec<i64> = (0..5).map(|_| random.pick(&margins)).collect();
                chosen = some[0];
                some
            }
            // The refusal is the same for every margin, so two will do.
            None => vec![
                random.pick(&[0, 1, -1, i64::MIN, i64::MAX]),
                random.bits() as i64,
            ],
        });
        if let Ok(table) = table {
            count_tests(&mut tests, &table, Terms::indexed(chosen));
        }
    }
    for tally in [&comparison.building, &comparison.searching] {
        tally.report();
        tally.demand_refusals(&OF_TABLES);
        tally.demand_refusals(&OF_GRAINS);
        tally.demand_refusals(&[11]);
        tally.demand_two_totals();
        assert!(tally.cases >= 20_000, "only {} texts", tally.cases);
    }
    comparison.searching.demand_refusals(&[12, 22]);
    let answers = comparison.searching.counts[0];
    assert!(answers >= 40_000, "only {answers} answers");
    comparison.lists.demand(100);
    comparison.calls.demand(100);
    comparison.of_refused.demand(100);
    // There is no promise that more leaves are ever read than without an index, or that none
    // are.
    let answers = &comparison.answers;
    answers.demand_but(300, |sort| sort == "more leaves");
    tests.demand(500);
}

// ---------------------------------------------------------------------------
// Small tables and large ones
// ---------------------------------------------------------------------------

/// Every table of up to six nodes over a few entries; each leaf is worth -1 or 2, neither of
/// which is an end, and T is 2.
#[test]
fn every_small_table() {
    let mut comparison = Comparison::new(
        "indexing every small table",
        "searching every small table with an index",
    );
    let mut random = Random::new(comparison.searching.seed);
    for_each((-2, 4), &six_nodes(&["-1", "2"]), &mut |text| {
        let table = match second::read(text) {
            Ok(table) => table,
            // Refused texts are compared in other tests.
            Err(refusal) => return matches!(refusal.number, 8 | 9),
        };
        let span = 3 * table.grains;
        let margins = vec![0, span / 3, span / 2, span - 1, span];
        let held = comparison.hold(text, &mut random, |_, _| margins);
        held.is_ok()
    });
    comparison.building.report();
    comparison.searching.report();
    let answers = comparison.searching.counts[0];
    assert!(answers >= 15_000, "only {answers} answers");
}

/// Tables of 1,024 lines, T 64 and the widest ends, and some by parts of the scale.
#[test]
fn largest_tables() {
    let mut comparison = Comparison::new(
        "indexing the largest tables",
        "searching the largest tables with an index",
    );
    let mut texts = largest::four_chances();
    texts.extend([b'M', b'N'].map(largest::all_read));
    for number in 0..90 {
        let mut random = comparison.case(number);
        let knobs = Knobs::largest(&mut random);
        let uniform = Knobs {
            utilities: Utilities::Uniform,
            ..knobs.clone()
        };
        let text = uniform.text(&mut random);
        texts.extend([knobs.text(&mut random), in_parts(text, &mut random)]);
        if number % 10 == 0 {
            let flat = Knobs::largest_flat(b"MN", &mut random);
            texts.push(flat.text(&mut random));
            texts.push(texts::make(Knobs::largest_chains, &mut random));
        }
    }
    for (number, text) in (1_000..).zip(&texts) {
        let mut random = comparison.case(number);
        let table = comparison.hold(text, &mut random, |table, random| {
            margins_by(random, table.expect("a valid table"), Terms::indexed)
        });
        assert_eq!(table.expect("valid").nodes.len(), MOST_NODES);
    }
    comparison.building.report();
    comparison.searching.report();
    for sort in ["fewer leaves than without an index", "other unread leaves"] {
        let count = comparison.answers.of(sort);
        assert!(count >= 100, "{sort} came only {count} times");
    }
}

// ---------------------------------------------------------------------------
// Margins at which a cut test turns
// ---------------------------------------------------------------------------

/// Every margin at which a cut test just cuts, and those one grain beside it, on tables where
/// much hangs on the windows below C, of both totals in many. It fails where other rounding,
/// or another way with the ends, would have changed too few answers.
#[test]
fn windows_below_chance_nodes() {
    let mut comparison = Comparison::new(
        "indexing tables with narrow windows",
        "searching in narrow windows with an index",
    );
    let (mut others, mut of_both) = (Seen::default(), Seen::default());
    let (mut tests, mut sums) = (Seen::default(), Seen::default());
    for number in 0..4_000 {
        let mut random = comparison.case(number);
        let text = narrowed(&mut random);
        let table = second::read(&text).expect("valid");
        let margins = turning_points(&table).into_iter().flat_map(beside);
        let margins: Vec<i64> = margins.collect();
        for &margin in &margins {
            count_others(&mut others, "narrow windows", &table, margin);
            if on_one_path(&table) {
                count_others(&mut of_both, "both totals", &table, margin);
                count_sums(&mut sums, "both totals", &table, margin);
            }
            count_tests(&mut tests, &table, Terms::indexed(margin));
        }
        let held = comparison.hold(&text, &mut random, |_, _| margins);
        held.expect("valid");
    }
    comparison.searching.report();
    comparison.searching.demand_two_totals();
    // About half of what the usual seed gives, or less, here and below.
    others.demand(500);
    of_both.demand(150);
    sums.demand(500);
    tests.demand(500);
}

/// Some of these margins on tables of other sorts.
#[test]
fn cut_tests() {
    let mut comparison = Comparison::new(
        "indexing tables with chosen margins",
        "searching where a line is just cut with an index",
    );
    let (mut others, mut tests) = (Seen::default(), Seen::default());
    for number in 0..5_000 {
        let mut random = comparison.case(number);
        let text = match number % 5 {
            0 => texts::make(Knobs::position, &mut random),
            1 => texts::make(Knobs::chancy, &mut random),
            2 => alike(&mut random),
            3 => Plan::any(&mut random).text(&mut random),
            _ => narrowed(&mut random),
        };
        let (sort, text) = match random.one_in(2) {
            true => ("by parts", in_parts(text, &mut random)),
            false => ("any", text),
        };
        let table = second::read(&text).expect("valid");
        let points = turning_points(&table);
        let margins = some_margins(&mut random, &table, &points);
        for &margin in &margins {
            count_others(&mut others, sort, &table, margin);
            count_tests(&mut tests, &table, Terms::indexed(margin));
        }
        let held = comparison.hold(&text, &mut random, |_, _| margins);
        held.expect("valid");
    }
    comparison.searching.report();
    comparison.searching.demand_two_totals();
    // Windows that decide are rare in these tables, and demanded in those with narrow windows.
    others.demand_by(|sort| match sort {
        _ if sort.contains("rounded") => 0,
        _ if sort.ends_with("the child's ends in windows") => 20,
        _ => 200,
    });
    tests.demand(500);
}

// ---------------------------------------------------------------------------
// Next to the search without an index
// ---------------------------------------------------------------------------

/// Where the ends under every line are the table's, the index changes nothing: the proved
/// engine answers by both searches alike, in every part.
#[test]
fn lines_with_the_tables_ends() {
    let mut tally = Tally::new("searching where all lines have the table's ends");
    let mut seen = Seen::default();
    for number in 0..3_000 {
        let mut random = Random::of_case(tally.seed, number);
        let text = all_alike(&mut random);
        let table = second::read(&text).expect("valid");
        let index = Index::of(&table);
        let whole = Bounds {
            low: table.lowest,
            high: table.highest,
        };
        let ends = ends_under(&table).into_iter().zip(&table.nodes);
        let mut inner = ends.filter(|(_, node)| node.kind != Kind::Leaf);
        assert!(inner.all(|(ends, _)| ends == whole), "{}", escaped(&text));
        let rooms = (table.leaves, ROOM);
        for margin in margins_by(&mut random, &table, Terms::of) {
            let plain = Expected::by(Ok(&table), Terms::of(margin), table.leaves);
            let with = expected(Ok(&table), margin, &index, table.leaves);
            assert_eq!(with, plain, "margin {margin}\n{}", escaped(&text));
            searching::hold_to(&tally, &text, margin, table.leaves, ROOM, &plain);
            hold_to(&tally, &text, margin, &index, rooms, &plain);
            let read = plain.leaves.len();
            seen.count("leaves unread", plain.answer.is_ok() && read < table.leaves);
            seen.count("all leaves read", read == table.leaves);
        }
        seen.count_root(&[Kind::Max, Kind::Min, Kind::Chance], &table);
        seen.count_chances(&table);
        tally.add(&[0]);
    }
    tally.report();
    seen.demand(100);
}

/// A table in which every line but leaves has both ends of the table under it.
fn all_alike(random: &mut Random) -> Vec<u8> {
    let children = 2 + random.below(3);
    let levels = random.between(1, 4) as u32;
    let total = random.between(children as i64, 12);
    let lowest = random.between(-100, 100);
    let kinds = Kinds::either(random.pick(&[0, 2, 3]));
    let knobs = Knobs {
        totals: vec![total],
        ends: (lowest, lowest + random.pick(&[1, 3, 10, 1_000])),
        utilities: Utilities::Spread,
        root: kinds,
        inner: kinds,
        order: Order::Any,
        weights: Weights::Any,
        ..Knobs::even(children, levels)
    };
    let mut text = knobs.text(random);
    let table = second::read(&text).expect("valid");
    for (node, line) in table.nodes.iter().enumerate() {
        // The leaves of a line come one after the other.
        if line.kind != Kind::Leaf && line.stop == node + 1 + children {
            let first = random.below(children);
            let other = (first + 1 + random.below(children - 1)) % children;
            put_utility(&mut text, node + 1 + first, table.lowest);
            put_utility(&mut text, node + 1 + other, table.highest);
        }
    }
    text
}

/// How many leaves are read with an index and without one, by the proved engine, on positions
/// whose lines use a small part of the scale and on others, at margins from none to a tenth
/// of the scale.
#[test]
fn leaves_read() {
    let mut tally = Tally::new("leaves read with an index and without");
    let mut seen = Seen::default();
    for number in 0..3_000 {
        let mut random = Random::of_case(tally.seed, number);
        let text = match random.below(3) {
            0 => texts::make(Knobs::position, &mut random),
            1 => texts::make(Knobs::any, &mut random),
            _ => texts::make(Knobs::dice, &mut random),
        };
        let (sort, text) = match number % 2 {
            0 => ("by parts", in_parts(text, &mut random)),
            _ => ("any", text),
        };
        let table = second::read(&text).expect("valid");
        let span = span(&table);
        for margin in [0, span / 100, span / 10] {
            let with = read_with_index(&text, &table, margin);
            let (mut list, mut numbers) = (vec![PATTERN; table.leaves], [0; 7]);
            let code = engine::search(&text, margin, &mut list, &mut numbers);
            assert_eq!(code, 0, "{}", escaped(&text));
            let without = numbers[3];
            for (more, is_so) in [
                ("fewer", with < without),
                ("as many", with == without),
                ("more", with > without),
            ] {
                seen.count(&format!("{sort}: {more} leaves"), is_so);
            }
            seen.add(&format!("{sort}: all with an index"), with as u64);
            seen.add(&format!("{sort}: all without"), without as u64);
        }
        tally.add(&[0]);
    }
    tally.report();
    // More leaves are rare, but there is no promise that there are none.
    seen.demand_but(500, |sort| sort.ends_with("more leaves"));
}

/// How many leaves the proved engine reads with the index that it builds.
fn read_with_index(text: &[u8], table: &Table, margin: i64) -> i64 {
    let nodes = table.nodes.len();
    let Index {
        mut lows,
        mut highs,
    } = Index::unbuilt((nodes, nodes));
    assert_eq!(engine::index(text, &mut lows, &mut highs), 0);
    let (mut list, mut numbers) = (vec![PATTERN; table.leaves], [0; 7]);
    let code = engine::search_indexed(text, margin, &lows, &highs, &mut list, &mut numbers);
    assert_eq!(code, 0, "{}", escaped(text));
    numbers[3]
}

// ---------------------------------------------------------------------------
// The second engine alone
// ---------------------------------------------------------------------------

/// Its index is the least and the greatest of all utilities in a line's run.
#[test]
fn second_engine_looks_at_every_leaf() {
    for number in 0..2_000 {
        let mut random = Random::of_case(1, number);
        let text = texts::make(Knobs::any, &mut random);
        let table = second::read(&text).expect("valid");
        let index = Index::of(&table);
        for (node, line) in table.nodes.iter().enumerate() {
            let run = &table.nodes[node + 1..line.stop];
            let utilities = || run.iter().filter_map(|line| line.utility);
            let ends = (utilities().min(), utilities().max());
            let entry = (index.lows[node], index.highs[node]);
            match ends {
                (Some(low), Some(high)) => assert_eq!(entry, (low, high)),
                _ => assert_eq!(entry, (ENTRY, ENTRY)),
            }
        }
    }
}

/// A new alpha is at most the C's greatest value, a new beta at least its least, where the
/// window that the C is handed lies to one side of its ends. No answer hangs on it.
#[test]
fn second_engine_limits_windows() {
    let scale = Scale {
        least: 2,
        greatest: 8,
        total: 2,
        rounding: Rounding::Outward,
    };
    // As in the play to one side, below: (14 - 8) × 2 / 1 + 8 is 20.
    assert_eq!(scale.alpha_below(1, 14, 8), 8);
    assert_eq!(scale.beta_below(1, 18, 2), 8);
    // And (-4 - 2) × 2 / 1 + 2 is -10.
    assert_eq!(scale.beta_below(1, -4, 2), 2);
    assert_eq!(scale.alpha_below(1, -8, 8), 2);
    // Within the ends: (7 - 8) × 2 / 1 + 8, and (3 - 2) × 2 / 1 + 2.
    assert_eq!(scale.alpha_below(1, 7, 8), 6);
    assert_eq!(scale.beta_below(1, 3, 2), 4);
}

// ---------------------------------------------------------------------------
// Answers worked out by hand
// ---------------------------------------------------------------------------

/// Document 01's figure for an alpha below a C, between other ends: the first play is 21 to
/// 21 grains, and the second has the ends 12 and 32, so that the N of weight 3 in it has the
/// alpha 17.
const ALPHA_BELOW: &str = "\
...9...4....-100.....100
...0.M..................
...1.C....0.............
...2.L....1....3.......4
...3.L....1....1.......9
...4.C....0.............
...5.N....4....3........
...6.L....5............5
...7.L....5............3
...8.L....4....1.......8
";

/// A play that lies below the first one, whatever it comes to, and one above all.
const TO_ONE_SIDE: &str = "\
...8...2.......0......10
...0.M..................
...1.L....0............7
...2.C....0.............
...3.N....2....1........
...4.L....3............3
...5.L....3............4
...6.L....2....1.......1
...7.L....0............9
";

/// A C of sum 4 under one of sum 3: a point is 12 grains.
const BELOW: &str = "\
...5.3.4.......0.......9
...0.C..................
...1.C....0....2........
...2.L....1....3.......2
...3.L....1....1.......8
...4.L....0....1.......5
";

/// The ends of each line but leaves, by node number, in points.
type Lines = &'static [(usize, i64, i64)];

/// An answer in short: the margin; low, high and the play's node; and the leaves read.
type Known = (i64, (i64, i64, usize), &'static [u16]);

/// Tables, with their grains in a point, their indexes and what must come of them.
const KNOWN: [(&str, i64, Lines, &[Known]); 6] = [
    (
        TABLE_A,
        1,
        &[(0, 2, 9), (1, 3, 5), (4, 2, 9)],
        &[
            // The first N is cut after its leaf of 3, its own least value: 3 to 3. The second
            // is cut after its leaf of 2, also its least value.
            (0, (3, 3, 1), &[2, 5]),
            (5, (3, 3, 1), &[2, 5]),
            // The root's window is 3 to 9 after the first N.
            (6, (3, 9, 1), &[2]),
            (10, (3, 9, 1), &[2]),
        ],
    ),
    (
        TABLE_B,
        4,
        &[(0, 2, 8), (2, 2, 8)],
        &[
            // The C is 8 to 14 after its first leaf, and is cut as 14 is below 20.
            (0, (20, 20, 1), &[1, 3]),
            (11, (20, 20, 1), &[1, 3]),
            (12, (20, 32, 1), &[1]),
        ],
    ),
    (
        ALPHA_BELOW,
        4,
        &[(0, 3, 9), (1, 4, 9), (4, 3, 8), (5, 3, 5)],
        &[
            // The first play is 16 to 21 after its first leaf: 5 grains; then 21 to 21. The
            // N's alpha is (21 - 32) × 4 / 3 + 32, rounded down 17. The N is 12 to 12 and the
            // C above it then 12 to 17, which is cut as 17 is below 21.
            (0, (21, 21, 1), &[2, 3, 6, 7]),
            // The N's window is 17 to 20 after its first leaf: 3 grains. An alpha of 18,
            // rounded up, would have cut it here. With the N's greatest value, 20, in place of
            // the C's, alpha would be 12, and the N not be cut at margin 3.
            (2, (21, 21, 1), &[2, 3, 6, 7]),
            // The N is cut at 12 to 20, and the C above it at 12 to 23.
            (3, (21, 23, 1), &[2, 3, 6]),
            (4, (21, 23, 1), &[2, 3, 6]),
            // The first play is cut at 16 to 21. The N's alpha is 12 then, the C's least
            // value, and its window 12 to 20: 8 grains.
            (5, (16, 21, 1), &[2, 6, 7]),
            (7, (16, 21, 1), &[2, 6, 7]),
            (8, (16, 23, 1), &[2, 6]),
            (19, (16, 23, 1), &[2, 6]),
            // The root is cut: its greatest value is 36.
            (20, (16, 36, 1), &[2]),
        ],
    ),
    (
        TO_ONE_SIDE,
        2,
        &[(0, 1, 9), (2, 1, 4), (3, 3, 4)],
        &[
            // The C's window is 14 to 18, and its ends are 2 and 8. The N's window is then 8
            // to 8, so that it is cut after its first leaf, at 6 to 6; the C is 4 to 7 and cut
            // too. The last leaf is 18.
            (0, (18, 18, 7), &[1, 4, 7]),
            (3, (18, 18, 7), &[1, 4, 7]),
            // The root is cut: its greatest value is 18.
            (4, (14, 18, 1), &[1]),
        ],
    ),
    (
        BELOW,
        12,
        &[(0, 2, 8), (1, 2, 8)],
        &[
            // The C below is 24 to 42 after its first leaf: 18 grains; then 42 to 42. The root
            // is 36 to 60 after it: 24 grains.
            (0, (48, 48, 0), &[2, 3, 4]),
            (17, (48, 48, 0), &[2, 3, 4]),
            // The C below is cut, so the root is 24 to 60 after it: 36 grains.
            (18, (36, 48, 0), &[2, 4]),
            (35, (36, 48, 0), &[2, 4]),
            (36, (24, 60, 0), &[2]),
        ],
    ),
    (
        LONE_LEAF,
        1,
        &[],
        &[(0, (7, 7, 0), &[0]), (GREATEST_MARGIN, (7, 7, 0), &[0])],
    ),
];

/// A table, its index, and margins with what must come of them.
struct Example {
    text: Vec<u8>,
    index: Index,
    answers: Vec<(i64, Expected)>,
}

/// The known ones, each also turned.
fn known() -> Vec<Example> {
    let mut all = Vec::new();
    for (table, grains, lines, answers) in KNOWN {
        let text = dotted(table);
        let nodes = text.len() / second::LINE - 1;
        let mut index = Index::unbuilt((nodes, nodes));
        let mut turned_index = index.clone();
        for &(node, low, high) in lines {
            (index.lows[node], index.highs[node]) = (low, high);
            (turned_index.lows[node], turned_index.highs[node]) = (-high, -low);
        }
        let answers = answers.iter().map(|&(margin, (low, high, play), leaves)| {
            (margin, Expected::known(low, high, play, leaves, grains))
        });
        let answers: Vec<(i64, Expected)> = answers.collect();
        let mut turned = text.clone();
        second::turn(&text, &mut turned).expect("a valid table");
        let mirrored = answers
            .iter()
            .map(|(margin, known)| (*margin, known.turned()));
        all.push(Example {
            text: turned,
            index: turned_index,
            answers: mirrored.collect(),
        });
        all.push(Example {
            text,
            index,
            answers,
        });
    }
    all
}

#[test]
fn second_engine_has_the_known_answers() {
    for Example {
        text,
        index,
        answers,
    } in known()
    {
        let table = second::read(&text).expect("accepted");
        assert_eq!(Index::of(&table), index, "{}", escaped(&text));
        for (margin, known) in answers {
            let got = expected(Ok(&table), margin, &index, table.leaves);
            assert_eq!(got, known, "margin {margin}\n{}", escaped(&text));
        }
    }
}

/// The proved engine has them, whatever the second says, with lists and numbers of all
/// lengths.
#[test]
fn examples() {
    let mut comparison = Comparison::new("indexing examples", "searching examples with an index");
    let mut random = Random::new(1);
    for Example {
        text,
        index,
        answers,
    } in known()
    {
        let built = Built {
            answer: Ok(()),
            index: index.clone(),
        };
        hold_built(&comparison.building, &text, &built);
        let leaves = second::read(&text).expect("accepted").leaves;
        for (margin, known) in &answers {
            for room in leaves..leaves + 3 {
                for numbers in 0..=ROOM {
                    let tally = &comparison.searching;
                    hold_to(tally, &text, *margin, &index, (room, numbers), known);
                }
            }
        }
        let margins = answers.iter().map(|(margin, _)| *margin).collect();
        let held = comparison.hold(&text, &mut random, |_, _| margins);
        held.expect("accepted");
    }
    comparison.searching.report();
}

// ---------------------------------------------------------------------------
// Refusals
// ---------------------------------------------------------------------------

/// Tables with lines of every kind, whose leaves stand first, last and between others; and a
/// lone leaf.
fn small_tables() -> Vec<Vec<u8>> {
    vec![
        dotted(TABLE_A),
        dotted(TABLE_B_TURNED),
        dotted(THREE_PLAYS),
        table_b_under_chance(),
        dotted(FORCED_LEAF),
        dotted(LONE_LEAF),
    ]
}

/// A refusal that has no line.
fn refused(number: u8) -> Expected {
    Expected::refused(Refusal { number, line: 0 })
}

/// 22 comes before 12, and 12 before 11; a table is refused before all three, and before 11
/// of building. What is refused is worked out here and not by the second engine.
#[test]
fn refusals_in_sequence() {
    let mut building = Tally::new("indexes refused in sequence");
    let mut searching = Tally::new("searches with an index refused in sequence");
    let margins = [0, 12, GREATEST_MARGIN, GREATEST_MARGIN + 1, -1, i64::MIN];
    for text in small_tables() {
        let table = second::read(&text).expect("accepted");
        let (nodes, leaves) = (table.nodes.len(), table.leaves);
        let own = Index::of(&table);
        for lows in 0..=nodes + 1 {
            for highs in 0..=nodes + 1 {
                let short = lows.min(highs) < nodes;
                let mut index = own.clone();
                index.lows.resize(lows, 0);
                index.highs.resize(highs, 0);
                let built = match short {
                    true => Built {
                        answer: Err(Refusal {
                            number: 11,
                            line: 0,
                        }),
                        index: Index::unbuilt((lows, highs)),
                    },
                    false => {
                        let mut index = own.clone();
                        index.lows.resize(lows, ENTRY);
                        index.highs.resize(highs, ENTRY);
                        let answer = Ok(());
                        Built { answer, index }
                    }
                };
                hold_built(&building, &text, &built);
                building.add(&[u64::from(11 * u8::from(short))]);
                for margin in margins {
                    for room in 0..=leaves {
                        let number = match short {
                            true => 22,
                            false if !(0..=GREATEST_MARGIN).contains(&margin) => 12,
                            false if room < leaves => 11,
                            false => continue,
                        };
                        let expected = refused(number);
                        hold_to(&searching, &text, margin, &index, (room, ROOM), &expected);
                        searching.add(&[u64::from(number)]);
                    }
                }
            }
        }
    }
    for (text, number, line) in refused_examples() {
        let refusal = Refusal { number, line };
        let expected = Expected::refused(refusal);
        for lengths in [(0, 0), (0, MOST_NODES), (MOST_NODES, MOST_NODES)] {
            let index = Index::unbuilt(lengths);
            for margin in margins {
                for lent in [(0, ROOM), (MOST_NODES, 7)] {
                    hold_to(&searching, &text, margin, &index, lent, &expected);
                }
            }
            let answer = Err(refusal);
            hold_built(&building, &text, &Built { answer, index });
        }
        building.add(&[u64::from(number)]);
        searching.add(&[u64::from(number)]);
    }
    building.report();
    searching.report();
    building.demand_refusals(&[11]);
    searching.demand_refusals(&[11, 12, 22]);
}

/// Texts that are wrong in one known way each: what is refused, and at which line, is known
/// from how they were made. No margin, no list and no index changes that.
#[test]
fn broken_texts() {
    let mut building = Tally::new("indexing broken texts");
    let mut searching = Tally::new("searching broken texts with an index");
    for number in 0..150 {
        for of in OF_TABLES.iter().chain(&OF_GRAINS) {
            let mut random = Random::of_case(building.seed, number);
            let (text, refusal) = broken(*of as u8, &mut random);
            assert_eq!(second::read(&text), Err(refusal), "{}", escaped(&text));
            let any = [0, 1, random.below(100), MOST_NODES];
            let lengths = (random.pick(&any), random.pick(&any));
            let index = Index::unbuilt(lengths);
            let rooms = (random.pick(&any), random.below(ROOM + 1));
            let margin = random.pick(&[0, 1, -1, GREATEST_MARGIN + 1]);
            let refused = Expected::refused(refusal);
            hold_to(&searching, &text, margin, &index, rooms, &refused);
            let answer = Err(refusal);
            hold_built(&building, &text, &Built { answer, index });
            building.add(&[u64::from(refusal.number)]);
            searching.add(&[u64::from(refusal.number)]);
        }
    }
    for tally in [&building, &searching] {
        tally.report();
        tally.demand_refusals(&OF_TABLES);
        tally.demand_refusals(&OF_GRAINS);
    }
}

/// Each entry of an index off by one, in either list and to either side: a leaf's is not
/// compared, and every other is refused 22, whatever the margin and the list.
#[test]
fn every_entry_off_by_one() {
    let mut tally = Tally::new("every entry of an index off by one");
    let mut accepted = 0;
    let mut texts = small_tables();
    for number in 0..40 {
        let mut random = Random::of_case(tally.seed, number);
        let knobs = Knobs {
            nodes: 60,
            ..Knobs::chancy(&mut random)
        };
        texts.push(knobs.text(&mut random));
    }
    for text in &texts {
        let table = second::read(text).expect("accepted");
        let own = Index::of(&table);
        let right = expected(Ok(&table), 0, &own, table.leaves);
        for (node, line) in table.nodes.iter().enumerate() {
            for (in_lows, by) in [(true, 1), (true, -1), (false, 1), (false, -1)] {
                let mut index = own.clone();
                let list = match in_lows {
                    true => &mut index.lows,
                    false => &mut index.highs,
                };
                list[node] += by;
                let leaf = line.kind == Kind::Leaf;
                for (margin, room) in [(0, table.leaves), (-1, table.leaves), (0, 0)] {
                    let expected = match (leaf, margin, room) {
                        (false, _, _) => &refused(22),
                        (true, 0, 0) => &refused(11),
                        (true, 0, _) => &right,
                        (true, _, _) => &refused(12),
                    };
                    hold_to(&tally, text, margin, &index, (room, ROOM), expected);
                    let code = compare::hold::code(&expected.answer);
                    tally.add(&[code]);
                    accepted += u64::from(code == 0);
                }
            }
        }
    }
    tally.report();
    say(&format!("{accepted} with a leaf's entry off accepted"));
    tally.demand_refusals(&[11, 12, 22]);
    assert!(accepted >= 1_000, "only {accepted} accepted");
}
