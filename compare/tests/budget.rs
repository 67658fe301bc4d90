//! The search with a leaf budget (document 02, Item 3), held to the second engine, to
//! the search without a budget, and to answers worked out by hand.
//!
//! The environment variable SEED sets the seed of the random texts, CASES their
//! number.

use compare::hold::budget::{
    self, hold_to, no_budget, questions, turning_points, Asked, Comparison, Known, AFTER_UNREAD,
};
use compare::hold::numbers::ROOM;
use compare::hold::searching::{Expected, OTHER_ROUNDINGS};
use compare::hold::seen::Seen;
use compare::hold::span;
use compare::hold::tally::{OF_GRAINS, OF_TABLES};
use compare::hold::ties::{self, AWAY, BEHIND};
use compare::random::{number_from_environment, Random};
use compare::second::{
    self, Kind, Refusal, Rounding, Table, Terms, GREATEST_BUDGET, GREATEST_MARGIN, MOST_NODES,
};
use compare::texts::examples::*;
use compare::texts::knobs::Knobs;
use compare::texts::small::{for_each, six_nodes};
use compare::texts::windows::narrowed;
use compare::texts::{self, largest};

// ---------------------------------------------------------------------------
// Random texts
// ---------------------------------------------------------------------------

/// The main comparison. It also fails where the texts, the calls or the answers were
/// too much alike to mean anything.
#[test]
fn random_texts() {
    let mut comparison = Comparison::new("searching random texts within a budget");
    let cases = number_from_environment("CASES", 50_000);
    for number in 0..cases {
        let mut random = Random::of_case(comparison.tally.seed, number);
        let text = match number % 10 {
            0 => texts::make(Knobs::close, &mut random),
            1 => texts::make(Knobs::dice, &mut random),
            2 | 3 => texts::make(Knobs::any, &mut random),
            4 => texts::make(Knobs::ties, &mut random),
            5 => texts::make(Knobs::forced, &mut random),
            _ => texts::case(&mut random).text,
        };
        let _ = comparison.hold(&text, &mut random, |table, random| match table {
            Some(table) => questions(random, table, 5),
            // The refusal is the same for all, so two will do.
            None => vec![
                Asked {
                    margin: random.pick(&[0, -1, i64::MAX]),
                    budget: random.pick(&[0, 1, -1, i64::MIN, i64::MAX]),
                },
                Asked {
                    margin: random.bits() as i64,
                    budget: no_budget(random),
                },
            ],
        });
    }
    comparison.tally.report();
    comparison.calls.demand(100);
    comparison.of_refused.demand(1_000);
    // The chosen tables below have those that are spared.
    let answers = &comparison.answers;
    answers.demand_but(200, |sort| sort.ends_with(AFTER_UNREAD));
    comparison.tally.demand_refusals(&OF_TABLES);
    comparison.tally.demand_refusals(&OF_GRAINS);
    comparison.tally.demand_two_totals();
    comparison.tally.demand_refusals(&[11, 12, 17]);
    let answers = comparison.tally.counts[0];
    assert!(answers >= 50_000, "only {answers} answers");
}

// ---------------------------------------------------------------------------
// Small tables and large ones
// ---------------------------------------------------------------------------

/// Every table of up to six nodes over a few entries, with every budget up to one
/// more than its leaves; each leaf is worth -1 or 2, and T is 2. Plays that tie are
/// counted too (Item 6).
#[test]
fn every_small_table() {
    let mut comparison = Comparison::new("searching every small table within every budget");
    let mut random = Random::new(comparison.tally.seed);
    let mut tied = Seen::default();
    for_each((-1, 2), &six_nodes(&["-1", "2"]), &mut |text| {
        let table = match second::read(text) {
            Ok(table) => table,
            // Refused texts are compared in other tests.
            Err(refusal) => return matches!(refusal.number, 8 | 9),
        };
        let span = span(&table);
        let margins = [0, span / 3, span / 2, span - 1, span];
        let budgets = 0..=table.leaves as i64 + 1;
        let pairs = margins.map(|margin| {
            let asked = |budget| Asked { margin, budget };
            budgets.clone().map(asked).collect::<Vec<_>>()
        });
        let pairs = pairs.concat();
        for asked in &pairs {
            ties::hold(&mut tied, &table, asked.terms());
        }
        comparison.hold(text, &mut random, |_, _| pairs).is_ok()
    });
    comparison.tally.report();
    // No bounds but the ends, or too few plays, for those that are spared.
    tied.demand_but(300, |sort| {
        [AWAY, BEHIND].iter().any(|spared| sort.starts_with(spared))
    });
    let answers = &comparison.answers;
    answers.demand_but(10, |sort| sort.ends_with(AFTER_UNREAD));
    let answers = comparison.tally.counts[0];
    assert!(answers >= 100_000, "only {answers} answers");
}

/// Tables of 1,024 lines, T 64 and the widest ends.
#[test]
fn largest_tables() {
    let mut comparison = Comparison::new("searching the largest tables within a budget");
    let mut texts = largest::four_chances();
    texts.extend([b'M', b'N'].map(largest::all_read));
    for number in 0..150 {
        let mut random = Random::of_case(comparison.tally.seed, number);
        texts.push(texts::make(Knobs::largest, &mut random));
        if number % 10 == 0 {
            let flat = Knobs::largest_flat(b"MN", &mut random);
            texts.push(flat.text(&mut random));
            texts.push(texts::make(Knobs::largest_chains, &mut random));
        }
    }
    for (number, text) in (1_000..).zip(&texts) {
        let mut random = Random::of_case(comparison.tally.seed, number);
        let table = comparison.hold(text, &mut random, |table, random| {
            questions(random, table.expect("a valid table"), 10)
        });
        assert_eq!(table.expect("valid").nodes.len(), MOST_NODES);
    }
    comparison.tally.report();
    for sort in ["spent", "not spent", "bounds wider than the margin"] {
        let count = comparison.answers.of(sort);
        assert!(count >= 100, "{sort} came only {count} times");
    }
    let answers = comparison.tally.counts[0];
    assert!(answers >= 1_000, "only {answers} answers");
}

// ---------------------------------------------------------------------------
// Reads that end in the middle of a C
// ---------------------------------------------------------------------------

/// Budgets that end in the middle of a C, so that ends stand in its sums, each with
/// the margins at which a cut test just cuts, and those beside them: there a test that
/// is off by one shows, and so does a window rounded the wrong way. It fails where such
/// tests were too few, or where other rounding would have changed too few answers.
#[test]
fn reads_that_end_in_a_chance_node() {
    let mut comparison = Comparison::new("searching until reads end in a C");
    let mut roundings = Seen::default();
    for number in 0..6_000 {
        let mut random = Random::of_case(comparison.tally.seed, number);
        let text = narrowed(&mut random);
        let table = second::read(&text).expect("valid");
        let mut asked = Vec::new();
        for budget in budgets_in_chance_nodes(&table, &mut random) {
            for margin in turning_points(&table, Some(budget)) {
                let beside = [margin - 1, margin, margin + 1];
                asked.extend(beside.map(|margin| Asked { margin, budget }));
            }
        }
        for &asked in &asked {
            count_roundings(&mut roundings, &table, asked);
        }
        let held = comparison.hold(&text, &mut random, |_, _| asked);
        held.expect("valid");
    }
    comparison.tally.report();
    comparison.tally.demand_two_totals();
    // About half of what the usual seed gives.
    roundings.demand(650);
    let answers = &comparison.answers;
    answers.demand_but(350, |sort| sort.starts_with("root "));
}

/// Two budgets, each of which ends after the first leaf and before the last that the
/// search to some margin reads under one C; none where it reads no two under any.
fn budgets_in_chance_nodes(table: &Table, random: &mut Random) -> Vec<i64> {
    let margin = random.pick(&[0, span(table) / 20, span(table) / 5]);
    let read = Expected::by(Ok(table), Terms::of(margin), table.leaves).leaves;
    let before = |node: usize| {
        read.iter()
            .filter(|leaf| usize::from(**leaf) < node)
            .count()
    };
    let nodes = table.nodes.iter().enumerate();
    let chances = nodes.filter(|(_, node)| node.kind == Kind::Chance);
    let ranges = chances.map(|(i, node)| (before(i) as i64 + 1, before(node.stop) as i64 - 1));
    let ranges: Vec<(i64, i64)> = ranges.filter(|(least, most)| least <= most).collect();
    if ranges.is_empty() {
        return Vec::new();
    }
    let one = |_| {
        let (least, most) = random.pick(&ranges);
        random.between(least, most)
    };
    (0..2).map(one).collect()
}

/// Counts where another way to round a window would have changed the answer of a
/// search whose budget is spent.
fn count_roundings(seen: &mut Seen, table: &Table, asked: Asked) {
    let by = |rounding| {
        let terms = Terms {
            rounding,
            ..asked.terms()
        };
        Expected::by(Ok(table), terms, table.leaves)
    };
    let expected = by(Rounding::Outward);
    let (found, _) = expected.answer.expect("an answer");
    seen.count("spent", found.spent);
    for (sort, rounding) in OTHER_ROUNDINGS {
        let other = by(rounding);
        let sort = format!("another answer with {sort}");
        seen.count(&sort, found.spent && other != expected);
        let sort = format!("{sort}, and other leaves read");
        let leaves = other.leaves != expected.leaves;
        seen.count(&sort, found.spent && leaves);
    }
}

// ---------------------------------------------------------------------------
// Answers worked out by hand
// ---------------------------------------------------------------------------

/// A leaf of 7, alone, between ends that are apart.
const LEAF_BETWEEN: &str = "\
...1...1......-3.......9
...0.L.................7
";

/// Table A. With margin 3 the first N is cut after its first leaf. Where one leaf is read,
/// that N is 0 to 3; the second one is met unread and so 0 to 10, which makes it the play
/// (Item 6).
const OF_TABLE_A: &[Known] = &[
    ((0, 0), (0, 10, 0, true), &[]),
    ((0, 1), (0, 10, 4, true), &[2]),
    ((0, 2), (3, 10, 1, true), &[2, 3]),
    ((0, 3), (3, 3, 1, false), &[2, 3, 5]),
    ((0, 4), (3, 3, 1, false), &[2, 3, 5]),
    ((0, 1_024), (3, 3, 1, false), &[2, 3, 5]),
    ((3, 1), (0, 10, 4, true), &[2]),
    ((3, 2), (0, 3, 1, false), &[2, 5]),
    ((10, 0), (0, 10, 0, true), &[]),
    ((10, 1), (0, 10, 1, false), &[2]),
];

/// Table B. The same bounds and leaf come of a budget that is spent and, at margin
/// 12, of one that is not.
const OF_TABLE_B: &[Known] = &[
    ((0, 0), (0, 32, 0, true), &[]),
    ((0, 1), (20, 32, 1, true), &[1]),
    ((11, 1), (20, 32, 1, true), &[1]),
    ((12, 1), (20, 32, 1, false), &[1]),
    ((0, 2), (20, 20, 1, false), &[1, 3]),
    ((0, 3), (20, 20, 1, false), &[1, 3]),
];

/// Three plays, two of them C whose second leaf may be met unread.
const OF_THREE_PLAYS: &[Known] = &[
    ((0, 1), (12, 32, 1, true), &[1]),
    ((0, 2), (12, 32, 1, true), &[1, 3]),
    ((0, 3), (12, 32, 1, true), &[1, 3, 4]),
    ((0, 4), (12, 20, 1, true), &[1, 3, 4, 6]),
    ((7, 4), (12, 20, 1, true), &[1, 3, 4, 6]),
    ((8, 4), (12, 20, 1, false), &[1, 3, 4, 6]),
    ((0, 5), (12, 12, 1, false), &[1, 3, 4, 6, 7]),
];

/// Table B with a C as its root, so that a C with an unread leaf stands under it.
const UNDER_CHANCE: &[Known] = &[
    ((0, 0), (0, 128, 0, true), &[]),
    ((0, 1), (20, 116, 0, true), &[1]),
    ((0, 2), (38, 62, 0, true), &[1, 3]),
    ((0, 3), (62, 62, 0, false), &[1, 3, 4]),
];

/// A forced play, an N: the M under it and the leaf after that are met unread.
const OF_FORCED_MIN: &[Known] = &[
    ((0, 0), (0, 10, 0, true), &[]),
    ((0, 1), (0, 3, 1, true), &[2]),
    ((0, 2), (0, 3, 1, true), &[2, 4]),
    ((0, 3), (3, 3, 1, false), &[2, 4, 5]),
];

const OF_LONE_LEAF: &[Known] = &[
    ((0, 0), (7, 7, 0, true), &[]),
    ((0, 1), (7, 7, 0, false), &[0]),
    ((5, 1_024), (7, 7, 0, false), &[0]),
];

const OF_LEAF_BETWEEN: &[Known] = &[
    ((0, 0), (-3, 9, 0, true), &[]),
    ((GREATEST_MARGIN, 0), (-3, 9, 0, true), &[]),
    ((0, 1), (7, 7, 0, false), &[0]),
];

/// What is known of these tables.
fn known() -> Vec<(Vec<u8>, Asked, Expected)> {
    budget::known(&[
        (dotted(TABLE_A), 1, OF_TABLE_A),
        (dotted(TABLE_B), 4, OF_TABLE_B),
        (dotted(THREE_PLAYS), 4, OF_THREE_PLAYS),
        (table_b_under_chance(), 16, UNDER_CHANCE),
        (dotted(FORCED_MIN), 1, OF_FORCED_MIN),
        (dotted(LONE_LEAF), 1, OF_LONE_LEAF),
        (dotted(LEAF_BETWEEN), 1, OF_LEAF_BETWEEN),
    ])
}

#[test]
fn second_engine_has_the_known_answers() {
    budget::second_has(&known());
}

#[test]
fn examples() {
    budget::hold_known("searching examples within a budget", &known());
}

/// 12 comes before 17, and 17 before 11, which is given for every list that is shorter
/// than the leaves, whatever the budget. A table is refused before all three.
#[test]
fn refusals_in_sequence() {
    let mut comparison = Comparison::new("searches within a budget refused in sequence");
    let tables = [
        dotted(TABLE_A),
        dotted(TABLE_B_TURNED),
        table_b_under_chance(),
        dotted(LONE_LEAF),
    ];
    let margins = [0, 12, GREATEST_MARGIN, GREATEST_MARGIN + 1, -1];
    let budgets = [0, 1, 2, 3, 1_023, GREATEST_BUDGET];
    let bad = [-1, GREATEST_BUDGET + 1, i64::MIN, i64::MAX];
    let asked = margins.iter().flat_map(|&margin| {
        let budgets = budgets.iter().chain(&bad);
        budgets.map(move |&budget| Asked { margin, budget })
    });
    let asked: Vec<Asked> = asked.collect();
    for text in &tables {
        let leaves = second::read(text).expect("accepted").leaves;
        for &asked in &asked {
            for room in 0..=leaves + 1 {
                let short = room < leaves;
                let number = match asked {
                    Asked { margin, .. } if margin == -1 || margin > GREATEST_MARGIN => 12,
                    Asked { budget, .. } if bad.contains(&budget) => 17,
                    _ if short => 11,
                    _ => continue,
                };
                let expected = Expected::refused(Refusal { number, line: 0 });
                hold_to(&comparison.tally, text, asked, (room, ROOM), &expected);
                let table = second::read(text);
                let got = Expected::by(table.as_ref(), asked.terms(), room);
                assert_eq!(got, expected, "{asked:?}, a list of {room}");
                comparison.tally.add(&[u64::from(number)]);
            }
        }
    }
    for (text, number, line) in refused_examples() {
        let expected = Expected::refused(Refusal { number, line });
        for &asked in &asked {
            let rooms = [(0, ROOM), (MOST_NODES, 7)];
            for lent in rooms {
                hold_to(&comparison.tally, &text, asked, lent, &expected);
            }
        }
        comparison.tally.add(&[u64::from(number)]);
    }
    comparison.tally.report();
    comparison.tally.demand_refusals(&[11, 12, 17]);
}
