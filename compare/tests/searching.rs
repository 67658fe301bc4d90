//! The search, held to the second engine and to document 01's positions.
//!
//! The environment variable SEED sets the seed of the random texts, CASES their
//! number.

use compare::hold::numbers::ROOM;
use compare::hold::searching::{
    change_unread, hold_to, keeps_its_promises, margins, Comparison, Expected,
};
use compare::hold::seen::Seen;
use compare::hold::span;
use compare::hold::tally::{Tally, OF_GRAINS, OF_TABLES};
use compare::random::{number_from_environment, seed, Random};
use compare::second::{self, Kind, Refusal, Rounding, Scale, Table, GREATEST_MARGIN, MOST_NODES};
use compare::texts::examples::*;
use compare::texts::knobs::Knobs;
use compare::texts::small::{for_each, six_nodes};
use compare::texts::{self, largest};

// ---------------------------------------------------------------------------
// Random texts
// ---------------------------------------------------------------------------

/// The main comparison. It also fails where the texts or the answers were too
/// much alike to mean anything.
#[test]
fn random_texts() {
    let mut comparison = Comparison::new("searching random texts");
    let cases = number_from_environment("CASES", 125_000);
    let mut tables = 0;
    for number in 0..cases {
        let mut random = Random::of_case(comparison.tally.seed, number);
        let text = match number % 10 {
            0 => texts::make(Knobs::close, &mut random),
            1 => texts::make(Knobs::dice, &mut random),
            2 | 3 => texts::make(Knobs::any, &mut random),
            4 => texts::make(Knobs::ties, &mut random),
            5 => texts::make(Knobs::forced, &mut random),
            _ => texts::case(&mut random).text,
        };
        let mut chosen = 0;
        let table = comparison.hold(&text, |table| match table {
            Some(table) => {
                let margins = margins(&mut random, table);
                chosen = random.pick(&margins);
                margins
            }
            // The refusal is the same for every margin, so two will do.
            None => vec![
                random.pick(&[0, 1, -1, i64::MIN, i64::MAX]),
                random.bits() as i64,
            ],
        });
        if let Ok(table) = table {
            tables += 1;
            comparison.count_tests(&table, chosen);
        }
    }
    comparison.tally.report();
    comparison.tables.demand(200);
    comparison.answers.demand(2_000);
    comparison.tests.demand(2_000);
    comparison.tally.demand(&OF_TABLES);
    comparison.tally.demand(&OF_GRAINS);
    comparison.tally.demand_two_totals();
    comparison.tally.demand(&[11, 12]);
    assert!(tables >= 50_000, "only {tables} accepted tables");
}

// ---------------------------------------------------------------------------
// Small tables and large ones
// ---------------------------------------------------------------------------

/// Every table of up to six nodes over a few entries; each leaf is worth -1
/// or 2, and T is 2. Where a node line is refused, none is added after it, as
/// the refusal would stay the same.
#[test]
fn every_small_table() {
    let mut comparison = Comparison::new("searching every small table");
    for_each((-1, 2), &six_nodes(&["-1", "2"]), &mut |text| {
        let table = comparison.hold(text, |table| match table {
            Some(table) => {
                let span = span(table);
                vec![0, span / 3, span / 2, span - 1, span]
            }
            None => vec![0],
        });
        match table {
            Ok(_) => true,
            Err(refusal) => matches!(refusal.number, 8 | 9),
        }
    });
    comparison.tally.report();
    // A leaf alone comes twice, with five margins each; all else more often.
    comparison.answers.demand(10);
}

/// Tables with few grains from end to end, with every margin up to their span or
/// to 60 grains: there a window that is rounded the wrong way shows most often.
#[test]
fn narrow_tables() {
    let mut comparison = Comparison::new("searching narrow tables");
    for number in 0..20_000 {
        let mut random = Random::of_case(comparison.tally.seed, number);
        let text = texts::make(Knobs::narrow, &mut random);
        let table = comparison
            .hold(&text, |table| {
                (0..=span(table.expect("a valid table")).min(60)).collect()
            })
            .expect("valid");
        let margin = random.between(0, span(&table));
        comparison.count_tests(&table, margin);
    }
    comparison.tally.report();
    let answers = &comparison.answers;
    answers.demand_but(1_000, |sort| sort.ends_with("root Leaf"));
    comparison.tests.demand(1_000);
    comparison.tally.demand_two_totals();
}

/// Tables of 1,024 lines with T 64 and the widest ends.
#[test]
fn largest_tables() {
    let mut comparison = Comparison::new("searching the largest tables");
    let mut texts = largest::four_chances();
    for number in 0..300 {
        let mut random = Random::of_case(comparison.tally.seed, number);
        texts.push(texts::make(Knobs::largest, &mut random));
        if number % 10 == 0 {
            let flat = Knobs::largest_flat(b"MN", &mut random);
            texts.push(flat.text(&mut random));
        }
    }
    for (number, text) in (1_000..).zip(&texts) {
        let mut random = Random::of_case(comparison.tally.seed, number);
        let table = comparison
            .hold(text, |table| {
                margins(&mut random, table.expect("a valid table"))
            })
            .expect("valid");
        assert_eq!((table.nodes.len(), table.total), (MOST_NODES, 64));
    }
    comparison.tally.report();
    for sort in ["root Max", "root Min", "root Chance", "K 4"] {
        let count = comparison.tables.of(sort);
        assert!(count >= 50, "{sort} came only {count} times");
    }
    let unread = ["Max", "Min", "Chance"].map(|kind| format!("leaves unread, root {kind}"));
    let unread: u64 = unread.iter().map(|sort| comparison.answers.of(sort)).sum();
    assert!(unread >= 50, "leaves were unread only {unread} times");
}

/// Leaves that were not read do not matter: with any other utilities in them the
/// proved engine's answer is the same in every part, and the exact worth still
/// lies within its bounds.
#[test]
fn unread_leaves_do_not_matter() {
    let mut tally = Tally::new("searching with other unread leaves");
    let mut seen = Seen::default();
    for number in 0..5_000 {
        let mut random = Random::of_case(tally.seed, number);
        let mut text = match number % 2 {
            0 => texts::make(Knobs::any, &mut random),
            _ => texts::make(Knobs::dice, &mut random),
        };
        let table = second::read(&text).expect("valid");
        let margin = random.between(0, span(&table));
        let expected = Expected::of(&Ok(table.clone()), margin, table.leaves);
        hold_to(&tally, &text, margin, table.leaves, ROOM, &expected);

        change_unread(&mut text, &table, &expected.leaves, &mut random);
        hold_to(&tally, &text, margin, table.leaves, ROOM, &expected);
        let other = second::read(&text).expect("valid still");
        seen.count("with other leaves", other != table);
        let (found, _) = expected.answer.expect("accepted");
        let worths = second::worths(&other);
        keeps_its_promises(&other, &worths, margin, found, &expected.leaves);
        tally.add(&[0]);
    }
    tally.report();
    seen.demand(1_000);
}

// ---------------------------------------------------------------------------
// The second engine alone
// ---------------------------------------------------------------------------

/// The turned table: M and N exchanged, utilities negated, the ends negated and
/// exchanged.
fn turned(table: &Table) -> Table {
    let mut turned = table.clone();
    (turned.lowest, turned.highest) = (-table.highest, -table.lowest);
    for node in &mut turned.nodes {
        node.utility = node.utility.map(|utility| -utility);
        node.kind = match node.kind {
            Kind::Max => Kind::Min,
            Kind::Min => Kind::Max,
            other => other,
        };
    }
    turned
}

/// On the turned table the bounds are negated and exchanged, and the play and
/// the reading sequence are the same.
#[test]
fn second_engine_searches_a_turned_table_alike() {
    let mut cut = 0;
    for number in 0..5_000 {
        let mut random = Random::of_case(seed(), number);
        let text = match number % 3 {
            0 => texts::make(Knobs::any, &mut random),
            1 => texts::make(Knobs::close, &mut random),
            _ => texts::make(Knobs::dice, &mut random),
        };
        let table = second::read(&text).expect("valid");
        for margin in margins(&mut random, &table) {
            let one = Expected::of(&Ok(table.clone()), margin, table.leaves);
            let other = Expected::of(&Ok(turned(&table)), margin, table.leaves);
            assert_eq!(other, one.turned());
            let read = one.leaves.len();
            cut += u64::from(one.answer.is_ok() && read < table.leaves);
        }
    }
    assert!(cut >= 5_000, "only {cut} searches were cut");
}

/// Document 01's figures for the windows under a C; toward zero beta would be
/// 26. And the same turned, where alpha and beta change places.
#[test]
fn second_engine_rounds_windows_outward() {
    let scale = |least, greatest| Scale {
        least,
        greatest,
        total: 4,
        rounding: Rounding::Outward,
    };
    assert_eq!(scale(0, 32).alpha_below(3, 21, 32), 17);
    assert_eq!(scale(0, 32).beta_below(3, 20, 0), 27);
    assert_eq!(scale(-32, 0).alpha_below(3, -20, 0), -27);
    assert_eq!(scale(-32, 0).beta_below(3, -21, -32), -17);
    // A whole quotient is not rounded, and no window leaves the ends.
    assert_eq!(scale(0, 32).alpha_below(3, 20, 32), 16);
    assert_eq!(scale(0, 32).beta_below(3, 21, 0), 28);
    assert_eq!(scale(0, 32).alpha_below(1, 21, 32), 0);
    assert_eq!(scale(0, 32).beta_below(1, 20, 0), 32);
}

// ---------------------------------------------------------------------------
// Document 01's positions
// ---------------------------------------------------------------------------

/// Texts, each with a margin and what must come of it.
fn known() -> Vec<(Vec<u8>, i64, Expected)> {
    let known = Expected::known;
    let refused = |number, line| Expected::refused(Refusal { number, line });
    let mut all = vec![
        (dotted(TABLE_A), 0, known(3, 3, 1, &[2, 3, 5], 1)),
        (dotted(TABLE_A), 2, known(3, 3, 1, &[2, 3, 5], 1)),
        (dotted(TABLE_A), 3, known(0, 3, 1, &[2, 5], 1)),
        (dotted(TABLE_A), 9, known(0, 3, 1, &[2, 5], 1)),
        (dotted(TABLE_A), 10, known(0, 10, 1, &[2], 1)),
        (dotted(TABLE_B), 0, known(20, 20, 1, &[1, 3], 4)),
        (dotted(TABLE_B), 11, known(20, 20, 1, &[1, 3], 4)),
        (dotted(TABLE_B), 12, known(20, 32, 1, &[1], 4)),
        (dotted(TABLE_B_TURNED), 12, known(-32, -20, 1, &[1], 4)),
        (
            table_b_with(4, "...3.L....2....2.......2"),
            0,
            refused(9, 3),
        ),
    ];
    for margin in [0, 1, 12, GREATEST_MARGIN] {
        all.push((dotted(LONE_LEAF), margin, known(7, 7, 0, &[0], 1)));
    }
    for table in [TABLE_A, TABLE_B, TABLE_B_TURNED, LONE_LEAF] {
        for margin in [40_000_000_000_001, -1, i64::MIN, i64::MAX] {
            all.push((dotted(table), margin, refused(12, 0)));
        }
    }
    all
}

#[test]
fn second_engine_has_the_known_answers() {
    for (text, margin, expected) in known() {
        let table = second::read(&text);
        let room = table.as_ref().map_or(0, |table| table.leaves);
        let got = Expected::of(&table, margin, room);
        assert_eq!(got, expected, "margin {margin}");
    }
}

/// The known answers and the refused examples, given to both engines; the proved
/// one must have the known answers too, whatever the second says.
#[test]
fn examples() {
    let mut comparison = Comparison::new("searching examples");
    for (text, margin, expected) in known() {
        let table = second::read(&text);
        let leaves = table.as_ref().map_or(0, |table| table.leaves);
        for room in leaves..leaves + 3 {
            for numbers in 0..=ROOM {
                hold_to(&comparison.tally, &text, margin, room, numbers, &expected);
            }
        }
        // Of several refusals the one that comes first in the sequence counts.
        let short = match expected.answer {
            Ok(_) => Expected::refused(Refusal {
                number: 11,
                line: 0,
            }),
            Err(_) => expected,
        };
        for room in 0..leaves {
            hold_to(&comparison.tally, &text, margin, room, ROOM, &short);
        }
        let _ = comparison.hold(&text, |_| vec![margin]);
    }
    for (text, _, _) in refused_examples() {
        comparison
            .hold(&text, |_| vec![0, 12, -1, i64::MIN, i64::MAX])
            .expect_err("refused");
    }
    comparison.tally.report();
}
