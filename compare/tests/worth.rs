//! The exact worth, held to the second engine and to document 01's tables.
//!
//! The environment variable SEED sets the seed of the random texts, CASES their
//! number.

use compare::hold::numbers::ROOM;
use compare::hold::seen::Seen;
use compare::hold::tally::{Tally, OF_GRAINS, OF_TABLES};
use compare::hold::worth::{count, hold, hold_to};
use compare::random::{number_from_environment, Random};
use compare::second::{self, Kind, FARTHEST_END, MOST_NODES};
use compare::texts::examples::*;
use compare::texts::knobs::Knobs;
use compare::texts::small::{for_each, six_nodes};
use compare::texts::{self, largest, put_utility};

// ---------------------------------------------------------------------------
// Random texts
// ---------------------------------------------------------------------------

/// The main comparison. It also fails where the texts were too much alike to
/// mean anything.
#[test]
fn random_texts() {
    let mut tally = Tally::new("worth of random texts");
    let mut seen = Seen::default();
    let cases = number_from_environment("CASES", 200_000);
    for number in 0..cases {
        let mut random = Random::of_case(tally.seed, number);
        let case = texts::case(&mut random);
        if let Ok((table, worth)) = hold(&mut tally, &case.text) {
            count(&mut seen, &table, worth);
        }
    }
    tally.report();
    seen.demand(100);
    tally.demand(&OF_TABLES);
    tally.demand(&OF_GRAINS);
    tally.demand_two_totals();
}

// ---------------------------------------------------------------------------
// Small tables and large ones
// ---------------------------------------------------------------------------

/// Every table of up to six nodes over a few entries; each leaf is worth -1
/// or 2, and T is 2. Where a node line is refused, none is added after it, as
/// the refusal would stay the same.
#[test]
fn every_small_table() {
    let mut tally = Tally::new("worth of every small table");
    let mut seen = Seen::default();
    for_each(
        (-1, 2),
        &six_nodes(&["-1", "2"]),
        &mut |text| match hold(&mut tally, text) {
            Ok((table, worth)) => {
                count(&mut seen, &table, worth);
                true
            }
            Err(refusal) => matches!(refusal.number, 8 | 9),
        },
    );
    tally.report();
    // A leaf alone comes twice, every other sort of table more often.
    seen.demand(2);
}

/// The greatest magnitudes: all leaves at one end, and all but one, each in its
/// turn.
#[test]
fn four_c_on_a_path() {
    const GRAINS: i64 = 64 * 64 * 64 * 64;
    let mut tally = Tally::new("worth of 1,024 lines, four C");
    for end in [-FARTHEST_END, FARTHEST_END] {
        let mut text = largest::four_deep(end);
        let (table, worth) = hold(&mut tally, &text).expect("accepted");
        assert_eq!(table.nodes.len(), MOST_NODES);
        assert_eq!((table.total, table.grains), (64, GRAINS));
        assert_eq!(worth, end * GRAINS);

        // For each node, its chance in parts of G.
        let mut chances = vec![GRAINS; MOST_NODES];
        for (i, node) in table.nodes.iter().enumerate().skip(1) {
            let (parent, weight) = (
                node.parent.expect("a parent"),
                node.weight.expect("a weight"),
            );
            chances[i] = chances[parent] * weight / 64;
            if node.kind == Kind::Leaf {
                put_utility(&mut text, i, -end);
                let (_, worth) = hold(&mut tally, &text).expect("accepted");
                assert_eq!(worth, end * (GRAINS - 2 * chances[i]), "leaf {i}");
                put_utility(&mut text, i, end);
            }
        }
    }
    tally.report();
    assert_eq!(tally.counts[0], 2 * (1 + 1_008));
}

/// Random tables of 1,024 lines with T 64 and the widest ends.
#[test]
fn largest_tables() {
    let mut tally = Tally::new("worth of the largest tables");
    let mut seen = Seen::default();
    for number in 0..1_000 {
        let mut random = Random::of_case(tally.seed, number);
        let text = texts::make(Knobs::largest, &mut random);
        let (table, worth) = hold(&mut tally, &text).expect("valid");
        assert_eq!((table.nodes.len(), table.total), (MOST_NODES, 64));
        let four = table.chances == 4;
        let lowest = four && worth == -16_777_216_000_000;
        seen.count("the least worth of all", lowest);
        let highest = four && worth == 16_777_216_000_000;
        seen.count("the greatest worth of all", highest);
        let between = four && worth.abs() < 16_777_216_000_000;
        seen.count("four C and a worth between", between);
    }
    tally.report();
    seen.demand(100);
}

// ---------------------------------------------------------------------------
// Document 01's tables
// ---------------------------------------------------------------------------

/// A table written with dots, its worth and G.
const KNOWN: [(&str, i64, i64); 4] = [
    (TABLE_A, 3, 1),
    (TABLE_B, 20, 4),
    (TABLE_B_TURNED, -20, 4),
    (LONE_LEAF, 7, 1),
];

#[test]
fn second_engine_has_the_known_worths() {
    for (table, worth, grains) in KNOWN {
        let table = second::read(&dotted(table)).expect("accepted");
        assert_eq!((second::worth(&table), table.grains), (worth, grains));
    }
}

/// Table B with another root: the leaf is worth 20 grains, the C 14.
#[test]
fn second_engine_heeds_the_roots_kind() {
    let worth = |text: &[u8]| second::worth(&second::read(text).expect("accepted"));
    assert_eq!(worth(&table_b_with(1, "...0.N..................")), 14);
    // A C over both, weights 1 and 3, has K 2: (1 × 80 + 3 × 56) / 4.
    assert_eq!(worth(&table_b_under_chance()), 62);
}

/// The known tables and the refused examples, given to both engines; the proved
/// one must have the known worths too, whatever the second says.
#[test]
fn examples() {
    let mut tally = Tally::new("worth of examples");
    for (table, worth, grains) in KNOWN {
        let text = dotted(table);
        for room in 0..=ROOM {
            hold_to(&tally, &text, room, 0, &[worth, grains]);
        }
        hold(&mut tally, &text).expect("accepted");
    }
    for (text, _, _) in refused_examples() {
        for _ in 0..3 {
            hold(&mut tally, &text).expect_err("refused");
        }
    }
    tally.report();
}
