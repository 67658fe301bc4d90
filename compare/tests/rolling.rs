//! Rollouts, held to the second engine and to document 01's positions.
//!
//! The environment variable SEED sets the seed of the random texts, CASES their
//! number.

use compare::hold::numbers::ROOM;
use compare::hold::rolling::{hold_to, policies, Comparison, Expected, Rooms};
use compare::hold::tally::{OF_GRAINS, OF_TABLES};
use compare::random::{number_from_environment, Random};
use compare::second::{self, Refusal, FARTHEST_END, MOST_NODES};
use compare::texts;
use compare::texts::examples::*;
use compare::texts::knobs::Knobs;
use compare::texts::small::{for_each, six_nodes};

// ---------------------------------------------------------------------------
// Random texts
// ---------------------------------------------------------------------------

/// The main comparison. It also fails where the texts or the answers were too
/// much alike to mean anything.
#[test]
fn random_texts() {
    let mut comparison = Comparison::new("rolling out random texts");
    let cases = number_from_environment("CASES", 100_000);
    let mut tables = 0;
    for number in 0..cases {
        let mut random = Random::of_case(comparison.tally.seed, number);
        let text = match number % 8 {
            0..=2 => texts::make(Knobs::plain, &mut random),
            3 => texts::make(Knobs::narrow, &mut random),
            _ => texts::case(&mut random).text,
        };
        let mut policies = policies(&mut random);
        let table = second::read(&text);
        // A refusal is the same for every policy, so one will do.
        let plain = table.is_ok_and(|table| table.chances == 0);
        if !plain {
            policies.drain(..random.below(policies.len()));
            policies.truncate(1);
        }
        let _ = comparison.hold(&text, &policies);
        tables += u64::from(plain);
    }
    comparison.tally.report();
    comparison.seen.demand(200);
    comparison.tally.demand(&OF_TABLES);
    comparison.tally.demand(&OF_GRAINS);
    comparison.tally.demand_two_totals();
    comparison.tally.demand(&[11, 13]);
    assert!(tables >= 20_000, "only {tables} accepted tables without C");
}

/// Every table of up to six nodes over a few entries, with some short policies.
/// Where a node line is refused, none is added after it, as the refusal would
/// stay the same.
#[test]
fn every_small_table() {
    let mut comparison = Comparison::new("rolling out every small table");
    let mut policies = vec![Vec::new(), vec![255; 9]];
    for one in 0..3 {
        policies.push(vec![one]);
        for other in 0..3 {
            policies.push(vec![one, other]);
            policies.push(vec![other, one, 1, 0, one, 1]);
        }
    }
    let last = policies.len() - 1;
    for_each((-1, 2), &six_nodes(&["-1", "0", "2"])[..5], &mut |text| {
        let plain = second::read(text).is_ok_and(|table| table.chances == 0);
        let policies = if plain {
            &policies[..]
        } else {
            &policies[last..]
        };
        match comparison.hold(text, policies) {
            Ok(_) => true,
            Err(refusal) => matches!(refusal.number, 8 | 9),
        }
    });
    comparison.tally.report();
    assert!(comparison.tally.counts[0] >= 10_000, "too few answers");
    assert!(
        comparison.tally.counts[13] >= 1_000,
        "too few tables with C"
    );
}

/// Tables of 1,024 lines without C: a root and its leaves; paths of 64 nodes;
/// and any shape; with the widest ends.
#[test]
fn largest_tables() {
    let mut comparison = Comparison::new("rolling out the largest tables");
    for number in 0..60 {
        let mut random = Random::of_case(comparison.tally.seed, number);
        let knobs = match number % 3 {
            0 => Knobs::largest_flat(b"MN", &mut random),
            1 => Knobs::largest_plain(&mut random),
            _ => Knobs::largest_chains(&mut random),
        };
        let text = knobs.text(&mut random);
        let policies = policies(&mut random);
        let table = comparison.hold(&text, &policies).expect("valid");
        assert_eq!((table.nodes.len(), table.chances), (MOST_NODES, 0));
        assert_eq!((table.lowest, table.highest), (-FARTHEST_END, FARTHEST_END));
    }
    comparison.tally.report();
    for number in [0, 11] {
        let count = comparison.tally.counts[number];
        assert!(count >= 10, "{number} was returned only {count} times");
    }
}

// ---------------------------------------------------------------------------
// Document 01's positions
// ---------------------------------------------------------------------------

/// Texts, each with a policy and what must come of it.
fn known() -> Vec<(Vec<u8>, Vec<u8>, Expected)> {
    let known = Expected::known;
    let refused = |number, line| Expected::refused(Refusal { number, line });
    // A's records at the end: node 4 is left at 0 to 2 after its first leaf, as
    // the root has 3 by then; or node 6 was read before.
    let short = [(3, 3), (3, 3), (3, 3), (5, 5), (0, 2), (2, 2), (0, 10)];
    let long = [(3, 3), (3, 3), (3, 3), (5, 5), (2, 2), (2, 2), (9, 9)];
    let wide_leaf = "...1...1.......0.......9\n...0.L.................7\n";
    let mut all = vec![
        (dotted(TABLE_A), vec![1, 1], known(3, &[6, 2, 3, 5], &long)),
        (
            dotted(TABLE_A),
            vec![255, 3],
            known(3, &[6, 2, 3, 5], &long),
        ),
        (
            table_b_with(4, "...3.L....2....2.......2"),
            Vec::new(),
            refused(9, 3),
        ),
    ];
    for policy in [vec![], vec![0], vec![0, 0, 0, 0, 0, 0], vec![2, 4, 6]] {
        let same = known(3, &[2, 3, 5], &short);
        all.push((dotted(TABLE_A), policy.clone(), same));
        // Between equal ends the root is closed from the start.
        all.push((dotted(LONE_LEAF), policy.clone(), known(7, &[], &[(7, 7)])));
        all.push((dotted(wide_leaf), policy.clone(), known(7, &[0], &[(7, 7)])));
        for text in [
            dotted(TABLE_B),
            dotted(TABLE_B_TURNED),
            table_b_under_chance(),
        ] {
            all.push((text, policy.clone(), refused(13, 0)));
        }
    }
    all
}

#[test]
fn second_engine_has_the_known_answers() {
    for (text, policy, expected) in known() {
        let table = second::read(&text);
        let rooms = Rooms {
            store: 10,
            leaves: 10,
            numbers: ROOM,
        };
        let got = Expected::of(&table, &policy, rooms);
        assert_eq!(got.answer, expected.answer, "policy {policy:?}");
        assert_eq!(got.leaves, expected.leaves, "policy {policy:?}");
        assert_eq!(got.store, expected.store, "policy {policy:?}");
    }
}

/// The known answers and the refused examples, given to both engines; the proved
/// one must have the known answers too, whatever the second says.
#[test]
fn examples() {
    let mut comparison = Comparison::new("rolling out examples");
    for (text, policy, expected) in known() {
        let table = second::read(&text);
        let (nodes, most) = table
            .as_ref()
            .map_or((0, 0), |table| (table.nodes.len(), table.leaves));
        // Of several refusals the one that comes first in the sequence counts.
        let short = Expected::refused(expected.answer.err().unwrap_or(Refusal {
            number: 11,
            line: 0,
        }));
        for store in 0..nodes + 3 {
            for leaves in 0..most + 3 {
                for numbers in 0..=ROOM {
                    let rooms = Rooms {
                        store,
                        leaves,
                        numbers,
                    };
                    let enough = store >= nodes && leaves >= most;
                    let expected = if enough { &expected } else { &short };
                    hold_to(&comparison.tally, &text, &policy, rooms, expected);
                }
            }
        }
        let _ = comparison.hold(&text, &[policy]);
    }
    for (text, _, _) in refused_examples() {
        let policies = [vec![], vec![1, 2, 3]];
        comparison.hold(&text, &policies).expect_err("refused");
    }
    comparison.tally.report();
}
