//! Plays that share the bound which decides (document 02, Item 6): the search with and
//! without a budget, held to the second engine on tables where plays tie, and to answers
//! worked out by hand.
//!
//! The environment variable SEED sets the seed of the random tables, CASES their
//! number.

use compare::hold::budget::{self, questions_at, turning_points, Asked, Known, NONE};
use compare::hold::searching::{self, hold_changed, Expected};
use compare::hold::seen::{Seen, SIDES};
use compare::hold::tally::say;
use compare::hold::ties::{self, BEHIND};
use compare::random::{number_from_environment, Random};
use compare::second::{self, Terms};
use compare::texts;
use compare::texts::examples::*;
use compare::texts::knobs::Knobs;
use compare::texts::ties::alike;

// ---------------------------------------------------------------------------
// Random tables
// ---------------------------------------------------------------------------

/// The main comparison: every search of a table that differs from the others without a
/// budget, and some within one. It fails where too few plays tied, or where too few ties
/// would have gone to another play by another rule.
#[test]
fn random_tables() {
    let mut plain = searching::Comparison::new("searching plays that tie");
    let mut within = budget::Comparison::new("searching plays that tie within a budget");
    let (mut of_plain, mut of_within) = (Seen::default(), Seen::default());
    let cases = number_from_environment("CASES", 40_000);
    let mut tied = 0;
    for number in 0..cases {
        let mut random = Random::of_case(plain.tally.seed, number);
        let text = match number % 8 {
            0 => texts::make(Knobs::ties, &mut random),
            _ => alike(&mut random),
        };
        let table = second::read(&text).expect("valid");
        let margins = [vec![0], turning_points(&table, None)].concat();
        let asked = questions_at(&mut random, &table, &margins);
        let mut has_tie = false;
        for &margin in &margins {
            has_tie |= ties::hold(&mut of_plain, &table, Terms::of(margin));
            hold_changed(&plain.tally, &text, &table, margin, &mut random);
        }
        for asked in &asked {
            has_tie |= ties::hold(&mut of_within, &table, asked.terms());
        }
        tied += u64::from(has_tie);
        let held = plain.hold(&text, |_| margins);
        held.expect("valid");
        let held = within.hold(&text, &mut random, |_, _| asked);
        held.expect("valid");
    }
    plain.tally.report();
    within.tally.report();
    plain.tally.demand_two_totals();
    within.tally.demand_two_totals();
    say(&format!("several plays tied in {tied} of {cases} tables"));
    // About half of what the usual seed gives, or less.
    let rare = |sort: &str| sort.starts_with(BEHIND);
    of_plain.demand_but(900, rare);
    of_within.demand_but(900, rare);
    for sort in SIDES.map(|side| format!("{BEHIND} at {side:?}")) {
        let count = of_plain.of(&sort) + of_within.of(&sort);
        assert!(count >= 100, "{sort} came only {count} times");
    }
    assert!(4 * tied >= cases, "plays tied in only {tied} tables");
    assert!(cases >= 20_000, "only {cases} tables");
}

// ---------------------------------------------------------------------------
// Answers worked out by hand
// ---------------------------------------------------------------------------

/// Two plays at a root N, an M each.
const CUT_AT_MIN: &str = "\
...7...1.......0......10
...0.N..................
...1.M....0.............
...2.L....1............8
...3.L....1............1
...4.M....0.............
...5.L....4............7
...6.L....4............5
";

/// Three leaves of the same worth.
const EQUAL_LEAVES: &str = "\
...4...1.......0......10
...0.M..................
...1.L....0............4
...2.L....0............4
...3.L....0............4
";

/// Two leaves at the lowest end.
const LOWEST_LEAVES: &str = "\
...3...1.......0......10
...0.M..................
...1.L....0............0
...2.L....0............0
";

/// An M whose first leaf says nothing of it, and a leaf.
const STILL_OPEN: &str = "\
...5...1.......0......10
...0.M..................
...1.M....0.............
...2.L....1............0
...3.L....1............5
...4.L....0............7
";

/// Two C: the first leaf gives both a low of 4 grains, but the second weighs less.
const PART_READ: &str = "\
...7...4.......0.......8
...0.M..................
...1.C....0.............
...2.L....1....2.......2
...3.L....1....2.......8
...4.C....0.............
...5.L....4....1.......4
...6.L....4....3.......0
";

/// An N, then two C that are worse for it at first sight, and share a low.
const BEHIND_AN_N: &str = "\
...9...4.......0.......8
...0.M..................
...1.N....0.............
...2.L....1............6
...3.L....1............7
...4.C....0.............
...5.L....4....4.......1
...6.C....0.............
...7.L....6....2.......2
...8.L....6....2.......0
";

const OF_CUT_PLAYS: &[Known] = &[
    // The three N are cut at 0 to 2, 0 to 3 and 0 to 3: the highest high of the equal
    // lows is 3, and of the two plays that have it the second is the first.
    ((3, NONE), (0, 3, 4, false), &[2, 5, 8]),
    ((9, NONE), (0, 3, 4, false), &[2, 5, 8]),
    ((3, 3), (0, 3, 4, false), &[2, 5, 8]),
    // The third N is met unread, and so 0 to 10.
    ((3, 2), (0, 10, 7, true), &[2, 5]),
    // The second one too: it comes first.
    ((3, 1), (0, 10, 4, true), &[2]),
    // The first N is not cut, but as its second leaf is unread it is 0 to 2 again.
    ((0, 1), (0, 10, 4, true), &[2]),
    // It is 2 to 2, above the low of what is unread.
    ((0, 2), (2, 10, 1, true), &[2, 3]),
    // No play is entered.
    ((3, 0), (0, 10, 0, true), &[]),
    // The plays left out by a cut at the root are not entered.
    ((10, NONE), (0, 10, 1, false), &[2]),
    // The second N alone is read to its end, and has the highest low.
    ((2, NONE), (3, 3, 4, false), &[2, 5, 6, 8]),
    ((0, NONE), (3, 3, 4, false), &[2, 3, 5, 6, 8]),
];

const OF_TABLE_A: &[Known] = &[
    // The two N are cut at 0 to 3 and 0 to 2: the first has the highest high as well.
    ((3, NONE), (0, 3, 1, false), &[2, 5]),
    // The first N is 0 to 3, cut or with its second leaf unread; the second one is met
    // unread, and so 0 to 10.
    ((3, 1), (0, 10, 4, true), &[2]),
    ((0, 1), (0, 10, 4, true), &[2]),
    // The first N is 3 to 3.
    ((0, 2), (3, 10, 1, true), &[2, 3]),
];

const OF_CUT_AT_MIN: &[Known] = &[
    // The two M are cut at 8 to 10 and 7 to 10: the lowest low of the equal highs is 7.
    ((3, NONE), (7, 10, 4, false), &[2, 5]),
    // The second M is read to its end, and has the lowest high.
    ((2, NONE), (7, 7, 4, false), &[2, 5, 6]),
    // It is met unread, and so 0 to 10.
    ((3, 1), (0, 10, 4, true), &[2]),
    ((0, 1), (0, 10, 4, true), &[2]),
    // The first M is 8 to 8, below the high of what is unread.
    ((0, 2), (0, 8, 1, true), &[2, 3]),
];

const OF_EQUAL_LEAVES: &[Known] = &[
    // No difference in either bound: the first.
    ((0, NONE), (4, 4, 1, false), &[1, 2, 3]),
    ((5, NONE), (4, 4, 1, false), &[1, 2, 3]),
    ((0, 2), (4, 10, 1, true), &[1, 2]),
];

const OF_LOWEST_LEAVES: &[Known] = &[
    ((0, NONE), (0, 0, 1, false), &[1, 2]),
    // The first leaf is 0 and no more; the second, unread, could be anything.
    ((0, 1), (0, 10, 2, true), &[1]),
];

const OF_STILL_OPEN: &[Known] = &[
    // Both plays are 0 to 10, the first because its second leaf is unread.
    ((0, 1), (0, 10, 1, true), &[2]),
    ((0, 2), (5, 10, 1, true), &[2, 3]),
    ((0, NONE), (7, 7, 4, false), &[2, 3, 4]),
];

const OF_PART_READ: &[Known] = &[
    // The two C are cut at 4 to 20 and 4 to 28.
    ((24, NONE), (4, 28, 4, false), &[2, 5]),
    // The second one is 4 to 4 when it is read to its end.
    ((23, NONE), (4, 20, 1, false), &[2, 5, 6]),
    ((16, NONE), (4, 20, 1, false), &[2, 5, 6]),
    // The first one is 20 to 20, and the root is cut after it.
    ((15, NONE), (20, 32, 1, false), &[2, 3]),
    // The second one is met unread, and its low of 0 has no part in a tie.
    ((24, 1), (4, 32, 1, true), &[2]),
];

const OF_BEHIND_AN_N: &[Known] = &[
    // The N is cut at 0 to 24, the C are 4 to 4 and cut at 4 to 20. The highest high is
    // the N's, but it has no part in the tie of the highest low.
    ((24, NONE), (4, 24, 6, false), &[2, 5, 7]),
    // The N is 24 to 24, and the root is cut after it.
    ((23, NONE), (24, 32, 1, false), &[2, 3]),
];

/// What is known of these tables.
fn known() -> Vec<(Vec<u8>, Asked, Expected)> {
    budget::known(&[
        (dotted(CUT_PLAYS), 1, OF_CUT_PLAYS),
        (dotted(TABLE_A), 1, OF_TABLE_A),
        (dotted(CUT_AT_MIN), 1, OF_CUT_AT_MIN),
        (dotted(EQUAL_LEAVES), 1, OF_EQUAL_LEAVES),
        (dotted(LOWEST_LEAVES), 1, OF_LOWEST_LEAVES),
        (dotted(STILL_OPEN), 1, OF_STILL_OPEN),
        (dotted(PART_READ), 4, OF_PART_READ),
        (dotted(BEHIND_AN_N), 4, OF_BEHIND_AN_N),
    ])
}

#[test]
fn second_engine_has_the_known_answers() {
    budget::second_has(&known());
}

#[test]
fn examples() {
    budget::hold_known("searching examples of plays that tie", &known());
}
