//! C lines (document 02, Item 4): both searches, held to the second engine, which divides
//! by T after each child, and to answers worked out by hand. The tables and the margins
//! are such that an engine which takes a number for T times it answers otherwise, and
//! how often it does is counted.
//!
//! The environment variable SEED sets the seed of the random tables, CASES their
//! number.

use compare::hold::budget::{self, questions_at, turning_points, Asked, Known, NONE};
use compare::hold::searching::Expected;
use compare::hold::span;
use compare::hold::sums::{
    beside, margins, turning_points_of_chances, two_of, Comparison, Questions,
};
use compare::hold::tally::say;
use compare::random::{number_from_environment, Random};
use compare::second::{self, Table, GREATEST_MARGIN, MOST_NODES, MOST_TOTAL};
use compare::texts::examples::*;
use compare::texts::knobs::{Knobs, Utilities};
use compare::texts::windows::narrowed;
use compare::texts::{self, largest};

/// The sorts of random tables.
const ROLLS: &str = "the 21 rolls";
const ANY: &str = "any C";
const NARROWED: &str = "narrow windows";

/// A table of this sort.
fn make(sort: &str, random: &mut Random) -> (Vec<u8>, Table) {
    let text = match sort {
        ROLLS => texts::make(Knobs::position, random),
        ANY => texts::make(Knobs::chancy, random),
        _ => narrowed(random),
    };
    let table = second::read(&text).expect("valid");
    (text, table)
}

// ---------------------------------------------------------------------------
// Random tables
// ---------------------------------------------------------------------------

/// The main comparison, at margins of all sorts. It fails where too few tables would
/// have told a faulty engine from the right one.
#[test]
fn random_tables() {
    let mut comparison = Comparison::new("searching under C", "searching under C within a budget");
    let cases = number_from_environment("CASES", 25_000);
    let mut telling = 0;
    for number in 0..cases {
        let mut random = comparison.case(number);
        let sort = [ROLLS, ANY, ROLLS, ANY, NARROWED][number as usize % 5];
        let (text, table) = make(sort, &mut random);
        let any = random.between(0, span(&table));
        let margins = [vec![0, any], margins(&mut random, &table)].concat();
        let asked = questions_at(&mut random, &table, &margins);
        let questions = Questions { margins, asked };
        let tells = comparison.hold(sort, &text, &table, &mut random, questions);
        telling += u64::from(tells);
        for chances in [1, 2] {
            let here = sort == ROLLS && table.chances == chances;
            let sort = format!("{ROLLS}, K {chances}");
            comparison.tables.count(&sort, here);
        }
    }
    // About half of what the usual seed gives, or less, here and below, for each fault.
    comparison.demand_tests(2_500, true);
    comparison.demand_faults(3_000, 500);
    comparison.tables.demand(300);
    for (sort, least) in [
        ("the 21 rolls at every C", 5_000),
        ("K 1", 2_000),
        ("K 2", 2_000),
        ("K 3", 1_000),
        ("K 4", 2_000),
        ("root Chance", 1_000),
    ] {
        let count = comparison.plain.tables.of(sort);
        assert!(count >= least, "{sort} came only {count} times");
    }
    // Of any fault: so many tables are not there for nothing.
    say(&format!("{telling} of {cases} tables tell a faulty engine"));
    assert!(telling >= 20_000, "only {telling} tables");
}

// ---------------------------------------------------------------------------
// Margins at which a cut test turns
// ---------------------------------------------------------------------------

/// Margins at which a cut test of a C just cuts, and those one grain beside them, with
/// no budget and within one: there a cut test on the wrong scale goes wrong.
#[test]
fn cut_tests_of_chance_nodes() {
    let mut comparison = Comparison::new(
        "searching where a C is just cut",
        "searching where a C is just cut within a budget",
    );
    for number in 0..6_000 {
        let mut random = comparison.case(number);
        let sort = [ROLLS, ANY, NARROWED][number as usize % 3];
        let (text, table) = make(sort, &mut random);
        let budget = random.between(1, table.leaves as i64);
        let mut about = |budget| two_of(&mut random, &turning_points_of_chances(&table, budget));
        let margins = about(None);
        let within = about(Some(budget)).into_iter();
        let asked = within.map(|margin| Asked { margin, budget }).collect();
        let questions = Questions { margins, asked };
        comparison.hold(sort, &text, &table, &mut random, questions);
    }
    comparison.demand_tests(800, true);
    comparison.demand_faults(1_500, 150);
}

/// Every margin at which a cut test just cuts, and those one grain beside it, on tables
/// where much hangs on the windows below a C. It fails where windows that are rounded
/// the wrong way would have changed too few answers.
#[test]
fn windows_below_chance_nodes() {
    let mut comparison = Comparison::new(
        "searching in narrow windows",
        "searching in narrow windows within a budget",
    );
    for number in 0..5_000 {
        let mut random = comparison.case(number);
        let (text, table) = make(NARROWED, &mut random);
        let budget = random.between(1, table.leaves as i64);
        let about = |budget| turning_points(&table, budget).into_iter().flat_map(beside);
        let within = about(Some(budget));
        let questions = Questions {
            margins: about(None).collect(),
            asked: within.map(|margin| Asked { margin, budget }).collect(),
        };
        comparison.count_roundings(NARROWED, &table, &questions);
        comparison.hold(NARROWED, &text, &table, &mut random, questions);
    }
    comparison.demand_tests(1_200, true);
    comparison.demand_faults(20_000, 6_000);
    comparison.roundings.demand(1_000);
}

// ---------------------------------------------------------------------------
// The largest numbers
// ---------------------------------------------------------------------------

/// 1,024 lines, T 64, the widest ends and as a rule four C on a path: T times a bound is
/// nearly 2 to the 51 there, and T times the greatest margin is past that.
#[test]
fn largest_tables() {
    let mut comparison = Comparison::new(
        "searching the largest C",
        "searching the largest C within a budget",
    );
    let mut texts = largest::four_chances();
    for number in 0..200 {
        let mut random = comparison.case(number);
        let knobs = Knobs::largest(&mut random);
        texts.push(knobs.text(&mut random));
        let utilities = Utilities::Uniform;
        texts.push(Knobs { utilities, ..knobs }.text(&mut random));
    }
    for (number, text) in (1_000..).zip(&texts) {
        let mut random = comparison.case(number);
        let table = second::read(text).expect("valid");
        let size = (table.nodes.len(), table.total);
        assert_eq!(size, (MOST_NODES, MOST_TOTAL));
        let about = margins(&mut random, &table);
        let margins = [vec![0, GREATEST_MARGIN], about].concat();
        let asked = questions_at(&mut random, &table, &margins);
        let questions = Questions { margins, asked };
        comparison.hold("T 64", text, &table, &mut random, questions);
    }
    comparison.demand_tests(70, false);
    comparison.demand_faults(600, 100);
    let four = comparison.plain.tables.of("K 4");
    assert!(four >= 300, "four C on a path only {four} times");
}

// ---------------------------------------------------------------------------
// Answers worked out by hand
// ---------------------------------------------------------------------------

/// A root C with three leaves. Its bounds are 0 to 32 grains at first, then 6 to 30, 10 to
/// 18 and 18 to 18.
const THREE_LEAVES: &str = "\
...4...4.......0.......8
...0.C..................
...1.L....0....1.......6
...2.L....0....2.......2
...3.L....0....1.......8
";

/// A C under a C. The one below is 6 to 26 grains after its first leaf, then 24 to 24.
const CHANCE_BELOW: &str = "\
...5...2.......0......10
...0.C..................
...1.C....0....1........
...2.L....1....1.......3
...3.L....1....1.......9
...4.L....0....1.......5
";

/// Document 01's figure for an alpha below a C: the first play is 21 to 21 grains, so the
/// N of weight 3 in the second has the alpha 17.
const ALPHA_BELOW: &str = "\
...9...4.......0.......8
...0.M..................
...1.C....0.............
...2.L....1....3.......5
...3.L....1....1.......6
...4.C....0.............
...5.N....4....3........
...6.L....5............5
...7.L....5............3
...8.L....4....1.......8
";

/// Its figure for a beta: the first play is 20 to 20 grains, so the M of weight 3 in the
/// second has the beta 27.
const BETA_BELOW: &str = "\
...7...4.......0.......8
...0.N..................
...1.L....0............5
...2.C....0.............
...3.M....2....3........
...4.L....3............6
...5.L....3............8
...6.L....2....1.......0
";

const OF_TABLE_A: &[Known] = &[
    ((2, NONE), (3, 3, 1, false), &[2, 3, 5]),
    ((3, NONE), (0, 3, 1, false), &[2, 5]),
    ((10, NONE), (0, 10, 1, false), &[2]),
];

const OF_TABLE_B: &[Known] = &[
    // The leaf leaves the C the window 20 to 32. After its first leaf the C is 6 to 14, and
    // is cut as 14 is below 20.
    ((0, NONE), (20, 20, 1, false), &[1, 3]),
    ((11, NONE), (20, 20, 1, false), &[1, 3]),
    ((12, NONE), (20, 32, 1, false), &[1]),
];

const OF_THREE_LEAVES: &[Known] = &[
    ((0, NONE), (18, 18, 0, false), &[1, 2, 3]),
    // The width after the second leaf is 8 grains, 4 times that is 32.
    ((7, NONE), (18, 18, 0, false), &[1, 2, 3]),
    ((8, NONE), (10, 18, 0, false), &[1, 2]),
    // After the first leaf it is 24, 4 times that is 96.
    ((23, NONE), (10, 18, 0, false), &[1, 2]),
    ((24, NONE), (6, 30, 0, false), &[1]),
    ((32, NONE), (6, 30, 0, false), &[1]),
    ((96, NONE), (6, 30, 0, false), &[1]),
    // Leaves met unread have no part in the sums.
    ((0, 1), (6, 30, 0, true), &[1]),
    ((0, 2), (10, 18, 0, true), &[1, 2]),
    ((7, 2), (10, 18, 0, true), &[1, 2]),
    ((8, 2), (10, 18, 0, false), &[1, 2]),
];

const OF_CHANCE_BELOW: &[Known] = &[
    // The C below is 24 to 24, so the root is 12 to 32 after it: 20 grains.
    ((19, NONE), (22, 22, 0, false), &[2, 3, 4]),
    // The C below is cut at 6 to 26, so the root is 3 to 33 after it: 30 grains.
    ((20, NONE), (13, 23, 0, false), &[2, 4]),
    ((29, NONE), (13, 23, 0, false), &[2, 4]),
    ((30, NONE), (3, 33, 0, false), &[2]),
    // The C below is 6 to 26 again, and the leaf after it is unread.
    ((0, 1), (3, 33, 0, true), &[2]),
    ((0, 2), (12, 32, 0, true), &[2, 3]),
];

const OF_ALPHA_BELOW: &[Known] = &[
    // The N is 12 to 12 and the C above it then 9 to 17, which is cut as 17 is below 21.
    ((0, NONE), (21, 21, 1, false), &[2, 3, 6, 7]),
    // The N's window is 17 to 20 after its first leaf: 3 grains. An alpha of 18, rounded
    // up, would have cut it here.
    ((2, NONE), (21, 21, 1, false), &[2, 3, 6, 7]),
    // The N is cut at 0 to 20, and the C above it at 0 to 23.
    ((3, NONE), (21, 23, 1, false), &[2, 3, 6]),
    ((7, NONE), (21, 23, 1, false), &[2, 3, 6]),
    // The first play is cut at 15 to 23. The N's alpha is 9 then, and its window 9 to 20.
    ((8, NONE), (15, 23, 1, false), &[2, 6, 7]),
    ((10, NONE), (15, 23, 1, false), &[2, 6, 7]),
    ((11, NONE), (15, 23, 1, false), &[2, 6]),
    ((16, NONE), (15, 23, 1, false), &[2, 6]),
    // The root is cut.
    ((17, NONE), (15, 32, 1, false), &[2]),
    // The second play is met unread.
    ((0, 1), (15, 32, 1, true), &[2]),
    ((0, 2), (21, 32, 1, true), &[2, 3]),
    // The N is 0 to 20 as its second leaf is unread.
    ((0, 3), (21, 23, 1, true), &[2, 3, 6]),
];

const OF_BETA_BELOW: &[Known] = &[
    // The M is 32 to 32 and the C above it then 24 to 32, which is cut as 24 is above 20.
    ((0, NONE), (20, 20, 1, false), &[1, 4, 5]),
    // The M's window is 24 to 27 after its first leaf: 3 grains. A beta of 26, rounded
    // toward zero, would have cut it here.
    ((2, NONE), (20, 20, 1, false), &[1, 4, 5]),
    // The M is cut at 24 to 32, and the C above it at 18 to 32.
    ((3, NONE), (18, 20, 1, false), &[1, 4]),
    ((19, NONE), (18, 20, 1, false), &[1, 4]),
    // The root is cut.
    ((20, NONE), (0, 20, 1, false), &[1]),
    // The C is met unread.
    ((0, 1), (0, 20, 1, true), &[1]),
    // The M is 24 to 32 as its second leaf is unread, and so is the leaf after it.
    ((0, 2), (18, 20, 1, true), &[1, 4]),
];

const OF_GRAIN_APART: &[Known] = &[
    ((0, NONE), (6_480, 6_480, 1, false), &[1, 3, 5, 6, 8, 9]),
    // The second play is 6,300 to 6,588 after its first leaf, and its window 6,480 to
    // 6,588: 108 grains. So is that of the C below it, to which 6,480 is handed again.
    ((107, NONE), (6_480, 6_480, 1, false), &[1, 3, 5, 6, 8, 9]),
    ((108, NONE), (6_480, 6_588, 1, false), &[1, 3, 8, 9]),
    // The third play is 1,944 to 7,128 after its first leaf: 648 grains above 6,480.
    ((647, NONE), (6_480, 6_588, 1, false), &[1, 3, 8, 9]),
    ((648, NONE), (6_480, 7_128, 1, false), &[1, 3, 8]),
    // 36 times 108 grains are as wide as the root's window after the first play.
    ((3_887, NONE), (6_480, 7_128, 1, false), &[1, 3, 8]),
    ((3_888, NONE), (6_480, 10_368, 1, false), &[1]),
    // The second play is 6,475 to 6,483, as the last leaf of the C below it is unread, and
    // the third is met unread.
    ((0, 3), (6_480, 10_368, 1, true), &[1, 3, 5]),
    ((0, 4), (6_480, 10_368, 1, true), &[1, 3, 5, 6]),
    ((0, 5), (6_480, 7_128, 1, true), &[1, 3, 5, 6, 8]),
];

/// What is known of these tables.
fn known() -> Vec<(Vec<u8>, Asked, Expected)> {
    budget::known(&[
        (dotted(TABLE_A), 1, OF_TABLE_A),
        (dotted(TABLE_B), 4, OF_TABLE_B),
        (dotted(THREE_LEAVES), 4, OF_THREE_LEAVES),
        (dotted(CHANCE_BELOW), 4, OF_CHANCE_BELOW),
        (dotted(ALPHA_BELOW), 4, OF_ALPHA_BELOW),
        (dotted(BETA_BELOW), 4, OF_BETA_BELOW),
        (dotted(GRAIN_APART), 1_296, OF_GRAIN_APART),
    ])
}

#[test]
fn second_engine_has_the_known_answers() {
    budget::second_has(&known());
}

#[test]
fn examples() {
    budget::hold_known("searching examples under C", &known());
}
