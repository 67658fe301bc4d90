//! Tables by recipe (document 02, Item 7), held to the second engine, to closed formulas and
//! to tables worked out by hand; and what the other calls answer of them. The package's call
//! is in `package.rs`, the desk's verb in `desk_recipe.rs`, document 000's experiment on these
//! tables in `experiment.rs`.
//!
//! The environment variable SEED sets the seed of the random recipes, CASES their number.

use compare::engine;
use compare::hold::desk::example;
use compare::hold::padded::Everything;
use compare::hold::recipe::{
    buffer, hold_to, out_of_range, rooms, Comparison, Lent, FILLS, LONGEST, NUMBERS,
};
use compare::hold::seen::Seen;
use compare::hold::tally::Tally;
use compare::random::{number_from_environment, Random};
use compare::second::{self, Kind, Recipe, Refusal, LINE};
use compare::texts::examples::{dotted, escaped};

/// Every branching number, depth and number for dice in range, with this seed.
fn every_shape(seed: i64) -> Vec<Recipe> {
    let mut recipes = Vec::new();
    for dice in 0..=1 {
        for branching in 2..=5 {
            let depths = 0..=9;
            recipes.extend(depths.map(|depth| Recipe::new([seed, branching, depth, dice])));
        }
    }
    recipes
}

/// Those that have a table.
fn every_table(seed: i64) -> Vec<Recipe> {
    let mut recipes = every_shape(seed);
    recipes.retain(|recipe| recipe.table().is_ok());
    recipes
}

/// The ends of the seeds, and where bits of a seed or of a state come and go.
const SEEDS: [i64; 16] = [
    0,
    1,
    2,
    7,
    255,
    256,
    12_345,
    65_535,
    65_536,
    65_537,
    16_777_216,
    1_073_741_823,
    1_073_741_824,
    1_103_515_245,
    2_147_483_646,
    2_147_483_647,
];

/// No seeds, branching numbers, depths and numbers for dice: just outside the range, far
/// outside, and such as would be in it if bits were lost.
const NO_SEEDS: [i64; 10] = [
    -1,
    2_147_483_648,
    2_147_483_649,
    4_294_967_295,
    4_294_967_296,
    4_294_967_303,
    -2_147_483_648,
    1 << 40,
    i64::MIN,
    i64::MAX,
];
const NO_BRANCHINGS: [i64; 13] = [
    1,
    6,
    0,
    -1,
    -2,
    7,
    10,
    258,
    65_539,
    4_294_967_298,
    (1 << 60) + 5,
    i64::MIN,
    i64::MAX,
];
const NO_DEPTHS: [i64; 11] = [
    -1,
    10,
    11,
    -9,
    64,
    256,
    259,
    65_536,
    4_294_967_298,
    i64::MIN,
    i64::MAX,
];
const NO_DICE: [i64; 10] = [
    -1,
    2,
    3,
    -2,
    256,
    257,
    65_537,
    4_294_967_297,
    i64::MIN,
    i64::MAX,
];

const REFUSED: Refusal = Refusal {
    number: 19,
    line: 0,
};

// ---------------------------------------------------------------------------
// Recipes
// ---------------------------------------------------------------------------

/// Every branching number, depth and number for dice, with many seeds; each in buffers
/// of lengths around the text's, with and without room for the number.
#[test]
fn the_whole_space() {
    let mut comparison = Comparison::new("every recipe but for the seed", "reading them");
    let mut random = comparison.case(0);
    let mut seeds = SEEDS.to_vec();
    seeds.extend((0..16).map(|_| random.between(0, 2_147_483_647)));
    let mut tables = 0;
    for &seed in &seeds {
        for recipe in every_shape(seed) {
            let length = match recipe.table() {
                Ok(table) => LINE * (1 + table.nodes.len()),
                Err(_) => LONGEST,
            };
            let mut lent = Vec::new();
            for (turn, room) in rooms(length).into_iter().enumerate() {
                lent.push((room, NUMBERS[turn % NUMBERS.len()]));
            }
            lent.extend(NUMBERS.map(|numbers| (length, numbers)));
            lent.extend(NUMBERS.map(|numbers| (length - 1, numbers)));
            let text = comparison.hold(recipe, &lent, &mut random);
            tables += usize::from(text.is_ok());
        }
    }
    comparison.tally.report();
    // So many of the 80 shapes have at most 1,024 nodes.
    assert_eq!(tables, 40 * seeds.len());
    comparison.tally.demand_refusals(&[11, 19]);
    // Here all numbers are in range.
    comparison.seen.demand_by(|sort| {
        let out = sort.starts_with("19 for") && !sort.contains("the nodes");
        if out {
            0
        } else {
            100
        }
    });
}

/// Which recipes have a table at all: with each branching number the greatest depth and the
/// number of nodes there, and that of the next, which is refused.
#[test]
fn the_largest_of_each_branching_number() {
    let known = [
        (0, 2, 9, 1_023, 2_047),
        (0, 3, 5, 364, 1_093),
        (0, 4, 4, 341, 1_365),
        (0, 5, 4, 781, 3_906),
        (1, 2, 4, 511, 2_047),
        (1, 3, 2, 121, 1_093),
        (1, 4, 2, 341, 5_461),
        (1, 5, 2, 781, 19_531),
    ];
    let tally = Tally::new("the largest recipes");
    for (dice, branching, depth, nodes, too_many) in known {
        let recipe = Recipe::new([3, branching, depth, dice]);
        let mut text = vec![0; LINE * (1 + nodes)];
        assert_eq!(second::recipe(recipe, &mut text), Ok(text.len()));
        let count = text[..4].to_vec();
        assert_eq!(count, format!("{nodes:>4}").into_bytes(), "{recipe:?}");
        let buffer = &vec![0; LONGEST];
        let lent = Lent { buffer, numbers: 1 };
        hold_to(&tally, recipe, &lent, &Ok(&text));

        // A buffer for all of it would not help; and 10 plays are out of range.
        let next = Recipe {
            depth: depth + 1,
            ..recipe
        };
        assert_eq!(next.nodes(), too_many, "{next:?}");
        for length in [0, LONGEST, LINE * (1 + next.nodes() as usize)] {
            let buffer = &vec![0; length];
            let lent = Lent { buffer, numbers: 1 };
            hold_to(&tally, next, &lent, &Err(REFUSED));
        }
    }
}

/// A recipe with any seed; some of its numbers may be out of range.
fn any_recipe(random: &mut Random) -> Recipe {
    let mut recipe = Recipe {
        seed: match random.below(3) {
            0 => random.pick(&SEEDS),
            _ => random.between(0, 2_147_483_647),
        },
        branching: random.between(2, 5),
        depth: match random.below(3) {
            0 => random.between(0, 9),
            _ => random.between(0, 4),
        },
        dice: random.between(0, 1),
    };
    let faults = match random.below(10) {
        0..6 => 0,
        6..9 => 1,
        _ => 1 + random.below(4),
    };
    for _ in 0..faults {
        let far = random.bits() as i64;
        match random.below(4) {
            0 => recipe.seed = random.pick(&[&NO_SEEDS[..], &[far]].concat()),
            1 => recipe.branching = random.pick(&[&NO_BRANCHINGS[..], &[far]].concat()),
            2 => recipe.depth = random.pick(&[&NO_DEPTHS[..], &[far]].concat()),
            _ => recipe.dice = random.pick(&[&NO_DICE[..], &[far]].concat()),
        }
    }
    recipe
}

/// The main comparison. It also fails where a refusal came too seldom, or for one reason
/// alone.
#[test]
fn random_recipes() {
    let mut comparison = Comparison::new("random recipes", "reading random recipes");
    let cases = number_from_environment("CASES", 24_000);
    for number in 0..cases {
        let mut random = comparison.case(number);
        let recipe = any_recipe(&mut random);
        let length = match recipe.table() {
            Ok(table) => LINE * (1 + table.nodes.len()),
            Err(_) => random.pick(&[2 * LINE, LONGEST]),
        };
        let room = match random.below(4) {
            0 => random.below(length),
            1 => random.pick(&rooms(length)),
            2 => length + random.below(60),
            _ => length,
        };
        let numbers = random.pick(&NUMBERS);
        let text = comparison.hold(recipe, &[(room, numbers)], &mut random);
        let out = out_of_range(recipe);
        assert!(out.is_empty() || text == Err(REFUSED), "{recipe:?}");
    }
    comparison.tally.report();
    assert!(comparison.tally.cases >= 20_000, "too few recipes");
    comparison.seen.demand(100);
    comparison.tally.demand_refusals(&[11, 19]);
    assert!(comparison.tally.counts[0] >= 5_000, "too few tables");
}

/// Each number out of range, alone and with others, in buffers that have room and in such as
/// would be refused 11.
#[test]
fn out_of_range_numbers() {
    let mut comparison = Comparison::new("recipes out of range", "none to read");
    let mut random = comparison.case(0);
    let fair = [
        [0, 2, 0, 0],
        [2_147_483_647, 5, 2, 1],
        [7, 2, 9, 0],
        [9, 4, 1, 1],
        // These have too many nodes as well.
        [1, 5, 9, 1],
        [1, 3, 6, 0],
    ];
    let buffers = [0, 1, LINE, 2 * LINE - 1, 2 * LINE, LONGEST, LONGEST + 25];
    let lent: Vec<(usize, usize)> = buffers
        .iter()
        .flat_map(|&room| NUMBERS.map(|numbers| (room, numbers)))
        .collect();
    for fair in fair.map(Recipe::new) {
        let mut recipes = Vec::new();
        recipes.extend(NO_SEEDS.map(|seed| Recipe { seed, ..fair }));
        recipes.extend(NO_BRANCHINGS.map(|branching| Recipe { branching, ..fair }));
        recipes.extend(NO_DEPTHS.map(|depth| Recipe { depth, ..fair }));
        recipes.extend(NO_DICE.map(|dice| Recipe { dice, ..fair }));
        for (seed, branching) in NO_SEEDS.into_iter().zip(NO_BRANCHINGS) {
            recipes.push(Recipe {
                seed,
                branching,
                ..fair
            });
        }
        for (depth, dice) in NO_DEPTHS.into_iter().zip(NO_DICE) {
            recipes.push(Recipe {
                depth,
                dice,
                ..fair
            });
            let seed = random.pick(&NO_SEEDS);
            let branching = random.pick(&NO_BRANCHINGS);
            recipes.push(Recipe::new([seed, branching, depth, dice]));
        }
        for recipe in recipes {
            assert!(!out_of_range(recipe).is_empty(), "{recipe:?}");
            let text = comparison.hold(recipe, &lent, &mut random);
            assert_eq!(text, Err(REFUSED), "{recipe:?}");
        }
    }
    comparison.tally.report();
    assert!(comparison.tally.counts[19] >= 10_000, "too few refusals");
    for number in ["the seed", "the branching number", "the depth", "the dice"] {
        assert!(comparison.seen.of(&format!("19 for {number} alone")) >= 1_000);
    }
    assert!(comparison.seen.of("19 for several numbers") >= 1_000);
    assert!(comparison.seen.of("19 for a number, and 11 could be") >= 5_000);
}

/// Equal recipes give equal bytes, whatever the buffers held before and however long they
/// are, and whatever was written between.
#[test]
fn equal_recipes_give_equal_bytes() {
    let mut random = Random::new(7);
    for recipe in every_table(1_234_567) {
        let mut texts = Vec::new();
        for fill in FILLS {
            let mut buffer = buffer(LONGEST + 3, fill, &mut random);
            let mut numbers = [0];
            let returned = engine::recipe(recipe, &mut buffer, &mut numbers);
            assert_eq!(returned, 0, "{recipe:?}");
            buffer.truncate(numbers[0] as usize);
            texts.push(buffer);
            // Nothing is kept between calls, so another recipe between changes nothing.
            let other = Recipe { seed: 5, ..recipe };
            let mut between = vec![0; LONGEST];
            engine::recipe(other, &mut between, &mut []);
        }
        for text in &texts[1..] {
            assert_eq!(escaped(text), escaped(&texts[0]), "{recipe:?}");
        }
    }
}

// ---------------------------------------------------------------------------
// Worked out by hand
// ---------------------------------------------------------------------------

/// What the C standard's sample generator, which has these two constants, gives after
/// `srand(1)`: each number is the upper 15 bits of a state of 31.
const AFTER_ONE: [i64; 10] = [
    16_838, 5_758, 10_113, 17_515, 31_051, 5_627, 23_010, 7_419, 16_212, 4_086,
];

/// The first states after a seed, worked out with whole numbers of any length.
const STATES: [(i64, [i64; 4]); 4] = [
    (0, [12_345, 1_406_932_606, 654_583_775, 1_449_466_924]),
    (1, [1_103_527_590, 377_401_575, 662_824_084, 1_147_902_781]),
    (7, [1_282_168_116, 642_666_333, 712_265_938, 1_486_001_571]),
    (
        2_147_483_647,
        [1_043_980_748, 288_979_989, 646_343_466, 1_751_031_067],
    ),
];

/// The utilities of a recipe's leaves, in line order, by the second engine.
fn utilities(recipe: Recipe) -> Vec<i64> {
    let table = recipe.table().expect("a recipe of a table");
    let nodes = table.nodes.into_iter();
    nodes.filter_map(|node| node.utility).collect()
}

#[test]
fn second_engine_has_the_known_states() {
    for (seed, states) in STATES {
        let expected = states.map(|state| state / 65_536 % 101);
        // Four leaves: two plays of two, and one play of two with dice.
        for (depth, dice) in [(2, 0), (1, 1)] {
            let recipe = Recipe::new([seed, 2, depth, dice]);
            assert_eq!(utilities(recipe), expected, "{recipe:?}");
        }
    }
    for (depth, dice) in [(2, 0), (1, 1)] {
        let recipe = Recipe::new([1, 4, depth, dice]);
        let expected = AFTER_ONE.map(|number| number % 101);
        assert_eq!(utilities(recipe)[..10], expected, "{recipe:?}");
    }
}

/// Recipes, seed, branching number, depth and dice, with their tables, written with dots.
const KNOWN: [([i64; 4], &str); 8] = [
    // 12,345 is below 65,536.
    (
        [0, 2, 0, 0],
        "...1...1.......0.....100\n...0.L.................0\n",
    ),
    // T is the dice's at depth 0 too: 5 times 2.
    (
        [0, 3, 0, 1],
        "...1..10.......0.....100\n...0.L.................0\n",
    ),
    (
        [2_147_483_647, 5, 0, 1],
        "...1..20.......0.....100\n...0.L................72\n",
    ),
    (
        [0, 2, 1, 0],
        "...3...1.......0.....100\n\
         ...0.M..................\n\
         ...1.L....0............0\n\
         ...2.L....0...........56\n",
    ),
    (
        [1, 3, 1, 0],
        "...4...1.......0.....100\n\
         ...0.M..................\n\
         ...1.L....0...........72\n\
         ...2.L....0............1\n\
         ...3.L....0...........13\n",
    ),
    (
        [1, 2, 1, 1],
        "...7...5.......0.....100\n\
         ...0.M..................\n\
         ...1.C....0.............\n\
         ...2.L....1....4......72\n\
         ...3.L....1....1.......1\n\
         ...4.C....0.............\n\
         ...5.L....4....1......13\n\
         ...6.L....4....4......42\n",
    ),
    (
        [1, 3, 1, 1],
        "..13..10.......0.....100\n\
         ...0.M..................\n\
         ...1.C....0.............\n\
         ...2.L....1....8......72\n\
         ...3.L....1....1.......1\n\
         ...4.L....1....1......13\n\
         ...5.C....0.............\n\
         ...6.L....5....1......42\n\
         ...7.L....5....8......44\n\
         ...8.L....5....1......72\n\
         ...9.C....0.............\n\
         ..10.L....9....1......83\n\
         ..11.L....9....1......46\n\
         ..12.L....9....8......52\n",
    ),
    (
        [2_147_483_647, 2, 2, 0],
        "...7...1.......0.....100\n\
         ...0.M..................\n\
         ...1.N....0.............\n\
         ...2.L....1...........72\n\
         ...3.L....1...........66\n\
         ...4.N....0.............\n\
         ...5.L....4...........65\n\
         ...6.L....4...........54\n",
    ),
];

fn known() -> impl Iterator<Item = (Recipe, Vec<u8>)> {
    let known = KNOWN.into_iter();
    known.map(|(numbers, text)| (Recipe::new(numbers), dotted(text)))
}

#[test]
fn second_engine_has_the_known_texts() {
    for (recipe, text) in known() {
        let mut buffer = vec![0; LONGEST];
        assert_eq!(second::recipe(recipe, &mut buffer), Ok(text.len()));
        assert_eq!(escaped(&buffer[..text.len()]), escaped(&text));
    }
}

/// The proved engine has the known texts too, whatever the second says, in buffers of every
/// length.
#[test]
fn known_texts() {
    let tally = Tally::new("known recipes");
    let short = Err(Refusal {
        number: 11,
        line: 0,
    });
    for (recipe, text) in known() {
        for room in 0..text.len() + 60 {
            let expected = if room < text.len() {
                short
            } else {
                Ok(&text[..])
            };
            for numbers in NUMBERS {
                let buffer = &vec![0xa5; room];
                hold_to(&tally, recipe, &Lent { buffer, numbers }, &expected);
            }
        }
    }
}

/// The examples, which the second engine made.
#[test]
fn examples() {
    let tally = Tally::new("the examples by recipe");
    for (numbers, lines) in [([7, 2, 3, 0], 16), ([7, 2, 2, 1], 32), ([1, 4, 2, 1], 342)] {
        let recipe = Recipe::new(numbers);
        let [seed, branching, depth, dice] = numbers;
        let with = if dice == 1 { "-dice" } else { "" };
        let (file, text) = example(&format!("recipe-{seed}-{branching}-{depth}{with}"));
        assert_eq!(text.len(), LINE * lines, "{file}");
        let mut buffer = vec![0; LONGEST];
        assert_eq!(second::recipe(recipe, &mut buffer), Ok(text.len()));
        assert_eq!(escaped(&buffer[..text.len()]), escaped(&text), "{file}");
        let buffer = &vec![0; LONGEST];
        let lent = Lent { buffer, numbers: 1 };
        hold_to(&tally, recipe, &lent, &Ok(&text));
    }
}

// ---------------------------------------------------------------------------
// The other calls
// ---------------------------------------------------------------------------

/// Tables of every shape, by every call that reads one: the worth, the judgement, the
/// searches, the index, turning, rollouts and the report.
#[test]
fn by_every_other_call() {
    let mut all = Everything::new([
        "recipes, reading",
        "recipes, the worth",
        "recipes, judging",
        "recipes, searching",
        "recipes, searching within a budget",
        "recipes, indexing",
        "recipes, searching with an index",
        "recipes, turning",
        "recipes, rolling out",
        "recipes, reports",
    ]);
    let mut seen = Seen::default();
    for number in 0..12 {
        let mut random = Random::of_case(all.worth.seed, number);
        for recipe in every_table(random.between(0, 2_147_483_647)) {
            let mut text = vec![0; LONGEST];
            let returned = engine::recipe(recipe, &mut text, &mut []);
            assert_eq!(returned, 0, "{recipe:?}");
            let table = recipe.table().expect("a recipe of a table");
            text.truncate(LINE * (1 + table.nodes.len()));
            assert_eq!(all.hold(&text, &mut random), Ok(table.clone()));

            seen.count_chances(&table);
            let root = table.nodes[0].kind;
            for kind in [Kind::Max, Kind::Leaf] {
                seen.count(&format!("root {kind:?}"), root == kind);
            }
            let worth = second::worth(&table);
            seen.count("a worth of no whole points", worth % table.grains != 0);
        }
    }
    for tally in all.tallies() {
        tally.report();
        assert!(tally.cases >= 480, "too few tables");
        assert!(tally.counts[0] >= 250, "too few answers");
    }
    seen.demand(10);
    let [_, _, judging, plain, within, building, indexed, turning, rolling, _] = all.tallies();
    for (tally, refusals) in [
        (judging, &[14][..]),
        (plain, &[11, 12]),
        (within, &[11, 12, 17]),
        (building, &[11]),
        (indexed, &[11, 12, 22]),
        (turning, &[11]),
        (rolling, &[11, 13]),
    ] {
        for &number in refusals {
            assert!(tally.counts[number] >= 10, "refusal {number} too seldom");
        }
    }
}
