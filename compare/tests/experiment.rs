//! Document 000's experiments on random trees: how many nodes the search leaves out, and how
//! far apart its bounds are.

use compare::engine;
use compare::hold::numbers::ROOM;
use compare::hold::searching::{hold_to, Expected, PATTERN};
use compare::hold::tally::{say, Tally};
use compare::random::Random;
use compare::second::{self, Kind, Recipe, Step, Table, Terms};
use compare::texts::knobs::Knobs;

/// The inner nodes that were expanded: those that have a leaf read under them.
fn expanded(table: &Table, leaves: &[u16]) -> usize {
    let inner = |node: &second::Node| node.kind != Kind::Leaf;
    let nodes = table.nodes.iter().enumerate();
    nodes
        .filter(|(i, node)| {
            let run = *i..node.stop;
            inner(node) && leaves.iter().any(|&leaf| run.contains(&(leaf as usize)))
        })
        .count()
}

fn mean(numbers: &[f64]) -> f64 {
    numbers.iter().sum::<f64>() / numbers.len() as f64
}

/// What the proved engine expands of document 000's random trees, branching 4
/// and depth 3, at margin 32 over margin 0; the paper prints 0.67 for 50 trees.
/// More trees give a steadier average, and the spread of the ratios says how far
/// an average over 50 is off as a rule.
#[test]
fn first_experiment() {
    let mut tally = Tally::new("searching the trees of document 000's first experiment");
    for trees in [50, 5_000] {
        let mut ratios = Vec::new();
        let mut sums = [0, 0];
        for number in 0..trees {
            let text = Knobs::even(4, 3).text(&mut Random::of_case(tally.seed, number));
            let table = second::read(&text).expect("valid");
            assert_eq!((table.nodes.len(), table.leaves), (85, 64));
            let counts = [0, 32].map(|margin| {
                let expected = Expected::of(&Ok(table.clone()), margin, 64);
                hold_to(&tally, &text, margin, 64, ROOM, &expected);
                let mut leaves = [PATTERN; 64];
                let mut numbers = [0; 5];
                assert_eq!(engine::search(&text, margin, &mut leaves, &mut numbers), 0);
                expanded(&table, &leaves[..numbers[3] as usize])
            });
            ratios.push(counts[1] as f64 / counts[0] as f64);
            sums = [sums[0] + counts[0], sums[1] + counts[1]];
            tally.add(&[0, 0]);
        }
        let average = mean(&ratios);
        let squares: Vec<f64> = ratios.iter().map(|r| (r - average).powi(2)).collect();
        let error = (mean(&squares) / 50.0).sqrt();
        let of_sums = sums[1] as f64 / sums[0] as f64;
        say(&format!(
            "branching 4, depth 3, {trees} trees: inner nodes expanded at margin 32 over those \
             at margin 0: {average:.3} on average (an average over 50 trees is off by {error:.3} \
             as a rule), {of_sums:.3} of the sums, {} over {}; document 000 prints 0.67",
            sums[1], sums[0],
        ));
        assert!((0.5..0.8).contains(&average), "far from the paper's 0.67");
    }
    tally.report();
}

// ---------------------------------------------------------------------------
// Random trees with dice
// ---------------------------------------------------------------------------

/// The paper's margins in points, of those that it prints figures for.
const EPSILONS: [i64; 3] = [0, 8, 24];

/// What it prints of its stochastic random trees of branching 4: the expanded ratio, and the
/// difference of the bounds in points.
const PRINTED_RATIOS: [f64; 3] = [1.0, 0.79, 0.4];
const PRINTED_APART: [f64; 3] = [0.0, 6.58, 20.71];

/// What came of the search of a tree at one margin.
struct Searched {
    /// The M, N and C that were entered, and the M and N alone.
    inner: f64,
    sides: f64,
    leaves: f64,
    /// The difference of the bounds, in points.
    apart: f64,
}

/// Searches a tree to a margin in points by the second engine, which takes trees of any
/// size.
fn searched(tree: &Table, epsilon: i64) -> Searched {
    let mut list = vec![0; tree.leaves];
    let mut entered = vec![false; tree.nodes.len()];
    let margin = epsilon * tree.grains;
    let found = second::search_watched(tree, Terms::of(margin), &mut list, |step| {
        // Every line of these trees has two children or more, so that each that is entered
        // is tested.
        if let Step::Test(node, _) = step {
            entered[node] = true;
        }
    });
    let found = found.expect("an answer");
    let apart = found.high - found.low;
    assert!(apart <= margin, "document 000's Theorem 1");
    let entered = tree.nodes.iter().zip(entered);
    let entered: Vec<Kind> = entered
        .filter(|(_, entered)| *entered)
        .map(|(node, _)| node.kind)
        .collect();
    let sides = entered.iter().filter(|kind| **kind != Kind::Chance);
    Searched {
        inner: entered.len() as f64,
        sides: sides.count() as f64,
        leaves: found.read as f64,
        apart: apart as f64 / tree.grains as f64,
    }
}

/// Holds the proved engine to the second on a tree that is a table, and the inner nodes
/// entered to the leaves read.
fn hold_table(tally: &Tally, recipe: Recipe, table: &Table) {
    let mut text = vec![0; 25 * (1 + table.nodes.len())];
    assert_eq!(engine::recipe(recipe, &mut text, &mut []), 0, "{recipe:?}");
    for epsilon in EPSILONS {
        let margin = epsilon * table.grains;
        let expected = Expected::of(&Ok(table.clone()), margin, table.leaves);
        hold_to(tally, &text, margin, table.leaves, ROOM, &expected);
        let inner = expanded(table, &expected.leaves);
        assert_eq!(inner as f64, searched(table, epsilon).inner);
    }
}

/// Averages over trees, at each margin: of the inner nodes entered over those at margin 0,
/// the same of M and N alone and of the leaves read, and of the difference of the bounds.
struct Averages {
    inner: [f64; 3],
    sides: [f64; 3],
    leaves: [f64; 3],
    apart: [f64; 3],
}

/// Trees by recipe with dice, with random seeds. Those of more nodes than a table has are
/// searched by the second engine alone.
fn averages(tally: &mut Tally, branching: i64, depth: i64, trees: u64) -> Averages {
    let mut found = [const { Vec::new() }; 3];
    for number in 0..trees {
        let seed = Random::of_case(tally.seed, number).between(0, 2_147_483_647);
        let recipe = Recipe::new([seed, branching, depth, 1]);
        let tree = recipe.grown();
        if recipe.table().is_ok() {
            hold_table(tally, recipe, &tree);
        }
        let all = EPSILONS.map(|epsilon| searched(&tree, epsilon));
        let least = &all[0];
        for (found, one) in found.iter_mut().zip(&all) {
            found.push([
                one.inner / least.inner,
                one.sides / least.sides,
                one.leaves / least.leaves,
                one.apart,
            ]);
        }
        tally.add(&[0; 3]);
    }
    let of = |which: usize| {
        found.each_ref().map(|found| {
            let numbers: Vec<f64> = found.iter().map(|numbers| numbers[which]).collect();
            mean(&numbers)
        })
    };
    let averages = Averages {
        inner: of(0),
        sides: of(1),
        leaves: of(2),
        apart: of(3),
    };
    let shown = |numbers: [f64; 3], places: usize| {
        let shown = numbers.map(|number| format!("{number:.places$}"));
        shown.join(", ")
    };
    let nodes = Recipe::new([0, branching, depth, 1]).nodes();
    say(&format!(
        "branching {branching}, {depth} plays with dice ({nodes} nodes), {trees} trees, margins \
         of 0, 8 and 24 points: inner nodes expanded over those at margin 0: {}; M and N alone: \
         {}; leaves read: {}; bounds apart: {} points",
        shown(averages.inner, 3),
        shown(averages.sides, 3),
        shown(averages.leaves, 3),
        shown(averages.apart, 2),
    ));
    averages
}

impl Averages {
    /// What holds of averages over these trees: the margin is kept, which is a theorem of
    /// each tree; a wider one reads less and leaves the bounds further apart.
    fn hold(&self) {
        assert_eq!((self.inner[0], self.leaves[0]), (1.0, 1.0));
        assert_eq!(self.apart[0], 0.0);
        // Inner nodes may become more, as cuts come later where windows differ.
        assert!(self.inner[1] < 1.05 && self.inner[2] < self.inner[1]);
        assert!(self.leaves[1] < 1.0 && self.leaves[2] < self.leaves[1]);
        assert!(0.0 < self.apart[1] && self.apart[1] <= 8.0);
        assert!(self.apart[1] < self.apart[2] && self.apart[2] <= 24.0);
    }
}

/// Document 000's stochastic random trees, made by recipe. The paper prints figures for
/// branching 4 and depth 4, over 50 trees. If its depth counts lines, these are two plays,
/// which are tables; if it counts plays, they have 87,381 nodes.
#[test]
fn random_trees_with_dice() {
    let mut tally = Tally::new("searching document 000's random trees with dice");
    for trees in [50, 1_000] {
        let all: Vec<Averages> = (2..=5)
            .map(|branching| averages(&mut tally, branching, 2, trees))
            .collect();
        for one in &all {
            one.hold();
        }
        // The paper's other trend: the more children, the more is left out.
        if trees == 1_000 {
            assert!(all.is_sorted_by(|less, more| less.leaves[2] > more.leaves[2]));
            assert!(all.is_sorted_by(|less, more| less.inner[2] > more.inner[2]));
        }
        let four = &all[2];
        for i in 1..3 {
            assert!((four.apart[i] - PRINTED_APART[i]).abs() < 5.0);
            // The paper does not say what it counts as an expansion with dice; the
            // leaves read come nearest to its ratio (docs/SPEED.md).
            assert!((four.leaves[i] - PRINTED_RATIOS[i]).abs() < 0.15);
        }
    }
    let all: Vec<Averages> = (2..=5)
        .map(|branching| averages(&mut tally, branching, 4, 50))
        .collect();
    for one in &all {
        one.hold();
    }
    let four = &all[2];
    for i in 1..3 {
        assert!((four.apart[i] - PRINTED_APART[i]).abs() < 1.5);
        assert!((four.leaves[i] - PRINTED_RATIOS[i]).abs() < 0.15);
    }
    say(&format!(
        "document 000 prints, for branching 4, ratios of {PRINTED_RATIOS:?} and bounds \
         {PRINTED_APART:?} apart"
    ));
    tally.report();
}
