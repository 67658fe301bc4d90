//! Holds the generator of random tables to its knobs, so that a test which turns
//! one gets the tables that it asks for; and the benchmark's tables to what they
//! were.

use compare::hold::best_plays;
use compare::hold::seen::{Seen, ROOTS, SIDES};
use compare::hold::totals::{on_one_path, uses};
use compare::random::{seed, Random};
use compare::second::{self, root_children, Kind, Table, MOST_CHANCES, MOST_TOTAL};
use compare::texts::examples::escaped;
use compare::texts::knobs::{
    Kinds, Knobs, Order, Shape, Utilities, Weights, OPENINGS, ROLLS, WIDEST,
};
use compare::texts::totals::{Grains, Plan, GRAINS};
use compare::texts::{self, bench, level, matches, ties, windows};

/// A setting and its name.
type Setting = (&'static str, fn(&mut Random) -> Knobs);

/// Every setting whose tables are valid, and some with knobs turned besides.
const SETTINGS: [Setting; 21] = [
    ("any", Knobs::any),
    ("plain", Knobs::plain),
    ("close", Knobs::close),
    ("narrow", Knobs::narrow),
    ("ties", Knobs::ties),
    ("forced", Knobs::forced),
    ("dice", Knobs::dice),
    ("position", Knobs::position),
    ("chancy", Knobs::chancy),
    ("tiny", matches::tiny),
    ("largest", Knobs::largest),
    ("largest plain", Knobs::largest_plain),
    ("largest chains", Knobs::largest_chains),
    ("largest flat", |random| Knobs::largest_flat(b"N", random)),
    ("even", |_| Knobs::even(4, 3)),
    ("benchmark", |_| bench::bushy(256)),
    ("benchmark replies", |_| bench::replies(256)),
    ("benchmark rerolls", |_| bench::rerolls(256)),
    ("forced dice", |random| Knobs {
        forced: true,
        ..Knobs::dice(random)
    }),
    ("one side", |random| Knobs {
        root: Kinds {
            sides: b"M",
            rarity: 0,
        },
        inner: Kinds {
            sides: b"N",
            rarity: 3,
        },
        chances: random.below(1 + MOST_CHANCES),
        ..Knobs::any(random)
    }),
    ("by turns", |random| Knobs {
        utilities: Utilities::Uniform,
        order: Order::ByTurns,
        weights: Weights::Even,
        ..Knobs::any(random)
    }),
];

/// Every setting makes valid tables, and they are as each knob says.
#[test]
fn tables_are_as_the_knobs_say() {
    for (name, setting) in SETTINGS {
        for number in 0..1_000 {
            let mut random = Random::of_case(seed(), number);
            let knobs = setting(&mut random);
            let text = knobs.text(&mut random);
            let place = || format!("{name}, case {number}: {knobs:?}\n{}", escaped(&text));
            let table =
                second::read(&text).unwrap_or_else(|refusal| panic!("{refusal:?} at {}", place()));
            let broken = broken_knob(&knobs, &table);
            assert_eq!(broken, None, "a knob is not obeyed by {}", place());
        }
    }
}

/// The first knob, by name, that a table does not obey.
fn broken_knob(knobs: &Knobs, table: &Table) -> Option<&'static str> {
    let fewer = knobs.stops > 0 || knobs.weights == Weights::Dice;
    let nodes = table.nodes.len();
    let ends = (table.lowest, table.highest);
    let side = matches!(table.nodes[0].kind, Kind::Max | Kind::Min);
    let forced = !side || root_children(table) == 1;
    let knobs_and_tables = [
        (
            "nodes",
            nodes == knobs.nodes || fewer && nodes < knobs.nodes,
        ),
        ("totals", totals_obey(knobs, table)),
        ("grains", table.grains <= knobs.grains),
        ("ends", ends == knobs.ends),
        ("utilities", utilities_obey(knobs, table)),
        ("kinds", kinds_obey(knobs, table)),
        ("order", order_obeys(knobs.order, table)),
        ("chances", table.chances as usize <= knobs.chances),
        ("path", longest_path(table) <= knobs.path),
        ("shape", shape_obeys(knobs, table)),
        ("forced", forced || !knobs.forced),
        ("weights", weights_obey(knobs.weights, table)),
    ];
    let broken = knobs_and_tables.iter().find(|(_, obeyed)| !obeyed);
    broken.map(|(name, _)| *name)
}

fn totals_obey(knobs: &Knobs, table: &Table) -> bool {
    let totals = Some(table.total).into_iter().chain(table.second);
    totals.eq(knobs.totals.iter().copied())
}

fn utilities_obey(knobs: &Knobs, table: &Table) -> bool {
    let mut utilities = table.nodes.iter().filter_map(|node| node.utility);
    match &knobs.utilities {
        Utilities::OneOf(of) => utilities.all(|utility| of.contains(&utility)),
        // The reader has held them to the ends.
        Utilities::Spread | Utilities::Uniform => true,
    }
}

fn kinds_obey(knobs: &Knobs, table: &Table) -> bool {
    // Sides that are set by the order are held to that.
    let by_order = |node: &second::Node| node.parent.is_some() && knobs.order != Order::Any;
    table.nodes.iter().all(|node| {
        let kinds = match node.parent {
            None => knobs.root,
            Some(_) => knobs.inner,
        };
        match node.kind {
            Kind::Max => kinds.sides.contains(&b'M') || by_order(node),
            Kind::Min => kinds.sides.contains(&b'N') || by_order(node),
            Kind::Chance => kinds.rarity > 0 || knobs.order == Order::Rolls,
            Kind::Leaf => true,
        }
    })
}

fn order_obeys(order: Order, table: &Table) -> bool {
    let decides = |node: usize| matches!(table.nodes[node].kind, Kind::Max | Kind::Min);
    let above = |node: usize| table.nodes[node].parent;
    (1..table.nodes.len()).all(|node| {
        let parent = above(node).expect("only the root has none");
        let mut last = Some(parent);
        while last.is_some_and(|node| !decides(node)) {
            last = last.and_then(above);
        }
        let other = last.is_none_or(|last| table.nodes[last].kind != table.nodes[node].kind);
        let turns = !decides(node) || other;
        let rolls = table.nodes[node].kind == Kind::Leaf || decides(node) != decides(parent);
        match order {
            Order::Any => true,
            Order::ByTurns => turns,
            Order::Rolls => turns && rolls,
        }
    })
}

fn longest_path(table: &Table) -> usize {
    depths(table).into_iter().max().expect("a node")
}

/// The nodes on the path to each node, itself counted.
fn depths(table: &Table) -> Vec<usize> {
    let mut depths: Vec<usize> = Vec::new();
    for node in &table.nodes {
        depths.push(node.parent.map_or(1, |parent| depths[parent] + 1));
    }
    depths
}

/// How many children each inner node has, in line order of the nodes.
fn children(table: &Table) -> Vec<usize> {
    let mut children = vec![0; table.nodes.len()];
    for parent in table.nodes.iter().filter_map(|node| node.parent) {
        children[parent] += 1;
    }
    children.retain(|children| *children > 0);
    children
}

fn shape_obeys(knobs: &Knobs, table: &Table) -> bool {
    let children = children(table);
    let mut below = children.iter().skip(1);
    match knobs.shape {
        // At the last level but one, and at a C, there may be other numbers.
        Shape::Flat | Shape::Deep | Shape::Bushy(..) | Shape::Any => true,
        Shape::Even(number) => children.iter().all(|children| *children == number),
        Shape::Chains => below.all(|children| *children == 1),
        Shape::Levels(lengths) => (1..).zip(&depths(table)[1..]).all(|(node, depth)| {
            let length = table.nodes[node].stop - node;
            length == 1 || length == lengths[depth - 2]
        }),
    }
}

fn weights_obey(knob: Weights, table: &Table) -> bool {
    weights(table).iter().all(|weights| {
        let of_one = weights.iter().filter(|weight| **weight == 1).count();
        let sum: i64 = weights.iter().sum();
        match knob {
            Weights::Any | Weights::Uneven => true,
            Weights::Even => spread(weights) <= 1,
            Weights::Dice if sum == 36 => (weights.len(), of_one) == (ROLLS, 6),
            Weights::Dice => (weights.len(), of_one, sum) == (OPENINGS, OPENINGS, 15),
        }
    })
}

/// The weights under each C.
fn weights(table: &Table) -> Vec<Vec<i64>> {
    let mut weights = vec![Vec::new(); table.nodes.len()];
    for node in &table.nodes {
        if let (Some(parent), Some(weight)) = (node.parent, node.weight) {
            weights[parent].push(weight);
        }
    }
    weights.retain(|weights| !weights.is_empty());
    weights
}

/// By how much the heaviest outweighs the lightest.
fn spread(weights: &[i64]) -> i64 {
    let (least, greatest) = (weights.iter().min(), weights.iter().max());
    greatest.expect("a child") - least.expect("a child")
}

/// The knobs that set no bounds move what they should: few utilities make plays
/// of the same worth, uneven weights are far apart, and with dice there are all
/// numbers of C on a path.
#[test]
fn knobs_move_what_they_should() {
    let mut seen = Seen::default();
    for number in 0..2_000 {
        let mut random = Random::of_case(seed(), number);
        let mut make = |setting: fn(&mut Random) -> Knobs| {
            let text = texts::make(setting, &mut random);
            second::read(&text).expect("valid")
        };
        let ties = make(|random| Knobs {
            ends: WIDEST,
            utilities: Utilities::OneOf(vec![0, 1]),
            ..Knobs::plain(random)
        });
        let best = best_plays(&ties, &second::worths(&ties));
        seen.count("several plays of the best worth", best > 1);

        let uneven = make(|random| Knobs {
            totals: vec![MOST_TOTAL],
            weights: Weights::Uneven,
            ..Knobs::narrow(random)
        });
        let apart = weights(&uneven).iter().any(|weights| spread(weights) > 20);
        seen.count("weights that differ by more than 20", apart);

        seen.count_chances(&make(Knobs::dice));
    }
    seen.demand(150);
}

/// Plays of every kind are forced on M and on N.
#[test]
fn forced_plays_are_of_every_kind() {
    let mut seen = Seen::default();
    for number in 0..5_000 {
        let mut random = Random::of_case(seed(), number);
        let text = texts::make(Knobs::forced, &mut random);
        let table = second::read(&text).expect("valid");
        assert_eq!(root_children(&table), 1);
        for side in SIDES {
            for play in ROOTS {
                let is_one = (table.nodes[0].kind, table.nodes[1].kind) == (side, play);
                seen.count(&format!("{play:?} forced on {side:?}"), is_one);
            }
        }
    }
    seen.demand(100);
}

/// Tables made by a plan are valid and lose what is planned, by every number of C on
/// a path; level plays are of every kind, and leaves beside others.
#[test]
fn plans_are_kept() {
    let mut seen = Seen::default();
    for number in 0..10_000 {
        let mut random = Random::of_case(seed(), number);
        let planned = level::planned(&mut random);
        let place = || format!("case {number}:\n{}", escaped(&planned.text));
        let table = second::read(&planned.text)
            .unwrap_or_else(|refusal| panic!("{refusal:?} at {}", place()));
        assert_eq!(table.grains, planned.grains, "{}", place());
        assert!(table.grains > 1 && planned.losses.len() >= 2, "{}", place());

        let worths = second::worths(&table);
        let plays: Vec<usize> = (1..table.nodes.len())
            .filter(|&node| table.nodes[node].parent == Some(0))
            .collect();
        let lost = |&play: &usize| match table.nodes[0].kind {
            Kind::Max => worths[0] - worths[play],
            _ => worths[play] - worths[0],
        };
        let losses: Vec<i64> = plays.iter().map(lost).collect();
        assert_eq!(losses, planned.losses, "{}", place());
        count_plan(&mut seen, &table, &plays, &losses);
    }
    seen.demand_but(1_000, |sort| sort == "K 0");
}

/// Counts what a table made by a plan is like, its plays and their losses given.
fn count_plan(seen: &mut Seen, table: &Table, plays: &[usize], losses: &[i64]) {
    let point = table.grains;
    seen.count_root(&SIDES, table);
    seen.count_chances(table);
    seen.count("a grain lost", losses.contains(&1));
    let several = |loss: &i64| 2 <= *loss && *loss <= point - 2;
    seen.count("several grains lost", losses.iter().any(several));
    seen.count("a grain less than a point", losses.contains(&(point - 1)));
    seen.count("a point lost", losses.contains(&point));
    seen.count("more lost", losses.iter().any(|loss| *loss > point));

    let numbered = plays.iter().zip(losses);
    let level: Vec<usize> = numbered
        .filter_map(|(play, loss)| (*loss == 0).then_some(*play))
        .collect();
    let is = |play: usize, kind| table.nodes[play].kind == kind;
    let any = |kind| level.iter().any(|play| is(*play, kind));
    for kind in ROOTS {
        seen.count(&format!("a level {kind:?}"), any(kind));
    }
    let other = [Kind::Max, Kind::Min, Kind::Chance].map(any);
    seen.count(
        "a level leaf beside another kind",
        any(Kind::Leaf) && other.contains(&true),
    );
    let nested = level.iter().any(|&play| {
        let mut run = play + 1..table.nodes[play].stop;
        is(play, Kind::Chance) && run.any(|node| is(node, Kind::Chance))
    });
    seen.count("a level C over another", nested);
}

/// Tables made for their windows are valid and have every number of C on a path; under
/// each C one child has most of the weight, and that is of the side that is not to move
/// at the root.
#[test]
fn windows_are_under_heavy_children() {
    let mut seen = Seen::default();
    for number in 0..2_000 {
        let text = windows::narrowed(&mut Random::of_case(seed(), number));
        let place = || format!("case {number}:\n{}", escaped(&text));
        let table =
            second::read(&text).unwrap_or_else(|refusal| panic!("{refusal:?} at {}", place()));
        let root = table.nodes[0].kind;
        let heavy = table.nodes.iter().filter(|node| {
            let sum = node.parent.map_or(0, |parent| table.nodes[parent].sum);
            node.weight.is_some_and(|weight| 3 * weight >= 2 * sum)
        });
        let kinds: Vec<Kind> = heavy.map(|node| node.kind).collect();
        assert_eq!(kinds.len(), weights(&table).len(), "{}", place());
        let others = [Kind::Max, Kind::Min].contains(&root) && !kinds.contains(&root);
        assert!(others && !kinds.contains(&Kind::Leaf), "{}", place());
        seen.count_root(&SIDES, &table);
        seen.count_chances(&table);
        seen.count("both totals on a path", on_one_path(&table));
    }
    seen.demand_but(300, |sort| sort == "K 0");
}

/// Tables whose plays are alike are valid, have two plays to eight and up to two C on a
/// path; plays are often the same in all but their place, or but for one leaf too.
#[test]
fn plays_are_alike() {
    let mut seen = Seen::default();
    for number in 0..2_000 {
        let text = ties::alike(&mut Random::of_case(seed(), number));
        let place = || format!("case {number}:\n{}", escaped(&text));
        let table =
            second::read(&text).unwrap_or_else(|refusal| panic!("{refusal:?} at {}", place()));
        assert!((2..=8).contains(&root_children(&table)), "{}", place());
        assert!(table.chances <= 2, "{}", place());
        seen.count_root(&SIDES, &table);
        seen.count_chances(&table);
        let plays = plays(&table);
        let apart = |leaves| {
            let mut pairs = plays.windows(2);
            pairs.any(|pair| leaves_apart(&pair[0], &pair[1]) == Some(leaves))
        };
        seen.count("two plays that are the same", apart(0));
        seen.count("two plays with one leaf apart", apart(1));
        let both = uses(&table).iter().all(|uses| *uses > 0);
        seen.count("both totals under C", both);
    }
    seen.demand_but(60, |sort| ["K 3", "K 4"].contains(&sort));
}

/// The lines of each play at the root, without what tells their place.
fn plays(table: &Table) -> Vec<Vec<second::Node>> {
    let nodes = table.nodes.iter().enumerate();
    let plays = nodes.filter(|(_, node)| node.parent == Some(0));
    let moved = |play: usize, node: &second::Node| second::Node {
        parent: node.parent.and_then(|parent| parent.checked_sub(play)),
        stop: node.stop - play,
        ..node.clone()
    };
    let lines = |(play, node): (usize, &second::Node)| {
        let run = &table.nodes[play..node.stop];
        run.iter().map(|node| moved(play, node)).collect()
    };
    plays.map(lines).collect()
}

/// How many leaves differ, where that is all the difference.
fn leaves_apart(one: &[second::Node], other: &[second::Node]) -> Option<usize> {
    let bare = |node: &second::Node| second::Node {
        utility: None,
        ..node.clone()
    };
    let alike = one.iter().map(bare).eq(other.iter().map(bare));
    let pairs = one.iter().zip(other);
    let apart = pairs.filter(|(one, other)| one != other).count();
    alike.then_some(apart)
}

/// Tables with two totals by a plan have the planned uses of each and so the planned grain
/// count, and nothing wrong but that it may be too great; both totals on one path, both and
/// never on one, and one of them without a use, come often.
#[test]
fn totals_are_used_as_planned() {
    let mut seen = Seen::default();
    for number in 0..6_000 {
        let mut random = Random::of_case(seed(), number);
        let plan = match number % 6 {
            0 => Plan::any(&mut random),
            other => Plan::of(GRAINS[other as usize - 1], &mut random),
        };
        let text = plan.text(&mut random);
        let place = || format!("case {number}, {plan:?}:\n{}", escaped(&text));
        let table = second::read_up_to(&text, i64::MAX)
            .unwrap_or_else(|refusal| panic!("{refusal:?} at {}", place()));
        let totals = [Some(table.total), table.second];
        assert_eq!(totals, plan.totals.map(Some), "{}", place());
        assert_eq!(
            uses(&table),
            plan.uses.map(|uses| uses as u32),
            "{}",
            place()
        );
        assert_eq!(table.grains, plan.grains(), "{}", place());
        let refused = second::read(&text).is_err_and(|refusal| refusal.number == 18);
        let above = Grains::Above.contains(plan.grains());
        assert_eq!(refused, above, "{}", place());

        let [first, second] = plan.uses.map(|uses| uses > 0);
        seen.count("both totals on a path", on_one_path(&table));
        let apart = first && second && !on_one_path(&table);
        seen.count("both totals, never on one path", apart);
        seen.count("the first total alone", first && !second);
        seen.count("the second total alone", second && !first);
        seen.count_root(&[Kind::Max, Kind::Min, Kind::Chance], &table);
        for grains in GRAINS {
            let here = grains.contains(table.grains);
            seen.count(&format!("{grains:?}"), here);
        }
        seen.count("a grain count allowed", !above);
    }
    seen.demand(200);
}

/// The benchmark's figures are compared with those of earlier runs, so every byte
/// of its tables is as it was.
#[test]
fn benchmark_tables() {
    const SEED: u64 = 20_001;
    let shapes: [(bench::Shape, u64); 6] = [
        (bench::flat, 0xe09a_90b8_7de4_822b),
        (bench::deep, 0xe0e1_b2cf_ca1c_d386),
        (bench::bushy, 0x6891_846a_0083_aa20),
        (bench::bushy_plain, 0xbec5_ab31_2ead_d14c),
        (bench::replies, 0x7421_9ecf_9fd3_c1af),
        (bench::rerolls, 0xb496_46fe_9494_f76a),
    ];
    for (shape, expected) in shapes {
        let mut sum: u64 = 0xcbf2_9ce4_8422_2325;
        for size in [64, 256, 1_024] {
            let mut random = Random::new(SEED);
            for _ in 0..8 {
                let text = shape(size).text(&mut random);
                // FNV-1a, of 64 bits.
                for byte in text {
                    sum = (sum ^ u64::from(byte)).wrapping_mul(0x100_0000_01b3);
                }
            }
        }
        assert_eq!(sum, expected, "{:?}", shape(64));
    }
}
