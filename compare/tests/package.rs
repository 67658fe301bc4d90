//! Holds the Rust package's typed calls to the second engine: every field of each
//! answer, and the refusals. The engine behind them has tests of its own; what
//! could go wrong here is the handing over.
//!
//! The environment variable SEED sets the seed of the random texts, CASES their
//! number.

use std::fmt::Debug;

use compare::hold::budget::no_budget;
use compare::hold::desk::example;
use compare::hold::seen::{Seen, ROOTS, SIDES};
use compare::hold::tally::{Tally, OF_TABLES};
use compare::hold::{code, span};
use compare::random::{number_from_environment, Random};
use compare::second::{
    self, root_children, Bounds, Entry, Kind, Mark, Refusal, Stop, Table, GREATEST_BUDGET, MARKS,
    PLAY_LINE,
};
use compare::texts::examples::{dotted, escaped, table_b_with, TABLE_A, TABLE_B};
use compare::texts::knobs::Knobs;
use compare::texts::matches::chosen::chosen;
use compare::texts::matches::NO_SCALES;
use compare::texts::{self, matches, padding};
use margin_engine::{self as package, Index};

/// What both say of one question: an answer, or the refusal's number, line and
/// position.
type Said<T> = Result<T, (u8, usize, usize)>;

fn second<T>(answer: Result<T, Refusal>) -> Said<T> {
    answer.map_err(|refusal| (refusal.number, refusal.line, 0))
}

fn typed<T>(answer: Result<T, package::Refusal>) -> Said<T> {
    answer.map_err(|refusal| (refusal.number, refusal.line, refusal.position))
}

// ---------------------------------------------------------------------------
// The second engine's answers in the package's words
// ---------------------------------------------------------------------------

/// A table as plain text, line by line, so that the two sorts can be compared.
fn lines(head: impl Debug, nodes: impl Iterator<Item: Debug>) -> Vec<String> {
    let nodes = nodes.map(|node| format!("{node:?}"));
    std::iter::once(format!("{head:?}")).chain(nodes).collect()
}

fn second_lines(table: &Table) -> Vec<String> {
    let ends = (table.lowest, table.highest);
    let grain = (table.total, table.second, table.chances, table.grains);
    let nodes = table.nodes.iter();
    lines(
        (ends, grain, table.leaves),
        nodes.map(|n| (n.kind, n.parent, n.weight, n.utility, n.stop, n.sum)),
    )
}

fn package_lines(table: &package::Table) -> Vec<String> {
    let ends = (table.lowest, table.highest);
    let grain = (table.total, table.second, table.chances, table.per_point);
    let nodes = table.nodes.iter().zip(0..);
    lines(
        (ends, grain, table.leaves),
        nodes.map(|(n, node)| {
            let sum = table.sum(node);
            (n.kind, n.parent, n.weight, n.utility, n.stop, sum)
        }),
    )
}

fn judged(judgement: second::Judgement) -> package::Judgement {
    match judgement {
        second::Judgement::NoDecision => package::Judgement::NoDecision,
        second::Judgement::Loss { grains, level } => package::Judgement::Loss { grains, level },
    }
}

/// Low, high and their difference, the play, the leaves, whether the budget was spent,
/// and G of a search.
type Found = ([i64; 3], package::Play, Vec<usize>, bool, i64);

/// Without a budget, or with one.
fn found(table: &Table, margin: i64, budget: Option<i64>) -> Result<Found, Refusal> {
    let mut leaves = vec![0; table.leaves];
    let found = match budget {
        None => second::search(table, margin, &mut leaves)?,
        Some(budget) => second::search_within(table, margin, budget, &mut leaves)?,
    };
    Ok(told(table, found, &leaves))
}

/// With this index.
fn found_with(table: &Table, margin: i64, index: &Index) -> Result<Found, Refusal> {
    let mut leaves = vec![0; table.leaves];
    let index = (&index.lows[..], &index.highs[..]);
    let found = second::search_indexed(table, margin, index, &mut leaves)?;
    Ok(told(table, found, &leaves))
}

/// An answer and the leaf list.
fn told(table: &Table, found: second::Found, leaves: &[u16]) -> Found {
    let play = match found.play {
        None => package::Play::None,
        Some(node) => {
            let up_to_it = &table.nodes[..=node];
            let children = up_to_it.iter().filter(|node| node.parent == Some(0));
            let number = children.count() as i64;
            package::Play::Child { number, node }
        }
    };
    let read = leaves[..found.read].iter();
    let read = read.map(|&leaf| usize::from(leaf)).collect();
    let bounds = [found.low, found.high, found.high - found.low];
    (bounds, play, read, found.spent, table.grains)
}

/// The table's index, with 0 for leaves.
fn index_of(table: &Table) -> Index {
    let mut lows = vec![0; table.nodes.len()];
    let mut highs = lows.clone();
    second::index(table, &mut lows, &mut highs).expect("room for every node");
    Index { lows, highs }
}

fn package_found(found: package::Found) -> Found {
    let bounds = [found.low, found.high, found.difference];
    (
        bounds,
        found.play,
        found.leaves,
        found.spent,
        found.per_point,
    )
}

/// The worth, the leaves and the bounds of each node by rollouts.
type Rolled = (i64, Vec<usize>, Vec<(i64, i64)>);

fn rolled(table: &Table, policy: &[u8]) -> Result<Rolled, Refusal> {
    let mut leaves = vec![0; table.leaves];
    let mut store = vec![Bounds { low: 0, high: 0 }; table.nodes.len()];
    let rolled = second::rollout(table, policy, &mut store, &mut leaves)?;
    let read = leaves[..rolled.read].iter();
    let bounds = store.iter().map(|bounds| (bounds.low, bounds.high));
    Ok((
        rolled.worth,
        read.map(|&leaf| usize::from(leaf)).collect(),
        bounds.collect(),
    ))
}

fn turned(text: &[u8]) -> Result<Vec<u8>, Refusal> {
    let mut buffer = vec![0; text.len()];
    second::turn(text, &mut buffer).map(|()| buffer)
}

// ---------------------------------------------------------------------------
// The comparison
// ---------------------------------------------------------------------------

/// What is asked about a text.
struct Questions {
    /// The index to search with.
    index: Index,
    number: i64,
    margin: i64,
    budget: i64,
    policy: Vec<u8>,
}

/// Asks both about a text. Returns what each call was answered, as the proved engine
/// would return it.
fn hold(text: &[u8], questions: &Questions, place: &str) -> [u64; 9] {
    let Questions {
        ref index,
        number,
        margin,
        budget,
        ref policy,
    } = *questions;
    let table = second::read(text);
    let with = |call: &str| format!("{place}, {call}\n{}", escaped(text));

    let read = package::read(text).map(|table| package_lines(&table));
    let lines = table.as_ref().map(second_lines).map_err(|refusal| *refusal);
    assert_eq!(typed(read), second(lines), "{}", with("read"));

    let worth = package::exact_worth(text).map(|worth| (worth.grains, worth.per_point));
    let expected = table
        .as_ref()
        .map(|table| (second::worth(table), table.grains));
    let expected = expected.map_err(|refusal| *refusal);
    assert_eq!(typed(worth), second(expected), "{}", with("exact_worth"));

    let ask = |question: &dyn Fn(&Table) -> Result<(), Refusal>| match &table {
        Ok(table) => code(&question(table)),
        Err(refusal) => code::<()>(&Err(*refusal)),
    };

    let expected = table
        .clone()
        .and_then(|table| second::judge(&table, number));
    let said = typed(package::judge(text, number));
    let call = format!("judge {number}");
    assert_eq!(said, second(expected.map(judged)), "{}", with(&call));

    let expected = table.clone().and_then(|table| found(&table, margin, None));
    let said = package::search(text, margin).map(package_found);
    let call = format!("search {margin}");
    assert_eq!(typed(said), second(expected), "{}", with(&call));

    let within = |table: &Table| found(table, margin, Some(budget));
    let expected = table.clone().and_then(|table| within(&table));
    let said = package::search_within(text, margin, budget).map(package_found);
    let call = format!("search_within {margin}, {budget}");
    assert_eq!(typed(said), second(expected), "{}", with(&call));

    let expected = table.as_ref().map(index_of).map_err(|refusal| *refusal);
    let said = typed(package::index(text));
    assert_eq!(said, second(expected), "{}", with("index"));

    let expected = table.clone();
    let expected = expected.and_then(|table| found_with(&table, margin, index));
    let said = package::search_indexed(text, margin, index).map(package_found);
    let call = format!("search_indexed {margin}, {index:?}");
    assert_eq!(typed(said), second(expected), "{}", with(&call));

    let said = package::turn(text).map(|turned| turned.text);
    assert_eq!(typed(said), second(turned(text)), "{}", with("turn"));

    let expected = table.clone().and_then(|table| rolled(&table, policy));
    let said = package::rollout(text, policy).map(|rolled| {
        let bounds = rolled
            .records
            .iter()
            .map(|record| (record.low, record.high));
        (rolled.worth, rolled.leaves, bounds.collect::<Vec<_>>())
    });
    let call = format!("rollout {policy:?}");
    assert_eq!(typed(said), second(expected), "{}", with(&call));

    [
        code(&table),
        code(&table),
        ask(&|table| second::judge(table, number).map(|_| ())),
        ask(&|table| found(table, margin, None).map(|_| ())),
        ask(&|table| within(table).map(|_| ())),
        code(&table),
        ask(&|table| found_with(table, margin, index).map(|_| ())),
        code(&turned(text)),
        ask(&|table| rolled(table, policy).map(|_| ())),
    ]
}

/// An index for a table: mostly its own, sometimes one that is not, in whatever way, or
/// one of which only what is not compared is otherwise.
fn some_index(table: Option<&Table>, random: &mut Random) -> (Index, &'static str) {
    let none = Index {
        lows: vec![],
        highs: vec![],
    };
    let mut index = table.map_or(none, index_of);
    let count = index.lows.len();
    let sort = random.pick(&["own", "own", "short", "long", "of leaves", "changed"]);
    let list = match random.below(2) {
        0 => &mut index.lows,
        _ => &mut index.highs,
    };
    let is_leaf = |node: usize| table.is_some_and(|table| table.nodes[node].kind == Kind::Leaf);
    match sort {
        "short" => list.truncate(random.below(count.max(1))),
        "long" => list.extend([i64::MIN, 7]),
        "of leaves" => {
            for node in (0..count).filter(|&node| is_leaf(node)) {
                list[node] = random.pick(&[-1, i64::MIN, i64::MAX]);
            }
        }
        "changed" => {
            let inner: Vec<usize> = (0..count).filter(|&node| !is_leaf(node)).collect();
            if !inner.is_empty() {
                list[random.pick(&inner)] += random.pick(&[-1, 1]);
            }
        }
        _ => {}
    }
    (index, sort)
}

#[test]
fn typed_calls() {
    let mut tally = Tally::new("the package's typed calls");
    let mut seen = Seen::default();
    let cases = number_from_environment("CASES", 20_000);
    for case in 0..cases {
        let mut random = Random::of_case(tally.seed, case);
        let text = match case % 4 {
            0 => texts::make(Knobs::plain, &mut random),
            1 => texts::make(Knobs::dice, &mut random),
            _ => texts::case(&mut random).text,
        };
        // Some have zeros before their numbers (document 02, Item 9).
        let text = match random.one_in(3) {
            true => padding::padded(&text, &mut random),
            false => text,
        };
        let table = second::read(&text).ok();
        let children = table.as_ref().map_or(0, root_children) as i64;
        let span = table.as_ref().map_or(0, span);
        let number = match random.below(8) {
            0 => random.pick(&[-1, i64::MIN, i64::MAX]),
            _ => random.between(0, children + 1),
        };
        let margin = random.pick(&[-1, 0, 1, span / 10, span / 2, span]);
        let leaves = table.as_ref().map_or(0, |table| table.leaves) as i64;
        let budget = match random.below(8) {
            0 => no_budget(&mut random),
            1 => random.pick(&[0, 1, GREATEST_BUDGET]),
            _ => random.between(0, leaves + 1),
        };
        let policy = (0..random.below(40)).map(|_| random.bits() as u8).collect();
        let (index, sort) = some_index(table.as_ref(), &mut random);
        let questions = Questions {
            index,
            number,
            margin,
            budget,
            policy,
        };
        let codes = hold(&text, &questions, &tally.place());
        tally.add(&codes);
        if let Some(table) = &table {
            let within = found(table, margin, Some(budget));
            for (sort, spent) in [("spent", true), ("not spent", false)] {
                let here = within.as_ref().is_ok_and(|found| found.3 == spent);
                seen.count(&format!("a budget {sort}"), here);
            }
            let with = found_with(table, margin, &questions.index);
            let refused = with.as_ref().err().map(|refusal| refusal.number);
            for one in ["own", "long", "of leaves"] {
                assert!(sort != one || refused != Some(22), "{sort}");
                seen.count(&format!("an index, {one}"), sort == one && with.is_ok());
            }
            for one in ["short", "changed"] {
                seen.count(
                    &format!("an index, {one}"),
                    sort == one && refused == Some(22),
                );
            }
            let plain = found(table, margin, None);
            let fewer = |with: &Found| {
                plain
                    .as_ref()
                    .is_ok_and(|plain| with.2.len() < plain.2.len())
            };
            seen.count("fewer leaves with an index", with.as_ref().is_ok_and(fewer));
            seen.count_root(&ROOTS, table);
            seen.count_table(table);
            seen.count_chances(table);
            seen.count("a second total", table.second.is_some());
            let zeros = !padding::padded_fields(&text).is_empty();
            seen.count("zeros before numbers", zeros);
            if second::judge(table, number) == Ok(second::Judgement::NoDecision) {
                seen.count_forced(table, &[number]);
            }
        }
    }
    tally.report();
    seen.demand(20);
    tally.demand_refusals(&OF_TABLES);
    tally.demand_refusals(&[12, 13, 14, 17, 18, 22]);
}

/// The example of a first roll: fifteen rolls of weight 1, three plays after each, and
/// all 21 rolls after each play.
#[test]
fn the_example_of_two_totals() {
    let (_, text) = example("first-roll");
    let table = package::read(&text).expect("accepted");
    assert_eq!((table.total, table.second), (36, Some(15)));
    assert_eq!((table.chances, table.per_point), (2, 540));
    assert_eq!((table.nodes.len(), table.leaves), (1_006, 945));
    assert_eq!((table.lowest, table.highest), (-3_000, 3_000));
    let sums: Vec<i64> = (0..1_006).map(|node| table.sum(node)).collect();
    let of = |total| sums.iter().filter(|&&sum| sum == total).count();
    assert_eq!((of(15), of(36), of(0)), (1, 45, 960));
    assert_eq!(sums[0], 15);

    let turned = package::turn(&text).expect("accepted").text;
    assert!(turned.starts_with(b"10061536   -3000    3000\n   0 C"));
    assert_eq!(package::turn(&turned).expect("accepted").text, text);

    let place = "the example of a first roll";
    let codes = [&text, &turned].map(|text| {
        let questions = Questions {
            index: index_of(&second::read(text).expect("accepted")),
            number: 1,
            margin: 50 * 540,
            budget: 500,
            policy: vec![],
        };
        hold(text, &questions, place)
    });
    assert_eq!(codes, [[0, 0, 0, 0, 0, 0, 0, 0, 13]; 2]);
}

// ---------------------------------------------------------------------------
// Recipes
// ---------------------------------------------------------------------------

/// A recipe of any numbers, most of them in range.
fn some_recipe(random: &mut Random) -> package::Recipe {
    let any = |random: &mut Random, most: i64| match random.below(8) {
        0 => random.pick(&[-1, most + 1, 1 << 32, i64::MIN, i64::MAX]),
        _ => random.between(0, most),
    };
    package::Recipe {
        seed: any(random, package::GREATEST_SEED),
        branching: any(random, package::BRANCHINGS.1),
        depth: any(random, package::GREATEST_DEPTH),
        dice: random.one_in(2),
    }
}

#[test]
fn typed_recipes() {
    let mut tally = Tally::new("the package's typed recipes");
    let mut seen = Seen::default();
    for case in 0..6_000 {
        let mut random = Random::of_case(tally.seed, case);
        let asked = some_recipe(&mut random);
        let dice = i64::from(asked.dice);
        let recipe = second::Recipe::new([asked.seed, asked.branching, asked.depth, dice]);
        let mut text = vec![0; package::MOST_BYTES];
        let expected = second::recipe(recipe, &mut text).map(|length| {
            text.truncate(length);
            text
        });
        let returned = code(&expected);
        let said = package::recipe(&asked).map(|made| made.text);
        assert_eq!(
            typed(said),
            second(expected),
            "{}, {asked:?}",
            tally.place()
        );
        tally.add(&[returned]);
        for (sort, dice) in [("with dice", true), ("without dice", false)] {
            let here = asked.dice == dice && returned == 0;
            seen.count(&format!("a table {sort}"), here);
            let nodes = asked.dice == dice && returned != 0 && recipe.is_in_range();
            seen.count(&format!("too many nodes {sort}"), nodes);
        }
        seen.count("a lone leaf", returned == 0 && asked.depth == 0);
        seen.count("out of range", !recipe.is_in_range());
    }
    tally.report();
    seen.demand(100);
    tally.demand_refusals(&[19]);
}

/// The examples by recipe, and that what is made is a table for the other calls.
#[test]
fn the_examples_by_recipe() {
    for (name, [seed, branching, depth], dice) in [
        ("recipe-7-2-3", [7, 2, 3], false),
        ("recipe-7-2-2-dice", [7, 2, 2], true),
        ("recipe-1-4-2-dice", [1, 4, 2], true),
    ] {
        let asked = package::Recipe {
            seed,
            branching,
            depth,
            dice,
        };
        let made = package::recipe(&asked).expect("a recipe of a table");
        let (_, text) = example(name);
        assert_eq!(escaped(&made.text), escaped(&text), "{name}");
        assert_eq!(package::recipe(&asked), Ok(made), "{name}, once more");
        let table = second::read(&text).expect("accepted");
        let questions = Questions {
            index: index_of(&table),
            number: 1,
            margin: 8 * table.grains,
            budget: 5,
            policy: vec![1],
        };
        let codes = hold(&text, &questions, name);
        let rolled = if dice { 13 } else { 0 };
        assert_eq!(codes, [0, 0, 0, 0, 0, 0, 0, 0, rolled], "{name}");
    }
}

// ---------------------------------------------------------------------------
// The report
// ---------------------------------------------------------------------------

/// The second engine's mark in words.
fn word(mark: Mark) -> String {
    let word = match mark {
        Mark::NoMark => "no mark",
        Mark::Doubtful => "doubtful",
        Mark::Error => "error",
        Mark::Blunder => "blunder",
    };
    word.to_string()
}

/// A report as plain text, a line for the totals and one for each position.
fn second_report(file: &[u8], scale: i64) -> Said<Vec<String>> {
    let report = second::report(file, scale, usize::MAX);
    let report = report.map_err(|Stop { refusal, position }| {
        let Refusal { number, line } = refusal;
        (number, line, position)
    })?;
    let totals = [report.max, report.min].map(|total| (total.decisions, total.sum));
    let mut end = 0;
    let positions = second::positions(file);
    let positions = positions.iter().zip(&report.entries);
    let positions = positions.map(|(position, entry)| {
        let start = end;
        end += PLAY_LINE + position.text.len();
        let mark = entry.mark.map(word);
        (entry.root, position.play, entry.loss, mark, start..end)
    });
    Ok(lines(totals, positions))
}

fn package_report(file: &[u8], scale: i64) -> Said<Vec<String>> {
    let report = typed(package::report(file, scale))?;
    let totals = [report.max, report.min].map(|total| (total.decisions, total.thousandths));
    let positions = report.positions.into_iter().map(|position| {
        let loss = match position.loss {
            package::Loss::Thousandths(loss) => Some(loss),
            package::Loss::NoDecision => None,
        };
        let mark = position.mark.map(|mark| mark.to_string());
        (position.kind, position.play, loss, mark, position.place)
    });
    Ok(lines(totals, positions))
}

/// Where the positions of a refused file stand is right up to the one at fault.
fn hold_places(file: &[u8], position: usize) {
    let places: Vec<_> = package::places(file).take(position).collect();
    assert_eq!(places.len(), position);
    let mut end = 0;
    for (place, before) in places[..position - 1].iter().zip(second::positions(file)) {
        let start = end;
        end += PLAY_LINE + before.text.len();
        assert_eq!(*place, start..end);
    }
    assert_eq!(places[position - 1].start, end);
}

#[test]
fn typed_report() {
    let mut tally = Tally::new("the package's typed report");
    let mut seen = Seen::default();
    for case in 0..20_000 {
        let mut random = Random::of_case(tally.seed, case);
        let file = match case % 4 {
            0 => {
                let positions = chosen(&mut random).into_iter().map(|one| one.position);
                matches::file(&positions.collect::<Vec<_>>())
            }
            _ => matches::case(&mut random),
        };
        let file = match random.one_in(3) {
            true => padding::padded_match(&file, &mut random),
            false => file,
        };
        let scale = matches::scale(&mut random);
        let expected = second_report(&file, scale);
        let said = package_report(&file, scale);
        assert_eq!(said, expected, "{}, scale {scale}", tally.place());
        match expected {
            Err((20, ..)) => assert_eq!(said, Err((20, 0, 0))),
            Err((_, _, position)) => hold_places(&file, position),
            Ok(_) => {}
        }
        count_listed(&mut seen, &file, scale);
        tally.add(&[expected.err().map_or(0, |(number, ..)| u64::from(number))]);
    }
    tally.report();
    seen.demand(100);
    tally.demand_refusals(&[2, 3, 4, 5, 6, 7, 8, 9, 10, 14, 15, 16, 18, 20]);
    assert!(tally.counts[0] >= 1_000, "too few reports");
}

/// Counts the reports that begin with a padded play number, those where a root M or N is
/// listed as "no decision", and those with each mark by each scale.
fn count_listed(seen: &mut Seen, file: &[u8], scale: i64) {
    let report = second::report(file, scale, usize::MAX);
    let padded = padding::is_padded_line(file.get(..PLAY_LINE).unwrap_or_default());
    seen.count("a padded play number", padded && report.is_ok());
    let entries = report.map_or(vec![], |report| report.entries);
    for root in SIDES {
        let forced = Entry {
            root,
            loss: None,
            mark: None,
        };
        let sort = format!("a forced play at {root:?}");
        seen.count(&sort, entries.contains(&forced));
    }
    for of in [1, 2] {
        for mark in MARKS {
            let marked = entries.iter().any(|entry| entry.mark == Some(mark));
            seen.count(&format!("{mark:?} by scale {of}"), scale == of && marked);
        }
    }
}

/// The package's marks are in the sequence from the mildest to the hardest, with
/// words of their own.
#[test]
fn typed_marks() {
    use package::Mark::{Blunder, Doubtful, Error, NoMark};
    let marks = [NoMark, Doubtful, Error, Blunder];
    assert!(marks.is_sorted_by(|milder, harder| milder < harder));
    let words = marks.map(|mark| mark.to_string());
    assert_eq!(words, ["no mark", "doubtful", "error", "blunder"]);
    assert_eq!(words, MARKS.map(word));
}

// ---------------------------------------------------------------------------
// The words of refusals
// ---------------------------------------------------------------------------

/// A refused report says in which position, and at which line of it.
#[test]
fn words_of_refused_reports() {
    let mut seen = vec![];
    let mut random = Random::new(1);
    for _ in 0..100_000 {
        if seen.len() == 13 {
            break;
        }
        let file = matches::case(&mut random);
        let Err(refusal) = package::report(&file, 1) else {
            continue;
        };
        let (number, line, position) = (refusal.number, refusal.line, refusal.position);
        let at = match number {
            14..=16 | 18 => String::new(),
            _ => format!(" at line {line}"),
        };
        let reason = refusal.reason();
        let shown = format!("refused {number} in position {position}{at}: {reason}");
        assert_eq!(refusal.to_string(), shown);
        one_line_each(refusal);
        if !seen.contains(&number) {
            seen.push(number);
        }
    }
    assert_eq!(seen.len(), 13, "{seen:?}");
}

/// A refused scale is in no position and at no line, whatever the file.
#[test]
fn words_of_refused_scales() {
    for scale in NO_SCALES {
        for file in [&b""[..], b"x"] {
            let refusal = package::report(file, scale).expect_err("no scale");
            let (number, line, position) = (refusal.number, refusal.line, refusal.position);
            assert_eq!((number, line, position), (20, 0, 0), "{scale}");
            let shown = format!("refused 20: {}", refusal.reason());
            assert_eq!(refusal.to_string(), shown);
            one_line_each(refusal);
        }
    }
}

/// A refused margin or budget is at no line, and the margin comes first.
#[test]
fn words_of_refused_searches() {
    let text = dotted(TABLE_A);
    for budget in [-1, GREATEST_BUDGET + 1, i64::MIN, i64::MAX] {
        for (margin, number) in [(0, 17), (-1, 12)] {
            let refusal = package::search_within(&text, margin, budget);
            let refusal = refusal.expect_err("no budget");
            let (line, position) = (refusal.line, refusal.position);
            assert_eq!((refusal.number, line, position), (number, 0, 0));
            let shown = format!("refused {number}: {}", refusal.reason());
            assert_eq!(refusal.to_string(), shown);
            one_line_each(refusal);
        }
    }
}

/// An index that is refused is at no line, comes before the margin, and after a table
/// that is refused.
#[test]
fn words_of_refused_indexes() {
    let [a, b] = [TABLE_A, TABLE_B].map(dotted);
    let index = package::index(&a).expect("accepted");
    let mut short = index.clone();
    short.highs.pop();
    for (text, index) in [(&b, &index), (&a, &short)] {
        for margin in [0, -1] {
            let refusal = package::search_indexed(text, margin, index);
            let refusal = refusal.expect_err("no index of this table");
            let (line, position) = (refusal.line, refusal.position);
            assert_eq!((refusal.number, line, position), (22, 0, 0));
            let shown = format!("refused 22: {}", refusal.reason());
            assert_eq!(refusal.to_string(), shown);
            assert_eq!(refusal.mend(), "build the index from this very text again");
            one_line_each(refusal);
        }
    }
    let light = table_b_with(4, "...3.L....2....2.......2");
    let refusal = package::search_indexed(&light, -1, &short).expect_err("no table");
    assert_eq!((refusal.number, refusal.line), (9, 3));
    let refusal = package::search_indexed(&a, -1, &index).expect_err("no margin");
    assert_eq!((refusal.number, refusal.line), (12, 0));
}

/// A refused recipe is at no line.
#[test]
fn words_of_refused_recipes() {
    let fair = package::Recipe {
        seed: 7,
        branching: 2,
        depth: 2,
        dice: true,
    };
    for asked in [
        package::Recipe { seed: -1, ..fair },
        package::Recipe {
            branching: 6,
            ..fair
        },
        package::Recipe { depth: 10, ..fair },
        // In range, and 2,047 nodes.
        package::Recipe { depth: 5, ..fair },
    ] {
        let refusal = package::recipe(&asked).expect_err("no recipe");
        let (number, line, position) = (refusal.number, refusal.line, refusal.position);
        assert_eq!((number, line, position), (19, 0, 0), "{asked:?}");
        let shown = format!("refused 19: {}", refusal.reason());
        assert_eq!(refusal.to_string(), shown);
        for allowed in ["0 to 2,147,483,647", "2 to 5", "0 to 9", "nodes"] {
            assert!(refusal.mend().contains(allowed), "{allowed}");
        }
        assert!(refusal.reason().contains("1,024 nodes"));
        one_line_each(refusal);
    }
}

/// Every refusal has words of its own, one line each, and says where it is.
#[test]
fn words_of_refusals() {
    let mut seen = vec![];
    let mut random = Random::new(1);
    for _ in 0..100_000 {
        if seen.len() == 11 {
            break;
        }
        let text = texts::case(&mut random).text;
        let Err(refusal) = package::read(&text) else {
            continue;
        };
        if seen.contains(&refusal.number) {
            continue;
        }
        seen.push(refusal.number);
        let shown = refusal.to_string();
        let start = match refusal.number {
            1 | 18 => format!("refused {}: ", refusal.number),
            number => format!("refused {number} at line {}: ", refusal.line),
        };
        assert!(shown.starts_with(&start), "{shown}");
        assert!(shown.ends_with(refusal.reason()), "{shown}");
        one_line_each(refusal);
    }
    assert_eq!(seen.len(), 11, "{seen:?}");
}

fn one_line_each(refusal: package::Refusal) {
    for words in [refusal.reason(), refusal.mend()] {
        assert!(words.len() > 10 && !words.contains('\n'), "{words}");
    }
}
