//! Judging, held to the second engine and to judgements that are known.
//!
//! The environment variable SEED sets the seed of the random texts, CASES their
//! number.

use compare::hold::best_plays;
use compare::hold::judging::{hold_to, Comparison, OLDER};
use compare::hold::numbers::ROOM;
use compare::hold::seen::SIDES;
use compare::hold::tally::{say, OF_GRAINS, OF_TABLES};
use compare::random::{number_from_environment, seed, Random};
use compare::second::{self, root_children, Judgement, Refusal, FARTHEST_END, MOST_NODES};
use compare::texts::examples::*;
use compare::texts::knobs::Knobs;
use compare::texts::small::{for_each, six_nodes};
use compare::texts::{self, largest, level};

// ---------------------------------------------------------------------------
// Random texts
// ---------------------------------------------------------------------------

/// A root with more children than this has only some of them played.
const FEW: usize = 8;

/// Numbers to play where the root has so many children: all of theirs or some,
/// numbers near theirs, numbers that would be theirs if bits were lost, and
/// numbers far off.
fn plays(random: &mut Random, children: usize) -> Vec<i64> {
    let last = children as i64;
    let mut plays: Vec<i64> = if children <= FEW {
        (1..=last).collect()
    } else {
        let any = random.between(2, last - 1);
        vec![1, any, random.between(2, last - 1), last]
    };
    let child = random.between(1, last.max(1));
    let lost = random.pick(&[8, 16, 31, 32, 63]);
    plays.extend([0, -1, -child, last + 1, i64::MIN, i64::MAX]);
    plays.push(child ^ (-1 << lost));
    plays.push(child ^ (1 << lost));
    plays.push(random.bits() as i64);
    plays
}

/// The main comparison. It also fails where the texts or the answers were too
/// much alike to mean anything.
#[test]
fn random_texts() {
    let mut comparison = Comparison::new("judging on random texts");
    let cases = number_from_environment("CASES", 125_000);
    let mut tables = 0;
    for number in 0..cases {
        let mut random = Random::of_case(comparison.tally.seed, number);
        let text = match number % 10 {
            7 => texts::make(Knobs::close, &mut random),
            8 => texts::make(Knobs::ties, &mut random),
            9 => texts::make(Knobs::forced, &mut random),
            _ => texts::case(&mut random).text,
        };
        let table = comparison.hold(&text, |children| match children {
            Some(children) => plays(&mut random, children),
            // The refusal is the same for every number, so two will do.
            None => vec![
                random.pick(&[1, 2, 0, -1, i64::MIN, i64::MAX]),
                random.bits() as i64,
            ],
        });
        tables += u64::from(table.is_ok());
    }
    comparison.tally.report();
    // Plays a grain apart are rare here; `level_plays` has enough of them.
    let seen = &comparison.seen;
    seen.demand_but(100, |sort| sort.starts_with("a grain apart"));
    comparison.tally.demand(&OF_TABLES);
    comparison.tally.demand(&OF_GRAINS);
    comparison.tally.demand_two_totals();
    comparison.tally.demand(&[14]);
    demand_forced(&comparison, tables);
}

/// Says how many of the accepted tables have a root M or N with one child, and
/// fails the test where they are less than a tenth.
fn demand_forced(comparison: &Comparison, tables: u64) {
    let roots = ["root Max with one child", "root Min with one child"];
    let forced: u64 = roots.map(|root| comparison.seen.of(root)).iter().sum();
    let share = 100.0 * forced as f64 / tables as f64;
    say(&format!(
        "forced plays: {forced} of {tables} accepted tables, {share:.1} %"
    ));
    assert!(10 * forced >= tables, "too few forced plays");
}

// ---------------------------------------------------------------------------
// Level plays
// ---------------------------------------------------------------------------

/// Tables made by a plan of what their plays lose, every play judged: equal plays,
/// plays a grain apart, and others that are less than a point apart, which are not
/// level now (document 02, Item 8). It fails where one of these came too seldom.
#[test]
fn level_plays() {
    let mut comparison = Comparison::new("judging on level plays");
    for number in 0..24_000 {
        let mut random = Random::of_case(comparison.tally.seed, number);
        let planned = level::planned(&mut random);
        let table = comparison
            .hold(&planned.text, |children| {
                plays(&mut random, children.expect("valid"))
            })
            .expect("valid");
        assert!(planned.losses.len() <= FEW, "not every play was judged");

        let level = planned.losses.iter().filter(|loss| **loss == 0).count();
        for (number, grains) in (1..).zip(planned.losses) {
            assert_eq!(second::judge(&table, number), loss(grains, level));
        }
    }
    comparison.tally.report();
    comparison.tally.demand_refusals(&[14]);
    comparison.tally.demand_two_totals();
    let seen = &comparison.seen;
    seen.demand_but(1_000, is_without_choice);
    let older = SIDES.map(|kind| seen.of(&format!("{OLDER} at {kind:?}")));
    say(&format!(
        "level plays: {} answers at M and {} at N have {OLDER}",
        older[0], older[1]
    ));
}

/// Whether tables of this sort have no choice at the root, or their answers are
/// those given there.
fn is_without_choice(sort: &str) -> bool {
    let starts = ["root Chance", "root Leaf", "no decision", "forced"];
    starts.iter().any(|start| sort.starts_with(start)) || sort.ends_with("with one child")
}

// ---------------------------------------------------------------------------
// Small tables and large ones
// ---------------------------------------------------------------------------

/// Every table of up to six nodes over a few entries; T is 2, and each leaf is
/// worth 0 or 1, so that plays are a point apart, or less. Where a node line is
/// refused, none is added after it, as the refusal would stay the same.
#[test]
fn every_small_table() {
    let mut comparison = Comparison::new("judging on every small table");
    for_each((0, 1), &six_nodes(&["0", "1"]), &mut |text| {
        let table = comparison.hold(text, |children| match children {
            Some(children) => {
                let mut plays: Vec<i64> = (-1..=children as i64 + 1).collect();
                plays.extend([i64::MIN, i64::MAX]);
                plays
            }
            None => vec![1],
        });
        match table {
            Ok(_) => true,
            Err(refusal) => matches!(refusal.number, 8 | 9),
        }
    });
    comparison.tally.report();
    // A leaf alone comes twice, every other sort more often; but more than a
    // point cannot be lost.
    let seen = &comparison.seen;
    seen.demand_but(2, |sort| sort.starts_with("more lost"));
}

/// The greatest losses and the least, with every number.
#[test]
fn four_c_below_each_play() {
    const GRAINS: i64 = 64 * 64 * 64 * 64;
    const GREATEST: i64 = 2 * FARTHEST_END * GRAINS;
    let mut comparison = Comparison::new("judging on 1,024 lines, four C");
    let roots = [(b'M', FARTHEST_END), (b'N', -FARTHEST_END)];
    for (kind, best) in roots {
        let text = largest::plays(kind, best);
        let table = comparison
            .hold(&text, |_| (-1..=300).collect())
            .expect("accepted");
        assert_eq!((table.nodes.len(), table.grains), (MOST_NODES, GRAINS));
        assert_eq!(root_children(&table), 255);

        let known = [GREATEST, 0, 1, 0, GRAINS, GREATEST];
        for (number, grains) in (1..).zip(known) {
            // The two at the best end are level, the one a grain short is not.
            let answer = loss(grains, 2);
            assert_eq!(second::judge(&table, number), answer);
            hold_to(&comparison.tally, &text, number, ROOM, &answer);
        }

        // At the other kind of root the best is what was worst.
        let other = if kind == b'M' { b'N' } else { b'M' };
        let text = largest::plays(other, best);
        let table = comparison.hold(&text, |_| vec![1, 2, 3, 4, 5, 255, 256]);
        let answer = second::judge(&table.expect("accepted"), 3);
        assert_eq!(answer, loss(GREATEST - 1, 251));
    }
    comparison.tally.report();
}

/// 1,023 children, each of them played.
#[test]
fn most_children() {
    let mut comparison = Comparison::new("judging on 1,023 children");
    for kind in [b"M", b"N"] {
        let mut random = Random::of_case(comparison.tally.seed, u64::from(kind[0]));
        let text = Knobs::largest_flat(kind, &mut random).text(&mut random);
        let table = comparison
            .hold(&text, |_| (0..=MOST_NODES as i64).collect())
            .expect("accepted");
        assert_eq!(root_children(&table), MOST_NODES - 1);
    }
    comparison.tally.report();
    assert_eq!(comparison.tally.counts[0], 2 * 1_023);
    assert_eq!(comparison.tally.counts[14], 2 * 2);
}

/// Random tables of 1,024 lines with T 64 and the widest ends.
#[test]
fn largest_tables() {
    let mut comparison = Comparison::new("judging on the largest tables");
    for number in 0..600 {
        let mut random = Random::of_case(comparison.tally.seed, number);
        let text = texts::make(Knobs::largest, &mut random);
        let table = comparison
            .hold(&text, |children| plays(&mut random, children.unwrap_or(0)))
            .expect("valid");
        assert_eq!((table.nodes.len(), table.total), (MOST_NODES, 64));
    }
    comparison.tally.report();
    for root in ["root Max", "root Min", "root Chance"] {
        let count = comparison.seen.of(root);
        assert!(count >= 100, "{root} came only {count} times");
    }
}

// ---------------------------------------------------------------------------
// Judgements that are known
// ---------------------------------------------------------------------------

/// A text, a number and its judgement.
type Known = (Vec<u8>, i64, Result<Judgement, Refusal>);

const NONE: Result<Judgement, Refusal> = Ok(Judgement::NoDecision);

const NO_SUCH: Result<Judgement, Refusal> = Err(Refusal {
    number: 14,
    line: 0,
});

fn loss(grains: i64, level: usize) -> Result<Judgement, Refusal> {
    Ok(Judgement::Loss { grains, level })
}

/// Document 01's tables, then those with one play or two, and those with three.
fn known() -> Vec<Known> {
    let mut known = vec![
        // A's second N is worth 2, a whole point less than the first.
        (dotted(TABLE_A), 1, loss(0, 1)),
        (dotted(TABLE_A), 2, loss(1, 1)),
        // At an N root B's C is the better play.
        (table_b_with(1, "...0.N.................."), 1, loss(6, 1)),
        (table_b_with(1, "...0.N.................."), 2, loss(0, 1)),
        // With a leaf of 4 in B's first place the C is half a point worse, so it is
        // not level.
        (table_b_with(2, "...1.L....0............4"), 1, loss(0, 1)),
        (table_b_with(2, "...1.L....0............4"), 2, loss(2, 1)),
    ];
    for table in [TABLE_B, TABLE_B_TURNED] {
        known.push((dotted(table), 1, loss(0, 1)));
        known.push((dotted(table), 2, loss(6, 1)));
        for number in [0, -1, 3, 4, 5, i64::MIN, i64::MAX] {
            known.push((dotted(table), number, NO_SUCH));
        }
    }
    for number in [0, 1, 2, 3, -1, i64::MIN, i64::MAX] {
        known.push((dotted(LONE_LEAF), number, NONE));
        known.push((table_b_under_chance(), number, NONE));
    }
    known.extend(forced());
    known.extend(least_choices());
    known.extend(three_plays());
    known
}

/// One play at a root M or N is no decision, whatever stands under it and
/// whatever the number (document 02, Item 2).
fn forced() -> Vec<Known> {
    let mut forced = Vec::new();
    for table in [FORCED_LEAF, FORCED_CHANCE, FORCED_MIN] {
        for root in ['M', 'N'] {
            for number in [1, 0, 2, 3, -1, i64::MIN, i64::MAX] {
                forced.push((with_root(table, root), number, NONE));
            }
        }
    }
    forced
}

/// Two plays are a choice, and other numbers are refused (document 02, Item 2).
fn least_choices() -> Vec<Known> {
    let mut choices = Vec::new();
    // The leaves are worth 4 and 7; the C is worth 14 grains, and the leaf on the
    // last line 20. So M loses by the first play, N by the second.
    for (table, lost) in [(TWO_LEAVES, 3), (LAST_LINE, 6)] {
        for (root, losses) in [('M', [lost, 0]), ('N', [0, lost])] {
            for (number, grains) in (1..).zip(losses) {
                choices.push((with_root(table, root), number, loss(grains, 1)));
            }
            for number in [0, 3, -1, i64::MIN, i64::MAX] {
                choices.push((with_root(table, root), number, NO_SUCH));
            }
        }
    }
    choices
}

/// Two of three plays are worth the same, and the third less than a point from
/// them: either the two are level or the third alone (document 02, Item 8).
fn three_plays() -> Vec<Known> {
    // By hand. THREE_PLAYS, G 4: the leaf is worth 3 x 4 = 12 grains; the first C
    // 1 x 3 + 3 x 2 = 9; the second 2 x 2 + 2 x 4 = 12. So M loses 3 by the second
    // play, and N loses 3 by the others. Turned it is N that loses 3 by the second.
    // GRAIN_APART, G 1,296: the leaf is worth 5 x 1,296 = 6,480 grains. The inner C
    // is worth 35 x 5 + 1 x 4 = 179 parts of 36, so the C above it 35 x 5 x 36 +
    // 179 = 6,479 grains; the last C (18 x 3 + 18 x 7) x 36 = 6,480.
    let tables = [
        (with_root(THREE_PLAYS, 'M'), [0, 3, 0], 2),
        (with_root(THREE_PLAYS, 'N'), [3, 0, 3], 1),
        (dotted(THREE_PLAYS_TURNED), [0, 3, 0], 2),
        (with_root(GRAIN_APART, 'M'), [0, 1, 0], 2),
        (with_root(GRAIN_APART, 'N'), [1, 0, 1], 1),
    ];
    let mut three = Vec::new();
    for (text, losses, level) in tables {
        for (number, grains) in (1..).zip(losses) {
            three.push((text.clone(), number, loss(grains, level)));
        }
        for number in [0, 4, -1, i64::MIN, i64::MAX] {
            three.push((text.clone(), number, NO_SUCH));
        }
    }
    three
}

#[test]
fn second_engine_has_the_known_judgements() {
    for (text, number, answer) in known() {
        let table = second::read(&text).expect("accepted");
        assert_eq!(second::judge(&table, number), answer, "number {number}");
    }
}

/// A play without loss is among those of every root where there is a choice, and
/// the level plays are as many as those, or as the children worth as much as the
/// root (document 02, Item 8). A forced play has no loss.
#[test]
fn second_engine_counts_the_level_plays() {
    let (mut roots, mut close, mut forced) = (0, 0, 0);
    for number in 0..4_000 {
        let mut random = Random::of_case(seed(), number);
        let text = match number % 2 {
            0 => texts::case(&mut random).text,
            _ => level::planned(&mut random).text,
        };
        let Ok(table) = second::read(&text) else {
            continue;
        };
        let children = root_children(&table);
        let losses: Vec<(i64, usize)> = (1..=children as i64)
            .filter_map(|number| match second::judge(&table, number) {
                Ok(Judgement::Loss { grains, level }) => Some((grains, level)),
                other => {
                    assert_eq!(other, Ok(Judgement::NoDecision));
                    None
                }
            })
            .collect();
        let side = SIDES.contains(&table.nodes[0].kind);
        if !side || children == 1 {
            assert_eq!(losses, []);
            forced += u32::from(side);
            continue;
        }
        assert_eq!(losses.len(), children);
        roots += 1;
        let lost = |grains: std::ops::Range<i64>| {
            let found = losses.iter().filter(|(loss, _)| grains.contains(loss));
            found.count()
        };
        let best = best_plays(&table, &second::worths(&table));
        assert!(best >= 1);
        assert_eq!(lost(0..1), best);
        assert!(losses.iter().all(|(_, level)| *level == best));
        close += u32::from(lost(1..table.grains) > 0);
    }
    assert!(roots >= 100, "only {roots} roots");
    assert!(close >= 100, "only {close} with less than a point lost");
    assert!(forced >= 100, "only {forced} forced plays");
}

/// The known judgements and the refused examples, given to both engines; the
/// proved one must have the known judgements too, whatever the second says.
#[test]
fn examples() {
    let mut comparison = Comparison::new("judging on examples");
    for (text, number, answer) in known() {
        for room in 0..=ROOM {
            hold_to(&comparison.tally, &text, number, room, &answer);
        }
        comparison.hold(&text, |_| vec![number]).expect("accepted");
    }
    for (text, _, _) in refused_examples() {
        comparison
            .hold(&text, |_| vec![0, 1, 2, 3, i64::MIN, i64::MAX])
            .expect_err("refused");
    }
    comparison.tally.report();
}
