//! Tables that are valid but for one byte, one field or one limit, so that which
//! refusal they get, and at which line, is known from how they were made.

use super::damage::marked_lines;
use super::draft::{Draft, Line};
use super::knobs::{Kinds, Knobs, Shape};
use super::settings::two_in;
use super::totals;
use crate::random::Random;
use crate::second::{Refusal, LINE, LONGEST_PATH, MOST_TOTAL};

/// A text with this refusal, 1 to 10 or 18, at the line that comes with it.
pub fn broken(number: u8, random: &mut Random) -> (Vec<u8>, Refusal) {
    let (text, line) = match number {
        1 => (wrong_length(random), 0),
        2 => ill_written(random),
        10 => beyond_a_limit(random),
        18 => (totals::too_grainy(random), 0),
        _ => {
            let mut draft = weighted(random).draft(random);
            let line = match number {
                3 => out_of_range(&mut draft, random),
                4 => miscounted(&mut draft, random),
                5 => no_kind(&mut draft, random),
                6 => wrong_parent(&mut draft, random),
                7 => missing_or_not_blank(&mut draft, random),
                8 => childless(&mut draft, random),
                9 => wrong_sum(&mut draft, random),
                _ => panic!("{number} is no refusal of a table"),
            };
            (draft.text(), line)
        }
    };
    (text, Refusal { number, line })
}

/// Any table with a root C, so that some node has a weight; T is at least 3, so
/// that a weight may be wrong and yet in range.
fn weighted(random: &mut Random) -> Knobs {
    let knobs = Knobs::any(random);
    Knobs {
        nodes: knobs.nodes.max(2),
        totals: two_in(2, random, |random| random.between(3, MOST_TOTAL)),
        root: Kinds::either(1),
        path: LONGEST_PATH,
        ..knobs
    }
}

fn wrong_length(random: &mut Random) -> Vec<u8> {
    if random.one_in(8) {
        return Knobs::too_long(random).text(random);
    }
    let mut text = Knobs::any(random).text(random);
    match random.below(3) {
        0 => text.truncate(text.len() - 1 - random.below(LINE - 1)),
        1 => text.truncate(random.pick(&[0, LINE])),
        _ => text.extend(vec![b' '; 1 + random.below(LINE - 1)]),
    }
    text
}

/// One byte that no line can have in its place.
fn ill_written(random: &mut Random) -> (Vec<u8>, usize) {
    let mut text = Knobs::any(random).text(random);
    let line = random.below(text.len() / LINE);
    let columns = &mut text[LINE * line..LINE * (line + 1)];
    let (column, bytes): (usize, &[u8]) = match random.below(4) {
        // The newline.
        0 => (24, b"\r 0\0"),
        // The last digit of the count or of the node number.
        1 => (3, b" -x+\n"),
        // Column 5, or the last digit of T or of the second total.
        2 if line == 0 => (random.pick(&[5, 7]), b"-x\t"),
        2 => (4, b"-x\t"),
        // The kind, or the last digit of the highest end.
        _ => (if line == 0 { 23 } else { 5 }, b" "),
    };
    columns[column] = random.pick(bytes);
    (text, line)
}

/// A path of 65 nodes or more, or a fifth C.
fn beyond_a_limit(random: &mut Random) -> (Vec<u8>, usize) {
    let deep = random.one_in(2);
    let knobs = if deep {
        Knobs::too_deep(random)
    } else {
        Knobs {
            root: Kinds::either(1),
            inner: Kinds::either(1),
            shape: Shape::Deep,
            ..Knobs::too_chancy(random)
        }
    };
    let draft = knobs.draft(random);
    let [longest, chanciest] = marked_lines(&draft);
    let node = if deep { longest } else { chanciest };
    (draft.text(), node + 1)
}

// Each of these breaks a draft and returns the line.

fn out_of_range(draft: &mut Draft, random: &mut Random) -> usize {
    let (lowest, highest) = (draft.lowest, draft.highest);
    let larger = draft.larger_total();
    match random.below(5) {
        0 => {
            let at = random.below(draft.totals.len());
            let mut bad = vec![-1, MOST_TOTAL + 1];
            // As the second total 0 is none.
            bad.extend((at == 0).then_some(0));
            // Or both are the same.
            bad.extend(draft.totals.get(1 - at));
            draft.totals[at] = random.pick(&bad);
        }
        1 => draft.highest = lowest - 1,
        2 => draft.lowest = highest + 1,
        3 => {
            return change(
                draft,
                random,
                |line| line.weight.is_some(),
                |line, random| {
                    line.weight = random.pick(&[Some(0), Some(-1), Some(larger + 1)]);
                },
            );
        }
        _ => {
            return change(
                draft,
                random,
                |line| line.kind == b'L',
                |line, random| {
                    line.utility = random.pick(&[Some(lowest - 1), Some(highest + 1)]);
                },
            );
        }
    }
    0
}

fn miscounted(draft: &mut Draft, random: &mut Random) -> usize {
    let off = random.pick(&[-1, 1]);
    if random.one_in(4) {
        draft.count += off;
        return 0;
    }
    change(draft, random, |_| true, |line, _| line.number += off)
}

fn no_kind(draft: &mut Draft, random: &mut Random) -> usize {
    change(
        draft,
        random,
        |_| true,
        |line, random| {
            line.kind = random.pick(b"ABDKOXZmncl0-.");
        },
    )
}

/// No parent, or itself; for the root any at all.
fn wrong_parent(draft: &mut Draft, random: &mut Random) -> usize {
    change(
        draft,
        random,
        |_| true,
        |line, random| {
            line.parent = match line.parent {
                Some(_) if random.one_in(2) => None,
                _ => Some(line.number),
            };
        },
    )
}

fn missing_or_not_blank(draft: &mut Draft, random: &mut Random) -> usize {
    let (lowest, weight) = (draft.lowest, random.one_in(2));
    change(
        draft,
        random,
        |_| true,
        |line, _| {
            let (field, written) = match weight {
                true => (&mut line.weight, 1),
                false => (&mut line.utility, lowest),
            };
            *field = match field {
                Some(_) => None,
                None => Some(written),
            };
        },
    )
}

fn childless(draft: &mut Draft, random: &mut Random) -> usize {
    change(
        draft,
        random,
        |line| line.kind == b'L',
        |line, random| {
            line.kind = random.pick(b"MN");
            line.utility = None;
        },
    )
}

/// One weight is another, so that the sum is neither total; by one more or less, if that
/// will do. The line is the C's.
fn wrong_sum(draft: &mut Draft, random: &mut Random) -> usize {
    let (totals, larger) = (draft.totals.clone(), draft.larger_total());
    let sums = sums(draft);
    let line = change(
        draft,
        random,
        |line| line.weight.is_some(),
        |line, random| {
            let parent = line.parent.expect("a node with a weight has a parent");
            let weight = line.weight.expect("a weight");
            let rest = sums[parent as usize] - weight;
            let is_wrong =
                |other: &i64| (1..=larger).contains(other) && !totals.contains(&(rest + other));
            let near = [weight - 1, weight + 1].into_iter().filter(is_wrong);
            let near: Vec<i64> = near.collect();
            let any: Vec<i64> = (1..=larger).filter(is_wrong).collect();
            let wrong = if near.is_empty() { any } else { near };
            line.weight = Some(random.pick(&wrong));
        },
    );
    let parent = draft.lines[line - 1].parent;
    parent.expect("a node with a weight has a parent") as usize + 1
}

/// What the weights under each node sum to.
fn sums(draft: &Draft) -> Vec<i64> {
    let mut sums = vec![0; draft.lines.len()];
    for line in &draft.lines {
        if let (Some(parent), Some(weight)) = (line.parent, line.weight) {
            sums[parent as usize] += weight;
        }
    }
    sums
}

/// Changes one of the lines that are wanted, and returns which.
fn change(
    draft: &mut Draft,
    random: &mut Random,
    wanted: fn(&Line) -> bool,
    mut change: impl FnMut(&mut Line, &mut Random),
) -> usize {
    let wanted: Vec<usize> = (0..draft.lines.len())
        .filter(|&node| wanted(&draft.lines[node]))
        .collect();
    let node = random.pick(&wanted);
    change(&mut draft.lines[node], random);
    node + 1
}
