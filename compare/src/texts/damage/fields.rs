//! Damages to a draft. Each leaves every field well-written.

use crate::random::Random;
use crate::texts::draft::{Draft, Line};

/// Damages a draft at or near the node line of index `at`.
type OnDraft = fn(&mut Draft, usize, &mut Random);

pub const ON_DRAFT: &[OnDraft] = &[
    wrong_count,
    wrong_total,
    other_totals,
    wrong_ends,
    narrower_ends,
    wrong_number,
    wrong_kind,
    other_kind,
    wrong_parent,
    leaf_as_parent,
    closed_parent,
    other_ancestor,
    wrong_weight,
    weight_off_by_one,
    weight_moved,
    heavier_by_256,
    wrong_utility,
    beyond_a_power_of_2,
    childless,
    childless,
    drop_line,
    double_line,
    exchange_lines,
];

/// The first line from `at` on, and around from the top, that is wanted.
fn line_from(draft: &Draft, at: usize, wanted: impl Fn(&Line) -> bool) -> Option<usize> {
    let count = draft.lines.len();
    (at..at + count)
        .map(|i| i % count)
        .find(|&i| wanted(&draft.lines[i]))
}

fn wrong_count(draft: &mut Draft, _: usize, random: &mut Random) {
    let count = draft.count.clamp(0, 1_025);
    draft.count = random.pick(&[count - 1, count + 1, 0, -1, 1_024, 1_025, 9_999, -999]);
}

fn wrong_total(draft: &mut Draft, _: usize, random: &mut Random) {
    let at = random.below(draft.totals.len());
    let total = draft.totals[at].clamp(0, 65);
    let [far, below] = match draft.totals[..] {
        [_] => [9_999, -999],
        _ => [99, -9],
    };
    let mut wrong = vec![total - 1, total + 1, 0, 65, -1, far, below];
    // As the second total 0 is none, and no fault by itself.
    wrong.retain(|wrong| at == 0 || *wrong != 0);
    wrong.extend(draft.totals.get(1 - at));
    draft.totals[at] = random.pick(&wrong);
}

/// Exchanges two totals, so that the table means the same; or leaves one out, or puts a
/// second one in, of which the sums may know or not.
fn other_totals(draft: &mut Draft, _: usize, random: &mut Random) {
    let is_short = |total: &i64| (-9..=99).contains(total);
    match draft.totals.len() {
        2 if random.one_in(2) => draft.totals.reverse(),
        2 => {
            draft.totals.remove(random.below(2));
        }
        _ if draft.totals.iter().all(is_short) => {
            let total = random.between(1, 64);
            draft.totals.insert(random.below(2), total);
        }
        _ => {}
    }
}

fn wrong_ends(draft: &mut Draft, _: usize, random: &mut Random) {
    let (lowest, highest) = (draft.lowest, draft.highest);
    (draft.lowest, draft.highest) = random.pick(&[
        (highest, lowest),
        (highest.min(1_000_000) + 1, highest),
        (lowest, lowest.max(-1_000_000) - 1),
        (-1_000_001, highest),
        (lowest, 1_000_001),
        (1_000_001, 1_000_001),
        (-1_000_001, -1_000_001),
        (-9_999_999, highest),
        (lowest, 99_999_999),
    ]);
}

/// Moves one end by one, so that a utility may lie outside.
fn narrower_ends(draft: &mut Draft, _: usize, random: &mut Random) {
    if draft.lowest < draft.highest {
        if random.one_in(2) {
            draft.lowest += 1;
        } else {
            draft.highest -= 1;
        }
    }
}

fn wrong_number(draft: &mut Draft, at: usize, random: &mut Random) {
    if let Some(line) = draft.lines.get_mut(at) {
        let place = at as i64;
        line.number = random.pick(&[place - 1, place + 1, 0, -1, 9_999, -999]);
    }
}

fn wrong_kind(draft: &mut Draft, at: usize, random: &mut Random) {
    if let Some(line) = draft.lines.get_mut(at) {
        line.kind = random.pick(b"ABDKOXZmncl0-.");
    }
}

/// Another of the four kinds, all else kept.
fn other_kind(draft: &mut Draft, at: usize, random: &mut Random) {
    if let Some(line) = draft.lines.get_mut(at) {
        line.kind = random.pick(b"MNCL");
    }
}

fn wrong_parent(draft: &mut Draft, at: usize, random: &mut Random) {
    let count = draft.lines.len() as i64;
    if let Some(line) = draft.lines.get_mut(at) {
        let place = at as i64;
        line.parent = match random.below(8) {
            0 | 1 => None,
            2 => Some(place),
            3 => Some(place + 1),
            4 => random.pick(&[Some(-1), Some(-9_999), Some(99_999), Some(1_024)]),
            _ => Some(random.between(0, count)),
        };
    }
}

/// Puts a line under the leaf before it.
fn leaf_as_parent(draft: &mut Draft, at: usize, random: &mut Random) {
    if let Some(leaf) = line_from(draft, at, |line| line.kind == b'L') {
        if let Some(line) = draft.lines.get_mut(leaf + 1) {
            line.parent = Some(leaf as i64);
            if random.one_in(2) {
                line.weight = None;
            }
        }
    }
}

/// Puts a line under an inner node whose run is over.
fn closed_parent(draft: &mut Draft, at: usize, random: &mut Random) {
    let ancestors = ancestors(draft, at);
    let closed: Vec<usize> = (0..at.min(draft.lines.len()))
        .filter(|i| draft.lines[*i].kind != b'L' && !ancestors.contains(i))
        .collect();
    if at < draft.lines.len() && !closed.is_empty() {
        draft.lines[at].parent = Some(random.pick(&closed) as i64);
    }
}

/// Puts a line under another ancestor of the line before it: the sequence stays
/// depth-first, but a node may lose its only child or a weight its place.
fn other_ancestor(draft: &mut Draft, at: usize, random: &mut Random) {
    let ancestors = ancestors(draft, at);
    if ancestors.is_empty() || at >= draft.lines.len() {
        return;
    }
    let parent = random.pick(&ancestors);
    let weighs = draft.lines[parent].kind == b'C';
    let line = &mut draft.lines[at];
    line.parent = Some(parent as i64);
    if random.one_in(2) {
        line.weight = match line.weight {
            weight @ Some(_) if weighs => weight,
            _ => weighs.then_some(1),
        };
    }
}

/// The node before `at` and its ancestors, as far as the parents are sound.
fn ancestors(draft: &Draft, at: usize) -> Vec<usize> {
    let mut found = Vec::new();
    let mut next = at.checked_sub(1);
    while let Some(node) = next.filter(|&node| node < draft.lines.len()) {
        found.push(node);
        next = draft.lines[node]
            .parent
            .and_then(|parent| usize::try_from(parent).ok())
            .filter(|&parent| parent < node);
    }
    found
}

fn wrong_weight(draft: &mut Draft, at: usize, random: &mut Random) {
    let total = draft.larger_total();
    if let Some(line) = draft.lines.get_mut(at) {
        line.weight = match line.weight {
            None => random.pick(&[Some(1), Some(total), Some(0), Some(65)]),
            Some(_) => random.pick(&[
                None,
                Some(0),
                Some(total + 1),
                Some(-1),
                Some(99_999),
                Some(-9_999),
            ]),
        };
    }
}

fn weight_off_by_one(draft: &mut Draft, at: usize, random: &mut Random) {
    if let Some(i) = line_from(draft, at, |line| line.weight.is_some()) {
        let weight = draft.lines[i].weight.unwrap_or(0).clamp(-1_000, 1_000);
        draft.lines[i].weight = Some(weight + random.pick(&[-1, 1]));
    }
}

/// Moves one unit of weight between two lines: under the same node the sum
/// stays, under different ones both are wrong.
fn weight_moved(draft: &mut Draft, at: usize, _: &mut Random) {
    let spare = |line: &Line| line.weight.is_some_and(|weight| weight > 1);
    if let Some(from) = line_from(draft, at, spare) {
        if let Some(to) = line_from(draft, from + 1, |line| line.weight.is_some()) {
            let taken = draft.lines[from].weight.map(|weight| weight - 1);
            draft.lines[from].weight = taken;
            let given = draft.lines[to]
                .weight
                .map(|weight| (weight + 1).min(99_999));
            draft.lines[to].weight = given;
        }
    }
}

/// Adds 256 to the weights under one C, none of them above the larger total: a sum kept in
/// one byte would still be T.
fn heavier_by_256(draft: &mut Draft, at: usize, _: &mut Random) {
    let Some(chance) = line_from(draft, at, |line| line.kind == b'C') else {
        return;
    };
    let total = draft.larger_total();
    let mut weights: Vec<&mut i64> = draft
        .lines
        .iter_mut()
        .filter(|line| line.parent == Some(chance as i64))
        .filter_map(|line| line.weight.as_mut())
        .collect();
    let room: i64 = weights.iter().map(|weight| total - **weight).sum();
    if room >= 256 {
        let mut left = 256;
        for weight in &mut weights {
            let added = left.min(total - **weight);
            **weight += added;
            left -= added;
        }
    }
}

fn wrong_utility(draft: &mut Draft, at: usize, random: &mut Random) {
    let lowest = draft.lowest.clamp(-1_000_000, 1_000_000);
    let highest = draft.highest.clamp(-1_000_000, 1_000_000);
    if let Some(line) = draft.lines.get_mut(at) {
        line.utility = match line.utility {
            None => random.pick(&[Some(lowest), Some(highest), Some(lowest - 1)]),
            Some(_) => random.pick(&[
                None,
                Some(lowest - 1),
                Some(highest + 1),
                Some(99_999_999),
                Some(-9_999_999),
            ]),
        };
    }
}

/// Adds a power of 2 to a number: kept in too few bits, it would be the same.
fn beyond_a_power_of_2(draft: &mut Draft, at: usize, random: &mut Random) {
    let byte = 1 << 8;
    let word = 1 << 16;
    let wide = random.pick(&[1 << 16, 1 << 24, 1 << 26]);
    let add = |number: &mut i64, power: i64, limit: i64| {
        if *number + power <= limit {
            *number += power;
        }
    };
    match random.below(4) {
        0 if draft.totals.len() == 1 => add(&mut draft.totals[0], byte, 9_999),
        1 => add(&mut draft.highest, wide, 99_999_999),
        _ => {}
    }
    let Some(line) = draft.lines.get_mut(at) else {
        return;
    };
    match random.below(4) {
        0 => add(
            &mut line.number,
            random.pick(&[byte, 1 << 10, 1 << 12]),
            9_999,
        ),
        1 => line.parent.iter_mut().for_each(|parent| {
            add(parent, random.pick(&[byte, 1 << 10, word]), 99_999);
        }),
        2 => line.weight.iter_mut().for_each(|weight| {
            add(weight, random.pick(&[byte, word]), 99_999);
        }),
        _ => line.utility.iter_mut().for_each(|utility| {
            add(utility, wide, 99_999_999);
        }),
    }
}

/// Makes a leaf an inner node; it has no child unless the next line is damaged
/// too.
fn childless(draft: &mut Draft, at: usize, random: &mut Random) {
    if let Some(i) = line_from(draft, at, |line| line.kind == b'L') {
        draft.lines[i].kind = random.pick(b"MNC");
        draft.lines[i].utility = None;
    }
}

fn drop_line(draft: &mut Draft, at: usize, random: &mut Random) {
    if at < draft.lines.len() {
        draft.lines.remove(at);
        renumber(draft, random);
    }
}

fn double_line(draft: &mut Draft, at: usize, random: &mut Random) {
    if let Some(&line) = draft.lines.get(at) {
        draft.lines.insert(at, line);
        renumber(draft, random);
    }
}

/// Exchanges two lines; in half the cases the parents that name them follow.
fn exchange_lines(draft: &mut Draft, at: usize, random: &mut Random) {
    let count = draft.lines.len();
    if at >= count {
        return;
    }
    let other = match random.below(2) {
        0 => (at + 1) % count,
        _ => random.below(count),
    };
    draft.lines.swap(at, other);
    if random.one_in(2) {
        for line in &mut draft.lines {
            if line.parent == Some(at as i64) {
                line.parent = Some(other as i64);
            } else if line.parent == Some(other as i64) {
                line.parent = Some(at as i64);
            }
        }
    }
    renumber(draft, random);
}

/// In most cases, makes the count and the numbers those of the lines again.
fn renumber(draft: &mut Draft, random: &mut Random) {
    if !random.one_in(4) {
        draft.count = draft.lines.len() as i64;
        for (i, line) in draft.lines.iter_mut().enumerate() {
            line.number = i as i64;
        }
    }
}
