//! What a reason says after its colon where it is reckoned over many lines: a sum of
//! weights, and the grain count.

use super::refused::{kind, parent, totals, value, PARENT, WEIGHT};
use crate::second::{Refusal, LINE};

/// The detail of 9 and of 18; none is reckoned for the others.
pub fn detail(text: &[u8], refusal: Refusal) -> Option<String> {
    match refusal.number {
        9 => Some(wrong_sum(text, refusal.line - 1)),
        18 => Some(grain_count(text)),
        _ => None,
    }
}

fn wrong_sum(text: &[u8], node: usize) -> String {
    let sum = sum(text, node);
    match totals_of(text)[..] {
        [second, total] => format!("they sum to {sum}, and the totals are {total} and {second}"),
        [total] => format!("they sum to {sum}, and T is {total}"),
        _ => panic!("one total or two"),
    }
}

fn grain_count(text: &[u8]) -> String {
    let [second, total] = totals_of(text)[..] else {
        panic!("one total comes to no such count");
    };
    let chances: Vec<usize> = nodes(text)
        .enumerate()
        .filter(|(_, line)| kind(line) == b'C')
        .map(|(node, _)| node)
        .collect();
    let sums: Vec<i64> = chances.iter().map(|&node| sum(text, node)).collect();
    // The C of a total on the path to a C; the first of those with the most.
    let most = |total: i64| {
        let uses = |node: usize| {
            let line = nodes(text).nth(node);
            let path = std::iter::successors(line, |line| parent(text, line));
            let on_path = path.filter(|line| kind(line) == b'C').map(|line| {
                let place = value(line, (1, 4)).expect("a node number") as usize;
                sums[chances.binary_search(&place).expect("a C")]
            });
            on_path.filter(|&sum| sum == total).count() as u32
        };
        let counted = chances.iter().map(|&node| (uses(node), node));
        counted.rev().max_by_key(|(uses, _)| *uses).expect("a C")
    };
    let ((often, at), (often_second, at_second)) = (most(total), most(second));
    let grains = total.pow(often) * second.pow(often_second);
    format!(
        "{total} is used {} on the path to node {at}, {second} {} on that to node {at_second}, \
         so G would be {}",
        times(often),
        times(often_second),
        in_threes(grains)
    )
}

fn times(count: u32) -> String {
    ["never", "once", "twice", "3 times", "4 times"][count as usize].to_string()
}

/// The digits, a comma after each three from the right.
pub(super) fn in_threes(number: i64) -> String {
    let digits = number.to_string();
    let written = digits.char_indices().map(|(at, digit)| {
        let comma = at > 0 && (digits.len() - at).is_multiple_of(3);
        format!("{}{digit}", if comma { "," } else { "" })
    });
    written.collect()
}

/// The totals in the sequence of their columns.
fn totals_of(text: &[u8]) -> Vec<i64> {
    let stretches = totals(text).iter();
    let values = stretches.map(|&stretch| value(text, stretch).expect("a total"));
    values.collect()
}

/// The sum of the weights under a node.
fn sum(text: &[u8], node: usize) -> i64 {
    let children = nodes(text).filter(|line| value(line, PARENT) == Some(node as i64));
    children.filter_map(|line| value(line, WEIGHT)).sum()
}

/// The node lines that the header counts.
fn nodes(text: &[u8]) -> impl DoubleEndedIterator<Item = &[u8]> + ExactSizeIterator {
    let count = value(text, (1, 4)).expect("a count") as usize;
    text[LINE..LINE * (1 + count)].chunks(LINE)
}
