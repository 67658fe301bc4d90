//! Wrong ways with two totals (document 02, Item 5): what an engine finds that takes
//! another divisor or another grain count. They are there for tests to count where one
//! would have changed an answer, and stand apart, so that the right way is not slowed. Those
//! of the search are in `search`, as `Sums`.

use super::table::*;

/// What the weighted sum at a C is divided by in place of the C's own sum.
#[derive(Clone, Copy, Debug, PartialEq, Eq)]
pub enum Divisor {
    Larger,
    Smaller,
    /// The total in columns 7-8.
    First,
}

/// The worth of the root in grains with this divisor, rounded down where it leaves a
/// remainder.
pub fn worth_divided_by(table: &Table, divisor: Divisor) -> i128 {
    let divisor = match divisor {
        Divisor::Larger => table.larger_total(),
        Divisor::Smaller => table.smaller_total(),
        Divisor::First => table.total,
    };
    fold(table, table.grains, |_, sum| {
        sum.div_euclid(i128::from(divisor))
    })
}

/// A grain count that is not Item 5's.
#[derive(Clone, Copy, Debug, PartialEq, Eq)]
pub enum GrainCount {
    /// The greatest product of the totals used on one path.
    OfOnePath,
    /// The larger total to the power K.
    Larger,
    /// The first total to the power K.
    First,
    /// Each total to the power K, multiplied.
    Both,
}

/// The grain count by this way.
pub fn grains_by(table: &Table, way: GrainCount) -> i64 {
    let first = table.total;
    match way {
        GrainCount::OfOnePath => most_on_a_path(table),
        GrainCount::Larger => table.larger_total().pow(table.chances),
        GrainCount::First => first.pow(table.chances),
        GrainCount::Both => (first * table.second.unwrap_or(1)).pow(table.chances),
    }
}

fn most_on_a_path(table: &Table) -> i64 {
    let mut products: Vec<i64> = Vec::with_capacity(table.nodes.len());
    for node in &table.nodes {
        let above = node.parent.map_or(1, |parent| products[parent]);
        products.push(match node.kind {
            Kind::Chance => above * node.sum,
            _ => above,
        });
    }
    products.into_iter().max().unwrap_or(1)
}

/// Whether a worth leaves a remainder where it is divided, with so many grains in a point.
pub fn leaves_remainder(table: &Table, grains: i64) -> bool {
    let mut left = false;
    fold(table, grains, |node, sum| {
        let divisor = i128::from(node.sum);
        left |= sum.rem_euclid(divisor) != 0;
        sum.div_euclid(divisor)
    });
    left
}

/// The worth of the root, where a C makes its own of the weighted sum over its children by
/// `divide`.
fn fold(table: &Table, grains: i64, mut divide: impl FnMut(&Node, i128) -> i128) -> i128 {
    let mut entries: Vec<Option<i128>> = vec![None; table.nodes.len()];
    for (i, node) in table.nodes.iter().enumerate().rev() {
        let worth = match node.utility {
            Some(utility) => i128::from(utility) * i128::from(grains),
            None => entries[i].expect("an inner node has a child"),
        };
        let worth = match node.kind {
            Kind::Chance => divide(node, worth),
            _ => worth,
        };
        let Some(parent) = node.parent else {
            return worth;
        };
        let so_far = entries[parent];
        entries[parent] = Some(match (table.nodes[parent].kind, so_far) {
            (Kind::Max, Some(best)) => best.max(worth),
            (Kind::Min, Some(best)) => best.min(worth),
            (Kind::Chance, sum) => {
                let weight = node.weight.expect("a child of a C has a weight");
                sum.unwrap_or(0) + i128::from(weight) * worth
            }
            (_, _) => worth,
        });
    }
    unreachable!("a table has a root")
}
