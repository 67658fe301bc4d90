//! How many leaves the searches read of an example, without its index and with it; the
//! engines must agree on each of them. For the figures in documents, and the benchmark.

use super::searching;
use crate::engine;
use crate::second::{self, Found, Refusal, Table};

/// The examples that are tables from real play, by name. A point of theirs is a thousandth
/// of a point of equity.
pub const FROM_PLAY: [&str; 7] = [
    "opening", "bar", "race", "bear-off", "decided", "replies", "holding",
];

/// The leaves read at a margin in grains, without an index.
pub fn read(text: &[u8], margin: i64) -> usize {
    both(
        text,
        |table, leaves| second::search(table, margin, leaves),
        |leaves, numbers| engine::search(text, margin, leaves, numbers),
    )
}

/// The same with the table's index.
pub fn read_indexed(text: &[u8], margin: i64) -> usize {
    let [lows, highs] = index(text);
    both(
        text,
        |table, leaves| second::search_indexed(table, margin, (&lows, &highs), leaves),
        |leaves, numbers| engine::search_indexed(text, margin, &lows, &highs, leaves, numbers),
    )
}

/// The two lists of a table's index, with 0 for leaves.
pub fn index(text: &[u8]) -> [Vec<i64>; 2] {
    let table = second::read(text).expect("an accepted table");
    let list = || vec![0; table.nodes.len()];
    let ([mut lows, mut highs], [mut expected_lows, mut expected_highs]) =
        ([list(), list()], [list(), list()]);
    assert_eq!(engine::index(text, &mut lows, &mut highs), 0);
    let expected = second::index(&table, &mut expected_lows, &mut expected_highs);
    assert_eq!(expected, Ok(()));
    assert_eq!((&lows, &highs), (&expected_lows, &expected_highs));
    [lows, highs]
}

fn both(
    text: &[u8],
    second: impl FnOnce(&Table, &mut [u16]) -> Result<Found, Refusal>,
    proved: impl FnOnce(&mut [u16], &mut [i64]) -> u64,
) -> usize {
    let table = second::read(text).expect("an accepted table");
    let mut expected = vec![0; table.leaves];
    let found = second(&table, &mut expected).expect("an answer");
    let (mut leaves, mut numbers) = (vec![0; table.leaves], [0; 7]);
    assert_eq!(proved(&mut leaves, &mut numbers), 0);
    assert_eq!(numbers, searching::numbers(found, table.grains));
    assert_eq!(leaves, expected);
    found.read
}
