//! The proved engine on lent memory of any lengths, for tests and the benchmark:
//! the raw calls of the package `margin-engine`, which calls the C interface.

pub use margin_engine::raw::{
    exact_worth as worth, index, read as read_into, report, rollout, search, search_indexed,
    search_within, turn, Record,
};

use crate::second::{Recipe, MOST_NODES};

/// The arrays lent to the reading of a table.
///
/// For an accepted table `numbers` holds the count of nodes, T, the lowest
/// end, the highest end, K, G, the count of leaves and the second total or 0, and
/// the other arrays hold one entry for each node. All else is left as it was, and
/// everything where the table is refused.
#[derive(Clone, Debug, PartialEq, Eq)]
pub struct Lent {
    pub numbers: [i64; 9],
    pub kind: [u8; MOST_NODES],
    pub stop: [u16; MOST_NODES],
    pub weight: [u8; MOST_NODES],
    pub height: [u32; MOST_NODES],
}

impl Lent {
    /// Arrays full of a pattern that is no entry of any table, so that an
    /// entry that was written can be told from one that was left alone.
    pub const PATTERN: Lent = Lent {
        numbers: [-0x5a5a_5a5a_5a5a_5a5a; 9],
        kind: [0xa5; MOST_NODES],
        stop: [0xa5a5; MOST_NODES],
        weight: [0xa5; MOST_NODES],
        height: [0xa5a5_a5a5; MOST_NODES],
    };
}

/// Reads `text` into arrays that are first filled with the pattern. Returns 0
/// for an accepted table, otherwise 100 times the refusal's line plus its number.
pub fn read(text: &[u8], lent: &mut Lent) -> u64 {
    lent.clone_from(&Lent::PATTERN);
    call(text, lent)
}

/// The bare call: reads `text` into arrays that are left as they come. For the
/// benchmark, which must not time the filling.
pub fn call(text: &[u8], lent: &mut Lent) -> u64 {
    read_into(
        text,
        &mut lent.numbers,
        &mut lent.kind,
        &mut lent.stop,
        &mut lent.weight,
        &mut lent.height,
    )
}

/// Judges a play. The engine's numbers have no sign here; none is so large that
/// it would be read as negative, so they are compared like those of other calls.
pub fn judge(text: &[u8], number: i64, numbers: &mut [i64]) -> u64 {
    let mut lent: Vec<u64> = numbers
        .iter()
        .map(|number| number.cast_unsigned())
        .collect();
    let code = margin_engine::raw::judge(text, number, &mut lent);
    for (number, lent) in numbers.iter_mut().zip(lent) {
        *number = lent.cast_signed();
    }
    code
}

/// Writes the table of a recipe.
pub fn recipe(recipe: Recipe, buffer: &mut [u8], numbers: &mut [i64]) -> u64 {
    let Recipe {
        seed,
        branching,
        depth,
        dice,
    } = recipe;
    margin_engine::raw::recipe(seed, branching, depth, dice, buffer, numbers)
}
