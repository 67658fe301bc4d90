//! The index of ends, and the search with it.

use crate::refusal::{Refusal, answered};
use crate::search::{Found, found};
use crate::{LINE, MOST_NODES, raw};

/// For each M, N and C of a table the lowest and the highest utility among the leaves
/// under it, in points.
#[derive(Clone, Debug, PartialEq, Eq)]
pub struct Index {
    /// The lowest, by node number. Leaves have 0 here, which is never looked at.
    pub lows: Vec<i64>,
    /// The highest, likewise.
    pub highs: Vec<i64>,
}

/// Builds the index of a table, for [`search_indexed`]. Refuses 1 to 10 and 18.
///
/// ```
/// let text = std::fs::read("../examples/a.txt")?;
/// let index = margin_engine::index(&text)?;
/// assert_eq!((index.lows[0], index.highs[0]), (2, 9)); // of all four leaves
/// assert_eq!((index.lows[1], index.highs[1]), (3, 5)); // of the first play's
/// assert_eq!((index.lows[4], index.highs[4]), (2, 9)); // of the second's
/// # Ok::<(), Box<dyn std::error::Error>>(())
/// ```
pub fn index(text: &[u8]) -> Result<Index, Refusal> {
    // An accepted text is the header and a line for each node. Any other is refused, so
    // that it needs no room.
    let nodes = (text.len() / LINE).saturating_sub(1).min(MOST_NODES);
    let mut lows = vec![0; nodes];
    let mut highs = vec![0; nodes];
    answered(raw::index(text, &mut lows, &mut highs))?;
    Ok(Index { lows, highs })
}

/// Searches a table to this margin, in grains, with its index. Refuses 1 to 10 and 18,
/// then 22 where the index is too short or not this table's own, then 12 as
/// [`search`](crate::search) does.
///
/// It mostly reads fewer leaves, as a line counts what is unread under it at its own two
/// ends, and not at the table's. The worth still lies from `low` to `high`, they are at
/// most the margin apart, and the play's worth is within the margin of the best. If any
/// unread leaves are given other utilities, the same answer comes back, provided that the
/// index is still the same.
///
/// ```
/// use margin_engine::{index, search, search_indexed};
///
/// let text = std::fs::read("../examples/a.txt")?;
/// let its_index = index(&text)?;
/// let found = search_indexed(&text, 0, &its_index)?;
/// assert_eq!((found.low, found.high), (3, 3));
/// // With leaf 2 the first play is worth 3, as nothing under it is lower.
/// assert_eq!(found.leaves, [2, 5]);
/// assert_eq!(search(&text, 0)?.leaves, [2, 3, 5]);
///
/// // From real play, with all 21 rolls after each play.
/// let text = std::fs::read("../examples/opening.txt")?;
/// assert_eq!(search(&text, 0)?.leaves.len(), 341);
/// assert_eq!(search_indexed(&text, 0, &index(&text)?)?.leaves.len(), 38);
///
/// // Another table has another index.
/// assert_eq!(search_indexed(&text, 0, &its_index).unwrap_err().number, 22);
/// # Ok::<(), Box<dyn std::error::Error>>(())
/// ```
pub fn search_indexed(text: &[u8], margin: i64, index: &Index) -> Result<Found, Refusal> {
    let mut numbers = [0; 7];
    let mut leaves = [0; MOST_NODES];
    let Index { lows, highs } = index;
    let code = raw::search_indexed(text, margin, lows, highs, &mut leaves, &mut numbers);
    answered(code)?;
    Ok(found(text, numbers, &leaves))
}
