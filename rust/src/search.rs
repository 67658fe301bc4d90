//! The search to a margin, and within a budget of leaf reads.

use crate::MOST_NODES;
use crate::raw;
use crate::refusal::{Refusal, answered};

/// What a search found.
#[derive(Clone, Debug, PartialEq, Eq)]
#[non_exhaustive]
pub struct Found {
    /// The exact worth is at least this, in grains.
    pub low: i64,
    /// The exact worth is at most this, in grains. Where the budget was not spent, it
    /// is at most the margin above `low`.
    pub high: i64,
    /// `high` minus `low`.
    pub difference: i64,
    /// A play that is worth at least `low` at an M root, at most `high` at an N root.
    /// Where the budget was not spent, its worth is within the margin of the best. Of
    /// the plays entered it has the highest low at M, and of several with this low the
    /// highest high; at N the lowest high, and then the lowest low; then it is the first.
    pub play: Play,
    /// The node numbers of the leaves read, in reading sequence. The answer is the
    /// same whatever the other leaves are, within the table's ends; with an index,
    /// provided that this is still the table's own.
    pub leaves: Vec<usize>,
    /// Whether the search without a budget reads more leaves than the budget. Where
    /// there is no budget, it is not spent.
    pub spent: bool,
    /// G, the grains in one point.
    pub per_point: i64,
}

/// What to play at the root.
#[derive(Clone, Copy, Debug, PartialEq, Eq)]
pub enum Play {
    /// A child of an M or N root.
    Child {
        /// Its number among the root's children, from 1, as [`judge`](crate::judge)
        /// takes it.
        number: i64,
        /// Its node number.
        node: usize,
    },
    /// Nobody chooses at a C or L root, and a budget of 0 enters no child.
    None,
}

/// Searches a table to this margin, in grains. Refuses 1 to 10 and 18, and 12 for a
/// margin that is not 0 to [`GREATEST_MARGIN`](crate::GREATEST_MARGIN).
///
/// ```
/// use margin_engine::{Play, search};
///
/// let text = std::fs::read("../examples/a.txt")?;
/// let found = search(&text, 3)?;
/// assert_eq!((found.low, found.high), (0, 3));
/// assert_eq!(found.play, Play::Child { number: 1, node: 1 });
/// assert_eq!(found.leaves, [2, 5]); // of four
///
/// assert_eq!(search(&text, 0)?.leaves, [2, 3, 5]);
/// assert_eq!(search(&text, -1).unwrap_err().number, 12);
///
/// // Three plays of low 0 and of highs 2, 3 and 3.
/// let text = std::fs::read("../examples/ties.txt")?;
/// assert_eq!(search(&text, 3)?.play, Play::Child { number: 2, node: 4 });
/// # Ok::<(), Box<dyn std::error::Error>>(())
/// ```
pub fn search(text: &[u8], margin: i64) -> Result<Found, Refusal> {
    let mut numbers = [0; 7];
    let mut leaves = [0; MOST_NODES];
    answered(raw::search(text, margin, &mut leaves, &mut numbers))?;
    Ok(found(text, numbers, &leaves))
}

/// Searches a table to this margin, in grains, with at most so many leaves read.
/// Refuses as [`search`] does, and 17 for a budget that is not 0 to
/// [`GREATEST_BUDGET`](crate::GREATEST_BUDGET).
///
/// A budget that is spent need keep the margin neither between the bounds nor for the
/// play; the worth still lies between them. One that is not spent changes nothing. A play
/// met when no read is left has the table's two ends as its bounds, and may be named.
///
/// ```
/// use margin_engine::{Play, search, search_within};
///
/// let text = std::fs::read("../examples/a.txt")?;
/// let found = search_within(&text, 0, 2)?;
/// assert_eq!((found.low, found.high, found.difference), (3, 10, 7));
/// assert_eq!(found.play, Play::Child { number: 1, node: 1 });
/// assert_eq!(found.leaves, [2, 3]); // the first two of three
/// assert!(found.spent);
///
/// let unread = search_within(&text, 0, 1)?.play;
/// assert_eq!(unread, Play::Child { number: 2, node: 4 }); // 0 to 10, the first 0 to 3
///
/// assert_eq!(search_within(&text, 0, 3)?, search(&text, 0)?);
/// assert_eq!(search_within(&text, 0, 1_025).unwrap_err().number, 17);
/// # Ok::<(), Box<dyn std::error::Error>>(())
/// ```
pub fn search_within(text: &[u8], margin: i64, budget: i64) -> Result<Found, Refusal> {
    let mut numbers = [0; 7];
    let mut leaves = [0; MOST_NODES];
    let code = raw::search_within(text, margin, budget, &mut leaves, &mut numbers);
    answered(code)?;
    Ok(found(text, numbers, &leaves))
}

/// What the numbers and the leaf list of an answer say.
pub(crate) fn found(text: &[u8], numbers: [i64; 7], leaves: &[u16]) -> Found {
    let [low, high, play, read, per_point, difference, spent] = numbers;
    Found {
        low,
        high,
        difference,
        play: match play {
            0 => Play::None,
            node => child(text, node as usize),
        },
        leaves: nodes(leaves, read),
        spent: spent == 1,
        per_point,
    }
}

/// The root child with this node number. The engine tells only this, so the table is
/// read once more for where each child's run of lines stops.
fn child(text: &[u8], node: usize) -> Play {
    let mut stops = [0; MOST_NODES];
    raw::read(text, &mut [], &mut [], &mut stops, &mut [], &mut []);
    let children = std::iter::successors(Some(1), |child| Some(usize::from(stops[*child])));
    let before = children.take_while(|child| *child < node).count();
    Play::Child {
        number: 1 + before as i64,
        node,
    }
}

/// The first so many of a list of node numbers.
pub(crate) fn nodes(list: &[u16], count: i64) -> Vec<usize> {
    let listed = list.iter().take(count as usize);
    listed.map(|&node| usize::from(node)).collect()
}
