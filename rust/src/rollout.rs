//! Rollouts.

use crate::raw::{self, Record};
use crate::refusal::{Refusal, answered};
use crate::search::nodes;
use crate::{LINE, MOST_NODES};

/// What rollouts found.
#[derive(Clone, Debug, PartialEq, Eq)]
#[non_exhaustive]
pub struct Rolled {
    /// The exact worth in grains. Without C a grain is a point.
    pub worth: i64,
    /// The node numbers of the leaves read, in reading sequence.
    pub leaves: Vec<usize>,
    /// What is known of each node, by node number, as last updated.
    pub records: Vec<Record>,
}

/// Rolls out a table without C, until its worth is known. At each inner node that a
/// walk comes to, the next byte b of the policy chooses among its m candidates the
/// one with number b mod m, counted from 0; past the policy's end it is the first.
/// Refuses 1 to 10 and 18, and 13 where the table has a C.
///
/// ```
/// use margin_engine::{Record, rollout};
///
/// let text = std::fs::read("../examples/a.txt")?;
/// let rolled = rollout(&text, &[])?;
/// assert_eq!(rolled.worth, 3);
/// assert_eq!(rolled.leaves, [2, 3, 5]);
/// assert_eq!(rolled.records[4], Record { low: 0, high: 2 });
///
/// // Another policy reads other leaves and ends on the same worth.
/// let rolled = rollout(&text, &[1, 1])?;
/// assert_eq!((rolled.worth, rolled.leaves[0]), (3, 6));
/// # Ok::<(), Box<dyn std::error::Error>>(())
/// ```
pub fn rollout(text: &[u8], policy: &[u8]) -> Result<Rolled, Refusal> {
    let mut numbers = [0; 2];
    let mut leaves = [0; MOST_NODES];
    let mut store = [Record::default(); MOST_NODES];
    answered(raw::rollout(
        text,
        policy,
        &mut store,
        &mut leaves,
        &mut numbers,
    ))?;
    let [worth, read] = numbers;
    Ok(Rolled {
        worth,
        leaves: nodes(&leaves, read),
        // An accepted text is the header and a line for each node.
        records: store[..text.len() / LINE - 1].to_vec(),
    })
}
