//! The exact worth.

use crate::raw;
use crate::refusal::{Refusal, answered};

/// What a table is worth.
#[derive(Clone, Copy, Debug, PartialEq, Eq)]
#[non_exhaustive]
pub struct Worth {
    /// The worth in grains.
    pub grains: i64,
    /// G, the grains in one point.
    pub per_point: i64,
}

/// The exact worth of a table, by the published minimax rule. Refuses 1 to 10 and 18.
///
/// ```
/// let text = std::fs::read("../examples/b.txt")?;
/// let worth = margin_engine::exact_worth(&text)?;
/// assert_eq!((worth.grains, worth.per_point), (20, 4));
/// # Ok::<(), Box<dyn std::error::Error>>(())
/// ```
pub fn exact_worth(text: &[u8]) -> Result<Worth, Refusal> {
    let mut numbers = [0; 2];
    answered(raw::exact_worth(text, &mut numbers))?;
    let [grains, per_point] = numbers;
    Ok(Worth { grains, per_point })
}
