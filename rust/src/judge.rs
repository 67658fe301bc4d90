//! The judgement of a play.

use crate::raw;
use crate::refusal::{Refusal, answered};

/// What there is to say of the play made at the root.
#[derive(Clone, Copy, Debug, PartialEq, Eq)]
pub enum Judgement {
    /// MAX or MIN has a choice: two plays or more.
    Loss {
        /// What the play loses against the best, in grains.
        grains: i64,
        /// How many plays are level with the best: they lose nothing, to the grain.
        level: usize,
    },
    /// Nobody chooses at a C or L root, and where an M or N root has a single child
    /// the play is forced.
    NoDecision,
}

/// Judges the play of the root child with this number, counted from 1 in the order
/// of the lines. Refuses 1 to 10 and 18, and 14 where an M or N root with two children
/// or more has no such child.
///
/// ```
/// use margin_engine::{Judgement, judge};
///
/// let text = std::fs::read("../examples/b.txt")?;
/// // The roll is worth 3.5 points, and the sure play 5.
/// assert_eq!(judge(&text, 2)?, Judgement::Loss { grains: 6, level: 1 });
/// assert_eq!(judge(&text, 3).unwrap_err().number, 14);
///
/// // Plays worth 3, 2 1/4 and 3 points: the first and the last are level.
/// let text = std::fs::read("../examples/level.txt")?;
/// assert_eq!(judge(&text, 2)?, Judgement::Loss { grains: 3, level: 2 });
///
/// // The roll alone: it must be played, so there is nothing to judge.
/// let text = std::fs::read("../examples/forced.txt")?;
/// assert_eq!(judge(&text, 3)?, Judgement::NoDecision);
/// # Ok::<(), Box<dyn std::error::Error>>(())
/// ```
pub fn judge(text: &[u8], number: i64) -> Result<Judgement, Refusal> {
    let mut numbers = [0; 3];
    answered(raw::judge(text, number, &mut numbers))?;
    Ok(match numbers {
        [0, ..] => Judgement::NoDecision,
        [_, grains, level] => Judgement::Loss {
            // At most the span of the ends, which an i64 holds.
            grains: grains as i64,
            level: level as usize,
        },
    })
}
