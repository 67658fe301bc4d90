//! The turned table.

use crate::refusal::{Refusal, answered};
use crate::{MOST_BYTES, raw};

/// A table from the other side.
#[derive(Clone, Debug, PartialEq, Eq)]
#[non_exhaustive]
pub struct Turned {
    /// Its text, as long as the one that was turned.
    pub text: Vec<u8>,
}

/// Turns a table: M and N change places, utilities get the other sign, and the two
/// ends are negated and exchanged. All else is kept, both totals too. Its worth is the
/// table's with the other sign. Numbers are written with blanks before them, whatever
/// zeros the text has there, so that turning twice gives the blank-padded text of the same
/// table. Refuses 1 to 10 and 18.
///
/// ```
/// use margin_engine::{exact_worth, turn};
///
/// let text = std::fs::read("../examples/b.txt")?;
/// let turned = turn(&text)?;
/// assert!(turned.text.starts_with(b"   5   4      -8       0\n   0 N"));
/// assert_eq!(exact_worth(&turned.text)?.grains, -20);
/// assert_eq!(turn(&turned.text)?.text, text);
///
/// // The same table with blanks before its numbers, and with zeros.
/// let blanks = std::fs::read("../examples/bar.txt")?;
/// let zeros = std::fs::read("../examples/bar-zeros.txt")?;
/// assert_eq!(turn(&zeros)?, turn(&blanks)?);
/// assert_eq!(turn(&turn(&zeros)?.text)?.text, blanks);
/// # Ok::<(), Box<dyn std::error::Error>>(())
/// ```
pub fn turn(text: &[u8]) -> Result<Turned, Refusal> {
    // A longer text is refused, so it needs no room.
    let mut buffer = vec![0; text.len().min(MOST_BYTES)];
    answered(raw::turn(text, &mut buffer))?;
    Ok(Turned { text: buffer })
}
