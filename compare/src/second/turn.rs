//! The turned table: refusal 11.

use super::read::read;
use super::table::*;
use super::write::write;

/// Writes the text of the turned table at the start of the buffer: M and N are
/// exchanged, the utilities negated, the ends negated and exchanged. All else is as in the
/// table; every number has blanks before it, whatever it has in the text (document 02,
/// Item 9).
pub fn turn(text: &[u8], buffer: &mut [u8]) -> Result<(), Refusal> {
    let mut table = read(text)?;
    let Some(turned) = buffer.get_mut(..text.len()) else {
        return Err(Refusal {
            number: 11,
            line: 0,
        });
    };
    (table.lowest, table.highest) = (-table.highest, -table.lowest);
    for node in &mut table.nodes {
        node.kind = match node.kind {
            Kind::Max => Kind::Min,
            Kind::Min => Kind::Max,
            kind => kind,
        };
        node.utility = node.utility.map(|utility| -utility);
    }
    write(&table, turned);
    Ok(())
}
