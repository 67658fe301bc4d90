//! Holds a call that writes a few numbers to what it should return and write.

use std::fmt::Arguments;

use super::tally::Tally;
use crate::texts::examples::escaped;

/// No call writes this, so a number that was written shows.
const PATTERN: i64 = -0x5a5a_5a5a_5a5a_5a5a;

/// The most numbers lent to a call; one more is kept as a guard after them.
pub const ROOM: usize = 9;

/// Makes the call with room for so many numbers; `asked` names it. Fails the test unless it
/// returns and writes what is expected, and leaves all other numbers alone.
pub fn agree(
    tally: &Tally,
    text: &[u8],
    asked: Arguments,
    room: usize,
    (returned, written): (u64, &[i64]),
    call: impl FnOnce(&mut [i64]) -> u64,
) {
    let mut expected = [PATTERN; ROOM + 1];
    let kept = room.min(written.len());
    expected[..kept].copy_from_slice(&written[..kept]);
    let mut numbers = [PATTERN; ROOM + 1];
    let got = call(&mut numbers[..room]);
    if got != returned || numbers != expected {
        panic!(
            "{}: the engines differ on {asked}, with room for {room}\n\
             returned: expected {returned}, got {got}\n\
             numbers: expected {expected:?}, got {numbers:?}\n\
             text of {} bytes:\n{}",
            tally.place(),
            text.len(),
            escaped(text),
        );
    }
}
