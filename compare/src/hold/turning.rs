//! Turning: the refusal and its line, or every byte of the turned text; and that
//! all else in the buffer lent is left as it was.

use super::code;
use super::seen::{Seen, ROOTS};
use super::tally::Tally;
use crate::engine;
use crate::second::{self, Kind, Refusal, Table, FARTHEST_END, LINE, MOST_NODES};
use crate::texts::examples::escaped;
use crate::texts::padding::blanked;

/// No text has this byte in it, so a byte that was written shows.
pub const PATTERN: u8 = 0xa5;

/// The length of the longest text.
const LONGEST: usize = LINE * (1 + MOST_NODES);

/// Bytes kept as a guard after a buffer lent.
const GUARD: usize = 8;

/// Holds the proved engine to this turned text or refusal, with a buffer of
/// `room` bytes.
pub fn hold_to(tally: &Tally, text: &[u8], room: usize, expected: &Result<&[u8], Refusal>) {
    let mut buffer = vec![PATTERN; room + GUARD];
    let returned = engine::turn(text, &mut buffer[..room]);
    let turned = expected.unwrap_or_default();
    let (written, rest) = buffer.split_at(turned.len());
    if returned != code(expected) || written != turned || rest.iter().any(|&byte| byte != PATTERN) {
        panic!(
            "{}: the engines differ on turning, with a buffer of {room} bytes\n\
             returned: expected {}, got {returned}\n\
             expected, then {PATTERN:#x} for each byte left alone:\n{}\
             got:\n{}\
             text of {} bytes:\n{}",
            tally.place(),
            code(expected),
            escaped(turned),
            escaped(&buffer),
            text.len(),
            escaped(text),
        );
    }
}

/// Compares the two engines on texts.
pub struct Comparison {
    pub tally: Tally,
    pub seen: Seen,
    /// Texts compared so far; it sets the buffers lent next.
    turn: usize,
}

impl Comparison {
    pub fn new(name: &'static str) -> Comparison {
        Comparison {
            tally: Tally::new(name),
            seen: Seen::default(),
            turn: 0,
        }
    }

    /// Gives a text to both engines, with several buffers where it is accepted.
    /// Fails the test unless the engines agree, and the turned text turned again
    /// is the blank-padded text (document 02, Item 9).
    pub fn hold(&mut self, text: &[u8]) -> Result<Table, Refusal> {
        let table = second::read(text);
        let mut codes = Vec::new();
        for room in self.rooms(text.len(), table.is_ok()) {
            let mut buffer = vec![PATTERN; room];
            let turned = second::turn(text, &mut buffer).map(|()| &buffer[..text.len()]);
            hold_to(&self.tally, text, room, &turned);
            codes.push(code(&turned));
            if table.is_ok() {
                let short = text.len().saturating_sub(room);
                self.seen.count("buffer exact", room == text.len());
                self.seen.count("buffer longer", room > text.len());
                self.seen.count("buffer too short by one", short == 1);
                self.seen.count("buffer far too short", short > 1);
            }
        }
        self.tally.add(&codes);
        if let Ok(table) = &table {
            self.tally.add_table(table);
            let turned = turned(text);
            assert!(!turned.windows(2).any(|pair| pair == b"-0"), "-0 written");
            hold_to(&self.tally, &turned, text.len(), &Ok(&blanked(text)));
            self.add_table(table, text == turned);
        }
        table
    }

    /// The lengths of the buffers to lend: by turns a longer one or one far too
    /// short; for a table also one exact and one too short by one.
    fn rooms(&mut self, length: usize, table: bool) -> Vec<usize> {
        self.turn += 1;
        let other = match self.turn % 8 {
            0 => 0,
            1 => length / 2,
            2 => length.saturating_sub(LINE),
            3 => length + 1,
            4 => length + LINE,
            5 => LONGEST,
            6 => LONGEST + 1,
            _ => length + self.turn % 1_000,
        };
        match table {
            true => vec![length, length - 1, other],
            false => vec![other],
        }
    }

    fn add_table(&mut self, table: &Table, same: bool) {
        let seen = &mut self.seen;
        seen.count_table(table);
        seen.count_root(&ROOTS, table);
        seen.count_chances(table);
        let has = |kind| table.nodes.iter().any(|node| node.kind == kind);
        seen.count("M and N", has(Kind::Max) && has(Kind::Min));
        let some = |wanted: fn(i64) -> bool| {
            table
                .nodes
                .iter()
                .any(|node| node.utility.is_some_and(wanted))
        };
        seen.count("utility 0", some(|utility| utility == 0));
        seen.count("utility above zero", some(|utility| utility > 0));
        seen.count("utility below zero", some(|utility| utility < 0));
        seen.count("utility 1,000,000", some(|utility| utility == FARTHEST_END));
        seen.count(
            "utility -1,000,000",
            some(|utility| utility == -FARTHEST_END),
        );
        // The text stays the same where a leaf of 0 is alone between ends that
        // are each other's negatives, or only C stand above leaves of 0.
        seen.count("the same turned", same);
    }
}

/// The proved engine's turned text of a valid table.
pub fn turned(text: &[u8]) -> Vec<u8> {
    let mut turned = vec![PATTERN; text.len()];
    assert_eq!(engine::turn(text, &mut turned), 0, "a valid table");
    turned
}
