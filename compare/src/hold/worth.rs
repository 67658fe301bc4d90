//! The exact worth: the refusal and its line, or the worth and G; and that all
//! else in the lent numbers is left as it was.

use super::code;
use super::numbers::{agree, ROOM};
use super::seen::{Seen, ROOTS};
use super::span;
use super::tally::Tally;
use crate::engine;
use crate::second::{self, Refusal, Table};

/// Gives a text to both engines, to the proved one twice: with room to spare,
/// and with room for 0, 1 or 2 numbers, by turns. Fails the test unless they
/// agree.
pub fn hold(tally: &mut Tally, text: &[u8]) -> Result<(Table, i64), Refusal> {
    let answer = second::read(text).map(|table| {
        let worth = second::worth(&table);
        (table, worth)
    });
    let returned = code(&answer);
    let written = match &answer {
        Ok((table, worth)) => &[*worth, table.grains][..],
        Err(_) => &[],
    };
    for room in [ROOM, (tally.cases % 3) as usize] {
        hold_to(tally, text, room, returned, written);
    }
    tally.add(&[returned]);
    if let Ok((table, _)) = &answer {
        tally.add_table(table);
    }
    answer
}

/// Holds the proved engine to this answer.
pub fn hold_to(tally: &Tally, text: &[u8], room: usize, returned: u64, written: &[i64]) {
    let asked = format_args!("the worth");
    agree(tally, text, asked, room, (returned, written), |numbers| {
        engine::worth(text, numbers)
    });
}

/// Counts what an accepted table and its worth are like.
pub fn count(seen: &mut Seen, table: &Table, worth: i64) {
    let low = table.lowest * table.grains;
    let high = low + span(table);
    assert!((low..=high).contains(&worth), "{worth} beyond the ends");
    let apart = low < high;
    seen.count("a worth at the lowest end", apart && worth == low);
    seen.count("a worth at the highest end", apart && worth == high);
    seen.count("a worth between the ends", low < worth && worth < high);
    seen.count("a worth below zero", worth < 0);
    seen.count("a worth above zero", worth > 0);
    seen.count("a worth of no whole points", worth % table.grains != 0);
    seen.count_chances(table);
    seen.count_root(&ROOTS, table);
}
