//! Texts for both engines: random ones, which are valid tables or damaged on
//! purpose; examples; all small tables; and the greatest.
//!
//! Random tables come from one generator: `knobs` says what can be set, `settings`
//! sets it, `grow` makes a draft by it, and `draft` writes that out. The damages,
//! the inputs of the margin program and the matches begin with its tables. Only
//! those of `level` are made otherwise, by a plan of what their plays lose, and some
//! matches of such tables; those of `windows`, whose windows under C are narrow;
//! those of `ties`, whose plays are much alike; and those of `totals`, whose two totals
//! have a planned number of uses. `parts` gives any of them other utilities, and `padding`
//! zeros before their numbers.

pub mod bench;
pub mod broken;
mod damage;
mod draft;
pub mod examples;
mod grow;
pub mod inputs;
pub mod knobs;
pub mod largest;
pub mod level;
pub mod matches;
pub mod padding;
pub mod parts;
mod settings;
pub mod small;
pub mod ties;
pub mod totals;
pub mod windows;

use crate::random::Random;
use crate::second::LINE;
use knobs::Knobs;

/// A text, and whether it was left a valid table.
pub struct Case {
    pub text: Vec<u8>,
    pub valid: bool,
}

/// A valid table in three of eight cases, otherwise a damaged one. (A damaged
/// table may still be valid by luck.)
pub fn case(random: &mut Random) -> Case {
    let valid = random.below(8) < 3;
    let text = if valid {
        make(Knobs::any, random)
    } else {
        damage::damaged(random)
    };
    Case { text, valid }
}

/// A table by this setting of the knobs.
pub fn make(setting: fn(&mut Random) -> Knobs, random: &mut Random) -> Vec<u8> {
    setting(random).text(random)
}

/// Writes other ends in the header.
pub fn put_ends(text: &mut [u8], (lowest, highest): (i64, i64)) {
    text[8..24].copy_from_slice(format!("{lowest:>8}{highest:>8}").as_bytes());
}

/// Writes another utility in the line of a leaf.
pub fn put_utility(text: &mut [u8], leaf: usize, utility: i64) {
    let columns = LINE * (leaf + 1) + 16..LINE * (leaf + 1) + 24;
    text[columns].copy_from_slice(format!("{utility:>8}").as_bytes());
}
