//! The desk's command, held to what the second engine says by docs/DESK.md: every
//! byte of an answer, the number, the line and the marks of a refusal, the exit
//! status, and that nothing else is written.
//!
//! The program is looked for at `../rust/target/release/desk`, or where the
//! environment variable DESK_PROGRAM says (a relative name counts from this
//! package's folder).

mod questions;
mod refused;
mod reports;
mod run;
mod tables;

pub use questions::*;
pub use refused::*;
pub use reports::*;
pub use run::*;
pub use tables::*;

/// The verbs, with what they need before the file, which the last one does not take.
pub const VERBS: [&[&str]; 9] = [
    &["show"],
    &["worth"],
    &["judge", "1"],
    &["search", "0"],
    &["index"],
    &["turn"],
    &["rollout"],
    &["report"],
    &["recipe", "7", "2", "3"],
];

/// The verbs that ask about a table; of the last two one asks about a match, one about
/// nothing.
pub const OF_A_TABLE: &[&[&str]] = VERBS.split_at(7).0;
