//! The second engine: document 01 once more, and document 02, in plain Rust.
//!
//! It shares nothing with the proved engine, so that a misreading of the
//! documents would have to be made twice to go unseen. One module a subject.

pub mod desk;
mod faults;
mod index;
mod judge;
mod marking;
mod program;
mod read;
mod recipe;
mod report;
mod rollout;
mod search;
mod table;
mod turn;
mod worth;
mod write;

pub use faults::{grains_by, leaves_remainder, worth_divided_by, Divisor, GrainCount};
pub use index::{ends_under, index, is_index, search_indexed};
pub use judge::{judge, Judgement};
pub use marking::{mark, steps, Mark, MARKS};
pub use program::output;
pub use read::{read, read_up_to};
pub use recipe::{recipe, Recipe};
pub use report::{
    positions, report, Entry, Position, Report, Stop, Total, MOST_POSITIONS, PLAY_LINE,
};
pub use rollout::{rollout, Rolled};
pub use search::{
    search, search_watched, search_within, Bounds, Ends, Entered, Found, Rounding, Scale, Step,
    Sums, Terms, Ties, Window, WrongEnds, GREATEST_BUDGET, GREATEST_MARGIN,
};
pub use table::*;
pub use turn::turn;
pub use worth::{worth, worths};
