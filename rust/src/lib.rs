//! Judges positions of dice games, with an engine that is proved correct.
//!
//! A position is a table: the text of a tree whose nodes are plays of MAX (M) and
//! of MIN (N), chance (C) and leaves (L). Each call takes a table's bytes, whatever
//! they are, and gives an answer or a [`Refusal`] with a number. The engine is
//! proved in Rattle, down to the bytes; this package hands over its answers with
//! names and types, and is tested against a second engine.
//!
//! In table B, MAX chooses between a sure 5 and a roll that leads to 2, three times
//! in four, or to 8:
//!
//! ```
//! use margin_engine::{Play, exact_worth, search};
//!
//! let text = std::fs::read("../examples/b.txt")?;
//! let worth = exact_worth(&text)?;
//! assert_eq!((worth.grains, worth.per_point), (20, 4)); // 5 points
//!
//! // To within 3 points it is enough to look at the first leaf.
//! let found = search(&text, 3 * worth.per_point)?;
//! assert_eq!((found.low, found.high), (20, 32));
//! assert_eq!(found.play, Play::Child { number: 1, node: 1 });
//! assert_eq!(found.leaves, [1]);
//! # Ok::<(), Box<dyn std::error::Error>>(())
//! ```
//!
//! Worths, bounds, losses and margins are whole numbers of grains, of which
//! `per_point` make one point; [`points`] writes them in points. [`report`] takes a
//! match, many tables with the play made in each, and has losses in thousandths of a
//! point, with the mark that a book prints beside each. With the [`index`] of a table
//! [`search_indexed`] mostly reads far fewer leaves than [`search`]. [`recipe`] writes
//! tables to test with, from a few numbers. The README says how to write a table and a
//! match, and which ends and margin to choose.

mod index;
mod judge;
mod points;
pub mod raw;
mod recipe;
mod refusal;
mod report;
mod rollout;
mod search;
mod table;
mod turn;
mod worth;

pub use index::{Index, index, search_indexed};
pub use judge::{Judgement, judge};
pub use points::points;
pub use raw::Record;
pub use recipe::{Made, Recipe, recipe};
pub use refusal::Refusal;
pub use report::{Loss, Mark, Position, Report, Tally, places, report};
pub use rollout::{Rolled, rollout};
pub use search::{Found, Play, search, search_within};
pub use table::{Kind, Node, Table, read};
pub use turn::{Turned, turn};
pub use worth::{Worth, exact_worth};

/// The most nodes that a table has.
pub const MOST_NODES: usize = 1_024;

/// Bytes of a line: 24 columns and a newline.
pub const LINE: usize = 25;

/// The most bytes that a table has: a header and a line for each node.
pub const MOST_BYTES: usize = LINE * (1 + MOST_NODES);

/// The most positions that a match file has.
pub const MOST_POSITIONS: usize = 500;

/// Bytes of a play-number line: 4 columns and a newline.
pub const PLAY_LINE: usize = 5;

/// The greatest T, and the greatest second total.
pub const MOST_TOTAL: i64 = 64;

/// The greatest G, the grains in one point.
pub const MOST_GRAINS: i64 = 16_777_216;

/// An end lies at most this far from 0.
pub const FARTHEST_END: i64 = 1_000_000;

/// The most nodes on a path from the root.
pub const LONGEST_PATH: usize = 64;

/// The most C on a path from the root.
pub const MOST_CHANCES: usize = 4;

/// The greatest margin, in grains.
pub const GREATEST_MARGIN: i64 = 40_000_000_000_000;

/// The greatest leaf budget: no table has more leaves, so that it is never spent.
pub const GREATEST_BUDGET: i64 = 1_024;

/// The greatest seed of a recipe.
pub const GREATEST_SEED: i64 = 2_147_483_647;

/// The least and the greatest branching number of a recipe.
pub const BRANCHINGS: (i64, i64) = (2, 5);

/// The greatest depth of a recipe, in plays.
pub const GREATEST_DEPTH: i64 = 9;
