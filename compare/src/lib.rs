//! Holds the proved engine to a second, independent engine.
//!
//! - `engine` calls the proved engine, through the package `margin-engine`.
//! - `second` is the second engine, written from documents 01 and 02 and the two
//!   algorithms that 01 names, and from nothing of the proved engine.
//! - `hold` compares the two, and the desk's command with the second, for the tests.
//! - `random` and `texts` make the texts that both are given.
//!
//! The comparisons are in `tests`, the benchmark in `src/bin/bench.rs`.
//! `src/bin/expected.rs` prints what the margin program must print.

pub mod engine;
pub mod hold;
pub mod random;
pub mod second;
pub mod texts;
