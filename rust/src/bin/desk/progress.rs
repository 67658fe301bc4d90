//! How far a run over several files has come, on a terminal.

use std::io::{self, IsTerminal};

use crate::output::complain;

/// A line on standard error that is rewritten in place.
pub struct Progress {
    all: usize,
    /// Whether anybody would see it, and there is something to wait for.
    wanted: bool,
    /// How much of a line stands there now.
    width: usize,
}

impl Progress {
    pub fn over(all: usize) -> Progress {
        Progress {
            all,
            wanted: all > 1 && io::stderr().is_terminal(),
            width: 0,
        }
    }

    /// Shows that this file, counted from 1, is being worked on.
    pub fn show(&mut self, number: usize) {
        if self.wanted {
            let line = format!("{number} of {} files", self.all);
            complain(&format!("\r{line}"));
            self.width = line.len();
        }
    }

    /// Takes the line away, before anything else is printed on the terminal.
    pub fn clear(&mut self) {
        if self.width > 0 {
            complain(&format!("\r{:1$}\r", "", self.width));
            self.width = 0;
        }
    }
}
