//! Where a table or a match comes from.

use std::ffi::OsString;
use std::fmt;
use std::fs::File;
use std::io::{self, ErrorKind, IsTerminal, Read};

use margin_engine::{MOST_BYTES, MOST_POSITIONS, PLAY_LINE};

use crate::output::complain;

/// What a verb's files hold.
pub struct Holding {
    pub noun: &'static str,
    /// So much of a file is read.
    pub limit: usize,
    /// How the files stand in the line to type.
    pub usage: &'static str,
    /// What help says of them.
    pub help: &'static str,
}

/// So much of a table is read: a few columns more than the longest one has, so that
/// one that is too long is seen to be, and where. Longer ones have no end that matters.
pub const LOOKED_AT: usize = MOST_BYTES + 64;

pub const TABLE: Holding = Holding {
    noun: "a table",
    limit: LOOKED_AT,
    usage: "[FILE]",
    help: "FILE holds a table; without one, or with -, it is read from standard input.",
};

pub const MATCH: Holding = Holding {
    noun: "a match",
    // One byte more than the longest match has: where it is there, a 501st position
    // begins or one before it is refused, whatever follows.
    limit: MOST_POSITIONS * (PLAY_LINE + MOST_BYTES) + 1,
    usage: "[FILE...]",
    help: "FILE holds a match; without one, or with -, it is read from standard input.",
};

/// Of a verb that reads no file.
pub const NO_FILE: Holding = Holding {
    noun: "nothing",
    limit: 0,
    usage: "",
    help: "No file is read.",
};

/// A file, or standard input.
pub enum Source {
    File(OsString),
    StandardInput,
}

impl Source {
    /// The file of this name; `-` is standard input.
    pub fn named(name: OsString) -> Source {
        match name == "-" {
            true => Source::StandardInput,
            false => Source::File(name),
        }
    }

    /// The text, or the beginning of one that is too long.
    pub fn read(&self, holding: &Holding) -> Result<Vec<u8>, String> {
        let Holding { noun, limit, .. } = holding;
        let read = match self {
            Source::File(name) => File::open(name).and_then(|file| some(file, *limit)),
            Source::StandardInput => {
                let stdin = io::stdin();
                if stdin.is_terminal() {
                    complain(&format!(
                        "desk: reading {noun} from standard input; `desk help` says more\n"
                    ));
                }
                some(stdin.lock(), *limit)
            }
        };
        read.map_err(|error| match error.kind() {
            ErrorKind::NotFound => "there is no such file".to_string(),
            ErrorKind::IsADirectory => format!("this is a folder, not {noun}'s file"),
            ErrorKind::PermissionDenied => "you may not read this file".to_string(),
            _ => format!("it cannot be read: {error}"),
        })
    }
}

fn some(from: impl Read, limit: usize) -> io::Result<Vec<u8>> {
    let mut text = Vec::new();
    from.take(limit as u64).read_to_end(&mut text)?;
    Ok(text)
}

impl fmt::Display for Source {
    fn fmt(&self, f: &mut fmt::Formatter) -> fmt::Result {
        match self {
            // A name may hold anything; what a terminal would obey is shown escaped.
            Source::File(name) => {
                let name = name.to_string_lossy();
                name.chars().try_for_each(|c| match c.is_control() {
                    true => write!(f, "{}", c.escape_default()),
                    false => write!(f, "{c}"),
                })
            }
            Source::StandardInput => f.write_str("standard input"),
        }
    }
}
