//! What is shown of a refused match: the line at fault and the columns marked.

use super::details::detail;
use super::refused::{marks, printed, shown, wrong, Stretch};
use crate::second::read::field;
use crate::second::{self, Refusal, Stop, LINE, PLAY_LINE};

const PLAY: Stretch = (1, 4);
const PAST_PLAY: Stretch = (5, 5);

pub struct Stopped {
    /// The line of the file, from 1: the one shown, or the position's first.
    pub line: usize,
    /// The number of the line in its table, none of the play-number line, and the
    /// line as it is printed.
    pub shown: Option<(Option<usize>, String)>,
    pub marks: Vec<Stretch>,
    /// What the reason says after its colon, if it is reckoned.
    pub detail: Option<String>,
}

/// What is shown where the report on this file stops so.
pub fn stopped(file: &[u8], stop: Stop) -> Stopped {
    let positions = second::positions(file);
    let before = positions[..stop.position - 1].iter();
    let start = before.map(|before| PLAY_LINE + before.text.len()).sum();
    let (before, rest) = file.split_at(start);
    let newlines = before.iter().filter(|&&byte| byte == b'\n');
    let first = 1 + newlines.count();
    match stop.refusal.number {
        14 | 15 => nothing(first),
        16 => no_whole_position(first, rest),
        _ => in_table(first, rest, stop.refusal),
    }
}

fn nothing(first: usize) -> Stopped {
    Stopped {
        line: first,
        shown: None,
        marks: Vec::new(),
        detail: None,
    }
}

/// A line of the table of the position that begins here.
fn in_table(first: usize, rest: &[u8], refusal: Refusal) -> Stopped {
    let text = &rest[PLAY_LINE..];
    let (number, columns) = shown(text, refusal).expect("a line at fault");
    Stopped {
        line: first + 1 + number,
        shown: Some((Some(number), columns)),
        marks: marks(text, refusal),
        detail: detail(text, refusal),
    }
}

fn no_whole_position(first: usize, rest: &[u8]) -> Stopped {
    let mut lines = rest.split(|&byte| byte == b'\n');
    let line = lines.next().unwrap_or_default();
    let width = line.len();
    let file_ends = width == rest.len();
    if file_ends && width <= PLAY.1 {
        return nothing(first);
    }
    let play = line.get(..PLAY.1);
    let is_number = play.is_some_and(|play| matches!(field(play), Ok(Some(_))));
    let marks = wrong([(PLAY, is_number), (PAST_PLAY, width <= PLAY.1)]);
    if !marks.is_empty() {
        return Stopped {
            line: first,
            shown: Some((None, printed(line))),
            marks,
            detail: None,
        };
    }
    if rest.len() < PLAY_LINE + LINE {
        return nothing(first);
    }
    // The header's count is at fault: more node lines than there are.
    let count = Refusal { number: 4, line: 0 };
    in_table(first, rest, count)
}
