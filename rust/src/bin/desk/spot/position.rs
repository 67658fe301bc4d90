//! Where in a refused match file the fault shows.

use margin_engine::{LINE, PLAY_LINE, Refusal, places, read};

use super::{COUNT, Faults, Field, Line, SHOWN, Spot, field, number, number_fault, said, value};
use crate::verbs::judge;

const PLAY: Field = field(1, 4, "the play number");
const PLAY_END: Field = field(5, 5, "");

/// The fault of a match file that is refused so, and the line of the file, from 1, in
/// which the position at fault begins.
pub fn in_match(file: &[u8], refusal: &Refusal) -> (Spot, usize) {
    let place = places(file).nth(refusal.position.saturating_sub(1));
    let place = place.unwrap_or_default();
    let before = file[..place.start].iter().filter(|byte| **byte == b'\n');
    let first = 1 + before.count();
    let (position, after) = (&file[place.clone()], &file[place.end..]);
    let spot = match refusal.number {
        16 => play_line(position, refusal.position).unwrap_or_else(|| cut_short(position)),
        _ => within(position, after, refusal),
    };
    (spot, first)
}

/// The fault of a position, and of its table, that is refused so.
fn within(position: &[u8], after: &[u8], refusal: &Refusal) -> Spot {
    let Some((play, table)) = position.split_at_checked(PLAY_LINE) else {
        return Spot::default();
    };
    let spot = super::of(table, refusal);
    match (refusal.number, refusal.line) {
        (2, line) => newline_within(spot, line),
        (4, 0) => Spot {
            detail: format!("it is {}", value(&header(table), COUNT)),
            ..spot
        },
        (8 | 9, _) if is_node_line(after) => Spot {
            mend: Some("correct the header's count, as more node lines follow this position"),
            ..spot
        },
        (14, _) => no_such_child(play, table),
        _ => spot,
    }
}

/// An ill-written line with a newline in it: a line is too short, or another begins here.
fn newline_within(spot: Spot, number: usize) -> Spot {
    let line = spot.line.as_ref().map_or(&[][..], |line| &line.bytes);
    let Some(at) = line.iter().position(|byte| *byte == b'\n') else {
        return spot;
    };
    let mend = match number {
        0 => None,
        _ if at == 4 && number_fault(&line[..at]).is_none() => {
            Some("correct the header's count, if the next position begins here")
        }
        _ => Some(
            "fill each line of a table with blanks to 24 columns: \
             awk '{ printf(length($0) > 4 ? \"%-24s\\n\" : \"%s\\n\", $0) }'",
        ),
    };
    Spot {
        detail: format!("a newline stands in column {}", at + 1),
        mend,
        ..spot
    }
}

fn no_such_child(play: &[u8], table: &[u8]) -> Spot {
    let played = number(&play[..PLAY.last]).to_string();
    let table = read(table).ok();
    let given = table.map(|table| judge::given(&played, &table));
    Spot {
        detail: given.unwrap_or_default(),
        ..Spot::default()
    }
}

/// What is wrong with a position's play-number line, if something is. A line in which
/// the file ends is not looked at.
fn play_line(position: &[u8], number: usize) -> Option<Spot> {
    let newline = position.iter().position(|byte| *byte == b'\n');
    let line = &position[..newline.unwrap_or(position.len())];
    let ends_in_it = newline.is_none() && line.len() < PLAY_LINE;
    let faults = play_faults(line);
    if ends_in_it || faults.is_empty() {
        return None;
    }
    let told = said(&faults);
    let (detail, mend) = likely_cause(line, number).unwrap_or((
        &told.detail,
        "right-justify the play number in columns 1-4, and end its line after them",
    ));
    Some(Spot {
        line: Some(Line {
            number: None,
            bytes: line[..line.len().min(SHOWN)].to_vec(),
        }),
        reason: Some("the play-number line is ill-written"),
        detail: detail.to_string(),
        mend: Some(mend),
        ..told
    })
}

fn play_faults(line: &[u8]) -> Faults {
    let fault = match line.get(..PLAY.last) {
        None => Some("is not in columns 1-4".to_string()),
        Some(b"    ") => Some("is blank".to_string()),
        Some(number) => number_fault(number),
    };
    let fault = fault.map(|fault| (PLAY, format!("{} {fault}", PLAY.name)));
    let longer = (line.len() > PLAY.last).then(|| {
        let fault = "the newline is missing in column 5";
        (PLAY_END, fault.to_string())
    });
    fault.into_iter().chain(longer).collect()
}

/// What may have happened to a play-number line, and how to mend it.
fn likely_cause(line: &[u8], position: usize) -> Option<(&'static str, &'static str)> {
    let cause = match line {
        [] => ("it is empty", "delete the empty line"),
        [0xef, 0xbb, 0xbf, ..] => (
            "it begins with a byte order mark",
            "save the file without a byte order mark",
        ),
        [_, _, _, _, b'\r'] => (
            "a carriage return stands where the newline should",
            "save the file with newlines alone at the ends of its lines",
        ),
        _ if position > 1 && is_node_line(line) => (
            "a node line stands there",
            "correct the count in the header of the position before",
        ),
        _ if line.len() == LINE - 1 => (
            "it has 24 columns, like a line of a table",
            "write the play number, in 4 columns and a newline, before each table",
        ),
        _ => return None,
    };
    Some(cause)
}

/// Whether a text begins like a node line.
fn is_node_line(text: &[u8]) -> bool {
    matches!(text, [_, _, _, _, b' ', b'M' | b'N' | b'C' | b'L', ..])
}

/// A position in which the file ends.
fn cut_short(position: &[u8]) -> Spot {
    let Some((_, table)) = position.split_at_checked(PLAY_LINE) else {
        let wanted = format!("its play-number line has {PLAY_LINE} bytes");
        let mend = "write the whole position, or take out what stands there";
        return ends(wanted, position.len(), mend);
    };
    let Some((_, nodes)) = table.split_at_checked(LINE) else {
        let wanted = format!("its header has {LINE} bytes");
        let mend = "write the table in which the play was made";
        return ends(wanted, table.len(), mend);
    };
    let header = header(table);
    let count = value(&header, COUNT);
    let bytes = LINE * count as usize;
    let wanted =
        format!("the header's count is {count}, so {bytes} bytes of node lines should follow it");
    let mend = match bytes - nodes.len() {
        1 => "end the last line with a newline",
        _ => "write the node lines that are missing, or correct the count",
    };
    Spot {
        line: Line::of(0, &header),
        columns: vec![COUNT],
        ..ends(wanted, nodes.len(), mend)
    }
}

/// The file ends where so much is wanted, and so many bytes of it are there.
fn ends(wanted: String, there: usize, mend: &'static str) -> Spot {
    let are = if there == 1 { "is" } else { "are" };
    Spot {
        reason: Some("the file ends in this position"),
        detail: format!("{wanted}, and {there} {are} there"),
        mend: Some(mend),
        ..Spot::default()
    }
}

/// The header of a table that has one.
fn header(table: &[u8]) -> [u8; LINE] {
    *table.first_chunk().unwrap_or(&[b' '; LINE])
}
