//! The report of a match (document 02, Item 1): refusals 11, 15 and 16, besides
//! those of a table and of judging. A forced play counts for neither side
//! (document 02, Item 2). Each loss is marked by one of two scales, and 20 refuses
//! another before all else (document 02, Item 11).

use super::judge::{judge, Judgement};
use super::marking::{mark, steps, Mark};
use super::read::{field, read, Header};
use super::table::*;

/// The most positions of a match.
pub const MOST_POSITIONS: usize = 500;

/// Bytes of the line before a table: the play number in 4 columns, a newline.
pub const PLAY_LINE: usize = 5;

/// What is listed of a position.
#[derive(Clone, Copy, Debug, PartialEq, Eq)]
pub struct Entry {
    /// The root's kind.
    pub root: Kind,
    /// The loss in thousandths of a point; none for "no decision".
    pub loss: Option<i64>,
    /// The mark of that loss.
    pub mark: Option<Mark>,
}

/// The decisions of one side, and the sum of the losses listed for it.
#[derive(Clone, Copy, Debug, Default, PartialEq, Eq)]
pub struct Total {
    pub decisions: i64,
    pub sum: i64,
}

#[derive(Clone, Debug, Default, PartialEq, Eq)]
pub struct Report {
    pub entries: Vec<Entry>,
    pub max: Total,
    pub min: Total,
}

/// A refused report: the position, from 1, where it stopped, or 0 where no one
/// position is to blame.
#[derive(Clone, Copy, Debug, PartialEq, Eq)]
pub struct Stop {
    pub refusal: Refusal,
    pub position: usize,
}

/// A position as it stands in the file: its play number and its table's text.
#[derive(Clone, Copy, Debug, PartialEq, Eq)]
pub struct Position<'a> {
    pub play: i64,
    pub text: &'a [u8],
}

/// Reports a match by the marking scale with this number, into lists of which the
/// shortest has so many entries.
pub fn report(file: &[u8], scale: i64, room: usize) -> Result<Report, Stop> {
    let steps = steps(scale).ok_or(of_no_position(20))?;
    let mut report = Report::default();
    let mut rest = file;
    while !rest.is_empty() {
        let position = report.entries.len() + 1;
        let (entry, after) =
            next(rest, position, steps).map_err(|refusal| Stop { refusal, position })?;
        report.add(entry);
        rest = after;
    }
    if room < report.entries.len() {
        return Err(of_no_position(11));
    }
    Ok(report)
}

/// The positions of a file, whatever is in their lines, up to the first that
/// cannot be told from the rest.
pub fn positions(file: &[u8]) -> Vec<Position<'_>> {
    let mut positions = Vec::new();
    let mut rest = file;
    while let Ok((position, after)) = Position::take(rest) {
        positions.push(position);
        rest = after;
    }
    positions
}

impl Report {
    fn add(&mut self, entry: Entry) {
        if let Some(loss) = entry.loss {
            let total = match entry.root {
                Kind::Max => &mut self.max,
                Kind::Min => &mut self.min,
                Kind::Chance | Kind::Leaf => unreachable!("a loss where nobody chooses"),
            };
            total.decisions += 1;
            total.sum += loss;
        }
        self.entries.push(entry);
    }
}

/// The entry of the position that begins here, and what follows it.
fn next(rest: &[u8], number: usize, steps: [i64; 3]) -> Result<(Entry, &[u8]), Refusal> {
    if number > MOST_POSITIONS {
        return Err(refusal(15));
    }
    let (position, after) = Position::take(rest)?;
    Ok((position.entry(steps)?, after))
}

impl<'a> Position<'a> {
    /// Takes the position that begins here off the rest: 16, 2, 3, 4, 16.
    fn take(rest: &'a [u8]) -> Result<(Position<'a>, &'a [u8]), Refusal> {
        let (play, text) = play_and_text(rest).ok_or(refusal(16))?;
        let header = text.first_chunk().ok_or(refusal(16))?;
        let length = LINE * (1 + count(header).map_err(refusal)?);
        let (text, after) = text.split_at_checked(length).ok_or(refusal(16))?;
        Ok((Position { play, text }, after))
    }

    /// What is listed of it, marked by these steps: the refusals of its table, 14.
    fn entry(&self, steps: [i64; 3]) -> Result<Entry, Refusal> {
        let table = read(self.text)?;
        let loss = match judge(&table, self.play)? {
            Judgement::NoDecision => None,
            // No loss is below zero, so this rounds down.
            Judgement::Loss { grains, .. } => Some(1_000 * grains / table.grains),
        };
        Ok(Entry {
            root: table.nodes[0].kind,
            loss,
            mark: loss.map(|loss| mark(steps, loss)),
        })
    }
}

/// Takes the play number's line off; none where it is ill-written or cut.
fn play_and_text(rest: &[u8]) -> Option<(i64, &[u8])> {
    let (line, text) = rest.split_at_checked(PLAY_LINE)?;
    let (b'\n', columns) = line.split_last()? else {
        return None;
    };
    Some((field(columns).ok()??, text))
}

/// The number of node lines by the header: 2, 3, 4.
fn count(header: &[u8; LINE]) -> Result<usize, u8> {
    let written = Header::read(header)?.count;
    match usize::try_from(written) {
        Ok(count) if (1..=MOST_NODES).contains(&count) => Ok(count),
        _ => Err(4),
    }
}

fn refusal(number: u8) -> Refusal {
    Refusal { number, line: 0 }
}

/// A refusal for which no one position is to blame.
fn of_no_position(number: u8) -> Stop {
    Stop {
        refusal: refusal(number),
        position: 0,
    }
}
