//! The report on a match.

use std::fmt;
use std::ops::Range;

use crate::refusal::{Refusal, answered};
use crate::table::Kind;
use crate::{LINE, MOST_NODES, MOST_POSITIONS, PLAY_LINE, raw};

/// What the plays of a match lose.
#[derive(Clone, Debug, PartialEq, Eq)]
#[non_exhaustive]
pub struct Report {
    /// The positions in the sequence of the file.
    pub positions: Vec<Position>,
    /// What MAX lost, at the M roots.
    pub max: Tally,
    /// What MIN lost, at the N roots.
    pub min: Tally,
}

/// A position of a match and the play that was made there. The engine tells its kind,
/// the loss and the mark, which are proved; the play number and the place are read from
/// the accepted file by this package.
#[derive(Clone, Debug, PartialEq, Eq)]
#[non_exhaustive]
pub struct Position {
    /// Who moves at the root.
    pub kind: Kind,
    /// The play number, which counts the root's children from 1. Where there is no
    /// decision any number may stand.
    pub play: i64,
    /// What the play loses.
    pub loss: Loss,
    /// The mark of the loss; none where there is no decision.
    pub mark: Option<Mark>,
    /// Its bytes in the file: a play-number line of [`PLAY_LINE`] bytes, then the table.
    pub place: Range<usize>,
}

/// What a play loses against the best.
#[derive(Clone, Copy, Debug, PartialEq, Eq)]
pub enum Loss {
    /// Thousandths of a point, rounded down.
    Thousandths(i64),
    /// As in [`Judgement::NoDecision`](crate::Judgement::NoDecision): a C or L root,
    /// or a forced play.
    NoDecision,
}

/// What a book prints beside a loss, from the mildest on.
#[derive(Clone, Copy, Debug, PartialEq, Eq, PartialOrd, Ord)]
pub enum Mark {
    /// The loss is below the scale's first step.
    NoMark,
    /// It is from the first step on.
    Doubtful,
    /// It is from the second step on.
    Error,
    /// It is from the third step on.
    Blunder,
}

impl Mark {
    /// The mark that the engine writes as this number, 0 for none.
    fn of(number: u8) -> Option<Mark> {
        match number {
            0 => None,
            1 => Some(Mark::NoMark),
            2 => Some(Mark::Doubtful),
            3 => Some(Mark::Error),
            _ => Some(Mark::Blunder),
        }
    }
}

impl fmt::Display for Mark {
    fn fmt(&self, f: &mut fmt::Formatter) -> fmt::Result {
        f.write_str(match self {
            Mark::NoMark => "no mark",
            Mark::Doubtful => "doubtful",
            Mark::Error => "error",
            Mark::Blunder => "blunder",
        })
    }
}

/// The decisions of one side.
#[derive(Clone, Copy, Debug, Default, PartialEq, Eq)]
#[non_exhaustive]
pub struct Tally {
    /// How many there are.
    pub decisions: i64,
    /// The sum of their losses as listed, in thousandths of a point.
    pub thousandths: i64,
}

/// Reports on a match file: positions one after another, each a play number in 4
/// columns and a newline, and then a table. The losses are marked by the scale of this
/// number: from 40 thousandths of a point doubtful, from 80 an error and from 160 a
/// blunder in scale 1, that of books in print; from 20, 50 and 100 in scale 2, that of
/// new books. Refuses any other scale, 20, and then 2 to 10, 14 to 16 and 18, with the
/// position at fault. The points are the table's, so that a mark is the book's where
/// these are.
///
/// ```
/// use margin_engine::{Kind, Loss, Mark, report};
///
/// let file = std::fs::read("../examples/marks.txt")?;
/// let (printed, new) = (report(&file, 1)?, report(&file, 2)?);
/// assert_eq!(printed.positions.len(), 7);
///
/// let (before, now) = (&printed.positions[2], &new.positions[2]);
/// assert_eq!((now.kind, now.play), (Kind::Max, 1));
/// assert_eq!(now.loss, Loss::Thousandths(55)); // 0.055 points
/// assert_eq!((before.mark, now.mark), (Some(Mark::Doubtful), Some(Mark::Error)));
/// // Nobody chooses at a C.
/// assert_eq!((new.positions[6].kind, new.positions[6].mark), (Kind::Chance, None));
///
/// assert_eq!((new.min.decisions, new.min.thousandths), (2, 277));
/// assert_eq!(report(&file, 3).unwrap_err().number, 20);
/// # Ok::<(), Box<dyn std::error::Error>>(())
/// ```
pub fn report(file: &[u8], scale: i64) -> Result<Report, Refusal> {
    let mut kinds = [0; MOST_POSITIONS];
    let mut losses = [0; MOST_POSITIONS];
    let mut marks = [0; MOST_POSITIONS];
    let mut numbers = [0; 5];
    answered(raw::report(
        file,
        scale,
        &mut kinds,
        &mut losses,
        &mut marks,
        &mut numbers,
    ))?;
    let [count, max, max_sum, min, min_sum] = numbers;
    let listed = kinds.into_iter().zip(losses).zip(marks);
    let listed = places(file).zip(listed).take(count as usize);
    let positions = listed.map(|(place, ((kind, loss), mark))| Position {
        kind: Kind::of(kind),
        play: number(&file[place.start..][..PLAY_LINE - 1]).expect("an accepted play number"),
        loss: match loss {
            ..0 => Loss::NoDecision,
            _ => Loss::Thousandths(loss),
        },
        mark: Mark::of(mark),
        place,
    });
    Ok(Report {
        positions: positions.collect(),
        max: Tally {
            decisions: max,
            thousandths: max_sum,
        },
        min: Tally {
            decisions: min,
            thousandths: min_sum,
        },
    })
}

/// Where the positions of a match file stand, by the counts in their headers. Of a
/// refused file this is right up to the position at fault; one that is cut short, or
/// whose count cannot be told, goes to the file's end. (Not proved.)
///
/// ```
/// let file = std::fs::read("../examples/match.txt")?;
/// let first = margin_engine::places(&file).next().expect("a position");
/// assert!(margin_engine::read(&file[first][5..]).is_ok());
/// # Ok::<(), Box<dyn std::error::Error>>(())
/// ```
pub fn places(file: &[u8]) -> impl Iterator<Item = Range<usize>> + '_ {
    let place = |start: usize| {
        let rest = file.get(start..).filter(|rest| !rest.is_empty())?;
        Some(start..start + length(rest))
    };
    std::iter::successors(place(0), move |before| place(before.end))
}

/// The bytes of the position that begins here.
fn length(rest: &[u8]) -> usize {
    let count = rest.get(PLAY_LINE..PLAY_LINE + 4).and_then(number);
    let count = count.and_then(|count| usize::try_from(count).ok());
    let count = count.filter(|count| (1..=MOST_NODES).contains(count));
    let length = count.map(|count| PLAY_LINE + LINE * (1 + count));
    length.map_or(rest.len(), |length| length.min(rest.len()))
}

/// The number in these columns, if one is written there.
fn number(columns: &[u8]) -> Option<i64> {
    str::from_utf8(columns)
        .ok()?
        .trim_start_matches(' ')
        .parse()
        .ok()
}
