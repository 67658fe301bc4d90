//! Matches: what there is to say of their reports.

use super::{people, tsv, Form};
use crate::second::{self, Kind, Mark, Report, Stop, Total, MARKS};

/// The marking scale that is used where the command is given none.
pub const USUAL_SCALE: i64 = 2;

/// A match that is reported.
pub struct Reported {
    /// As it is printed.
    pub(super) name: String,
    /// The number of the marking scale.
    pub(super) scale: i64,
    /// The play number of each position.
    pub(super) plays: Vec<i64>,
    pub(super) report: Report,
}

/// The number of positions, and what each side lost.
pub(super) struct Sums {
    pub positions: i64,
    pub sides: [Side; 2],
}

/// What a side lost, and how often it got each mark.
#[derive(Clone, Copy)]
pub(super) struct Side {
    pub letter: &'static str,
    pub total: Total,
    /// From the mildest mark to the hardest.
    pub marks: [i64; 4],
}

impl Reported {
    /// The name is the one that is printed.
    pub fn of(name: &str, file: &[u8], scale: i64) -> Result<Reported, Stop> {
        let report = second::report(file, scale, usize::MAX)?;
        let positions = second::positions(file);
        Ok(Reported {
            name: name.to_string(),
            scale,
            plays: positions.iter().map(|position| position.play).collect(),
            report,
        })
    }

    pub fn report(&self) -> &Report {
        &self.report
    }

    /// The play number of each position.
    pub fn plays(&self) -> &[i64] {
        &self.plays
    }
}

/// What is printed of one match; `several` where it is not the only one named.
pub fn report(reported: &Reported, several: bool, form: Form) -> String {
    match form {
        Form::People => people::report(reported, several),
        Form::Tsv => tsv::report(reported),
    }
}

/// The totals over several matches, all by this scale.
pub fn all(reported: &[&Reported], scale: i64, form: Form) -> String {
    let sums = reported.iter().map(|reported| Sums::of(reported));
    let sums = sums.fold(Sums::default(), Sums::and);
    match form {
        Form::People => people::all(reported.len(), &sums, scale),
        Form::Tsv => tsv::all(reported.len(), &sums),
    }
}

/// The line on standard error where some of the files lack.
pub fn no_totals(files: usize, refused: usize, unread: usize) -> String {
    let mut reasons = Vec::new();
    if refused > 0 {
        let were = if refused == 1 { "was" } else { "were" };
        reasons.push(format!("{refused} {were} refused"));
    }
    if unread > 0 {
        reasons.push(format!("{unread} could not be read"));
    }
    let reasons = reasons.join(", ");
    format!("desk: no totals over all {files} files: {reasons}\n")
}

/// A file's name as it is printed: a control character as an escape.
pub fn printed_name(name: &str) -> String {
    let printed = |c: char| match c {
        '\t' => "\\t".to_string(),
        '\n' => "\\n".to_string(),
        '\r' => "\\r".to_string(),
        c if c.is_control() => format!("\\u{{{:x}}}", u32::from(c)),
        c => c.to_string(),
    };
    name.chars().map(printed).collect()
}

impl Sums {
    pub fn of(reported: &Reported) -> Sums {
        let Report { entries, max, min } = &reported.report;
        let side = |letter, root: Kind, total: &Total| {
            let count = |mark: Mark| {
                let entries = entries.iter().filter(|entry| entry.root == root);
                let marked = entries.filter(|entry| entry.mark == Some(mark));
                marked.count() as i64
            };
            Side {
                letter,
                total: *total,
                marks: MARKS.map(count),
            }
        };
        Sums {
            positions: entries.len() as i64,
            sides: [side("M", Kind::Max, max), side("N", Kind::Min, min)],
        }
    }

    fn and(mut self, other: Sums) -> Sums {
        self.positions += other.positions;
        for (side, more) in self.sides.iter_mut().zip(other.sides) {
            side.total.decisions += more.total.decisions;
            side.total.sum += more.total.sum;
            for (count, more) in side.marks.iter_mut().zip(more.marks) {
                *count += more;
            }
        }
        self
    }
}

impl Default for Sums {
    /// Of no match.
    fn default() -> Sums {
        let side = |letter| Side {
            letter,
            total: Total::default(),
            marks: [0; 4],
        };
        Sums {
            positions: 0,
            sides: [side("M"), side("N")],
        }
    }
}

/// A mark as it is printed.
pub(super) fn word(mark: Mark) -> &'static str {
    match mark {
        Mark::NoMark => "no mark",
        Mark::Doubtful => "doubtful",
        Mark::Error => "error",
        Mark::Blunder => "blunder",
    }
}
