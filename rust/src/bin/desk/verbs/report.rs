//! `report`: what the plays of a match lose, and how a book marks them.

use std::fmt::{self, Display};
use std::process::ExitCode;

use margin_engine::{Kind, Loss, Mark, Position, Report, Tally, points, report};

use super::{Answer, Verb, formed};
use crate::grid::{Cell, Row, lay};
use crate::input::{MATCH, Source};
use crate::margin::Number;
use crate::output::{Page, Sheet, Stop, complain, print, write};
use crate::progress::Progress;
use crate::refused::Refused;
use crate::{ANSWERED, FAILED, REFUSED};

/// The option that names the marking scale.
const SCALE: &str = "--scale";

/// The scale of new books, which is used where none is named.
const NEW_BOOKS: i64 = 2;

pub const VERB: Verb = Verb {
    name: "report",
    arguments: "",
    options: &[(SCALE, "1|2")],
    files: &MATCH,
    does: "lists what each play of a match loses, and its mark",
    more: &[
        "\
A match is positions one after another: each a play number in 4 columns and a
newline, then a table. A position's loss is in points, rounded down to a
thousandth; `no decision` is a C or L root, or one with a single play, which is
forced. At the end, for MAX (M) and MIN (N): how many decisions, the sum of the
listed losses, the average, and how many of each mark. Several files each get
their own, and at the end come the same over all.
",
        "\
A mark goes by the listed loss and the marking scale. Give --scale 1 for a book in
print; scale 2 is that of new books, and used where none is given.
  scale 1  doubtful from 0.040 points, error from 0.080, blunder from 0.160
  scale 2  doubtful from 0.020 points, error from 0.050, blunder from 0.100
These are points of the table. Where it has smaller ones than the book, as
thousandths of a point of equity, the marks are not the book's.
",
    ],
    ask: |words| {
        let scale = words.number_after(SCALE)?;
        words.about_matches(scale.unwrap_or_else(|| Number::from(NEW_BOOKS)))
    },
};

/// Reports on these files, one after another, with the marks of this scale.
pub fn run(sources: &[Source], scale: &Number, tsv: bool) -> ExitCode {
    // The engine refuses a scale before it looks at a file, so it is asked once.
    if let Err(refusal) = report(&[], scale.value) {
        let refused = Refused::given(refusal, format!("{} was given", scale.word));
        if tsv {
            return print(refused.tsv().as_bytes(), REFUSED);
        }
        complain(&refused.people(None));
        return ExitCode::from(REFUSED);
    }
    let mut run = Run::over(sources.len(), scale.value, tsv);
    let mut files = (1..).zip(sources);
    let ran = files.try_for_each(|(number, source)| run.file(number, source));
    let ran = ran.and_then(|()| run.end());
    run.progress.clear();
    ExitCode::from(ran.map_or_else(|stop| stop.status(run.status), |()| run.status))
}

/// A run over several files, or over one.
struct Run {
    files: usize,
    scale: i64,
    tsv: bool,
    progress: Progress,
    /// The exit status so far, the greatest of the files'.
    status: u8,
    /// How many files were refused.
    refused: usize,
    /// How many could not be read.
    unread: usize,
    /// What the others have in all.
    all: All,
}

impl Run {
    fn over(files: usize, scale: i64, tsv: bool) -> Run {
        Run {
            files,
            scale,
            tsv,
            progress: Progress::over(files),
            status: ANSWERED,
            refused: 0,
            unread: 0,
            all: All {
                scale,
                ..All::default()
            },
        }
    }

    /// Reports on one file.
    fn file(&mut self, number: usize, source: &Source) -> Result<(), Stop> {
        if let Source::File(_) = source {
            self.progress.show(number);
        }
        let file = match source.read(&MATCH) {
            Ok(file) => file,
            Err(error) => {
                self.unread += 1;
                self.status = FAILED;
                self.complain(&format!("desk: {source}: {error}\n"));
                return Ok(());
            }
        };
        match report(&file, self.scale) {
            Ok(report) => self.answered(source, report),
            Err(refusal) => self.refused(source, &Refused::in_match(refusal, &file)),
        }
    }

    fn answered(&mut self, source: &Source, report: Report) -> Result<(), Stop> {
        let first = self.all.files == 0;
        let part = Part {
            source,
            named: self.files > 1,
            scale: self.scale,
            report,
        };
        self.all.add(&part);
        self.print(&part, first)
    }

    fn refused(&mut self, source: &Source, refused: &Refused) -> Result<(), Stop> {
        self.refused += 1;
        self.status = self.status.max(REFUSED);
        if self.tsv {
            let mut sheet = Sheet::default();
            sheet.row("file", &[source]);
            self.progress.clear();
            return write((sheet.into_text() + &refused.tsv()).as_bytes());
        }
        self.complain(&refused.people(Some(source)));
        Ok(())
    }

    /// What comes after the last of several files: the totals over all, or why there
    /// are none.
    fn end(&mut self) -> Result<(), Stop> {
        if self.files == 1 {
            return Ok(());
        }
        if self.all.files == self.files {
            let all = std::mem::take(&mut self.all);
            return self.print(&all, false);
        }
        let (files, lacking) = (self.files, self.lacking());
        self.complain(&format!(
            "desk: no totals over all {files} files: {lacking}\n"
        ));
        Ok(())
    }

    /// What became of the files that were not reported.
    fn lacking(&self) -> String {
        let Run {
            refused, unread, ..
        } = self;
        let was = if *refused == 1 { "was" } else { "were" };
        let refused = (*refused > 0).then(|| format!("{refused} {was} refused"));
        let unread = (*unread > 0).then(|| format!("{unread} could not be read"));
        let lacking: Vec<String> = refused.into_iter().chain(unread).collect();
        lacking.join(", ")
    }

    /// Prints a part of the answer; for people with an empty line before all but the
    /// first.
    fn print(&mut self, part: &dyn Answer, first: bool) -> Result<(), Stop> {
        let mut text = formed(part, self.tsv);
        if !first && !self.tsv {
            text.insert(0, b'\n');
        }
        self.progress.clear();
        write(&text)
    }

    fn complain(&mut self, message: &str) {
        self.progress.clear();
        complain(message);
    }
}

/// The report on one file.
struct Part<'a> {
    source: &'a Source,
    /// Whether people are told its name.
    named: bool,
    scale: i64,
    report: Report,
}

impl Part<'_> {
    fn max(&self) -> Side {
        Side::of(&self.report, Kind::Max, self.report.max)
    }

    fn min(&self) -> Side {
        Side::of(&self.report, Kind::Min, self.report.min)
    }
}

impl Answer for Part<'_> {
    fn people(&self, page: &mut Page) {
        if self.named {
            page.named("file", self.source);
        }
        let rows: Vec<Row> = (1..).zip(&self.report.positions).map(row).collect();
        if !rows.is_empty() {
            lay(page, &["position", "side", "play", "loss", "mark"], &rows);
            page.plain("\n");
        }
        self.max().people(page, "M");
        self.min().people(page, "N");
        page.named("scale", self.scale);
    }

    fn tsv(&self, sheet: &mut Sheet) {
        sheet.row("file", &[self.source]);
        sheet.row("scale", &[&self.scale]);
        for (number, position) in (1..).zip(&self.report.positions) {
            let Position { kind, play, .. } = position;
            let [thousandths, points] = loss_fields(position.loss);
            let mark = mark_word(position.mark);
            sheet.row(
                "position",
                &[&number, kind, play, &thousandths, &points, &mark],
            );
        }
        sheet.row("positions", &[&self.report.positions.len()]);
        for (name, side) in [("M", self.max()), ("N", self.min())] {
            let (tally, marks) = (fields(&side.tally), side.marks.0);
            let mut row: Vec<&dyn Display> = vec![&name];
            row.extend(tally.iter().map(|field| field as &dyn Display));
            row.extend(marks.iter().map(|count| count as &dyn Display));
            sheet.row("total", &row);
        }
    }
}

/// A position's line for people.
fn row((number, position): (usize, &Position)) -> Row {
    let loss = match position.loss {
        Loss::Thousandths(thousandths) => points(thousandths, 1_000),
        Loss::NoDecision => "no decision".to_string(),
    };
    Row {
        cells: vec![
            Cell::number(number),
            Cell::Text(position.kind.to_string()),
            Cell::Number(position.play.to_string()),
            Cell::Number(loss),
            Cell::Text(mark_word(position.mark)),
        ],
        bold: false,
    }
}

fn loss_fields(loss: Loss) -> [String; 2] {
    match loss {
        Loss::Thousandths(loss) => [loss.to_string(), points(loss, 1_000)],
        Loss::NoDecision => [String::new(), String::new()],
    }
}

/// The mark in words, empty where there is none.
fn mark_word(mark: Option<Mark>) -> String {
    mark.map_or(String::new(), |mark| mark.to_string())
}

/// What one side did.
#[derive(Clone, Copy, Default)]
struct Side {
    /// Its totals, from the engine.
    tally: Tally,
    /// How often it got each mark, counted here.
    marks: Marks,
}

impl Side {
    fn of(report: &Report, kind: Kind, tally: Tally) -> Side {
        let own = report.positions.iter().filter(|at| at.kind == kind);
        let given = own.filter_map(|at| at.mark);
        let mut marks = Marks::default();
        given.for_each(|mark| marks.0[mark as usize] += 1);
        Side { tally, marks }
    }

    fn add(&mut self, other: &Side) {
        self.tally.decisions += other.tally.decisions;
        self.tally.thousandths += other.tally.thousandths;
        for (all, one) in self.marks.0.iter_mut().zip(other.marks.0) {
            *all += one;
        }
    }

    fn people(&self, page: &mut Page, name: &str) {
        page.named(name, words(&self.tally));
        if self.tally.decisions > 0 {
            page.named("marks", self.marks);
        }
    }
}

/// How often each mark came, from the mildest on.
#[derive(Clone, Copy, Default)]
struct Marks([i64; 4]);

impl Display for Marks {
    fn fmt(&self, f: &mut fmt::Formatter) -> fmt::Result {
        let [none, doubtful, errors, blunders] = self.0;
        let errors = counted(errors, "error");
        let blunders = counted(blunders, "blunder");
        write!(
            f,
            "{none} no mark, {doubtful} doubtful, {errors}, {blunders}"
        )
    }
}

/// What was reported of all files.
#[derive(Default)]
struct All {
    scale: i64,
    files: usize,
    positions: usize,
    max: Side,
    min: Side,
}

impl All {
    fn add(&mut self, part: &Part) {
        self.files += 1;
        self.positions += part.report.positions.len();
        self.max.add(&part.max());
        self.min.add(&part.min());
    }
}

impl Answer for All {
    fn people(&self, page: &mut Page) {
        let files = counted(self.files as i64, "file");
        let positions = counted(self.positions as i64, "position");
        page.named("all", format_args!("{files}, {positions}"));
        self.max.people(page, "M");
        self.min.people(page, "N");
        page.named("scale", self.scale);
    }

    fn tsv(&self, sheet: &mut Sheet) {
        let (max, min) = (fields(&self.max.tally), fields(&self.min.tally));
        let marks = [self.max.marks.0, self.min.marks.0].concat();
        let mut row: Vec<&dyn Display> = vec![&self.files, &self.positions];
        row.extend(max.iter().chain(&min).map(|field| field as &dyn Display));
        row.extend(marks.iter().map(|count| count as &dyn Display));
        sheet.row("all", &row);
    }
}

/// A side's totals for people.
fn words(tally: &Tally) -> String {
    let Some(each) = average(tally) else {
        return "no decisions".to_string();
    };
    let decisions = counted(tally.decisions, "decision");
    let lost = points(tally.thousandths, 1_000);
    format!("{decisions}, {lost} points lost, {each} each")
}

/// A side's totals for spreadsheets: decisions, thousandths, points, average.
fn fields(tally: &Tally) -> [String; 4] {
    [
        tally.decisions.to_string(),
        tally.thousandths.to_string(),
        points(tally.thousandths, 1_000),
        average(tally).unwrap_or_default(),
    ]
}

/// The average loss of a decision in points to four places, to the nearest, halves up;
/// none where there are no decisions.
fn average(tally: &Tally) -> Option<String> {
    let count = i128::from(tally.decisions);
    let tenfold = 10 * i128::from(tally.thousandths);
    (count > 0).then(|| {
        let average = (2 * tenfold + count) / (2 * count);
        format!("{}.{:04}", average / 10_000, average % 10_000)
    })
}

fn counted(count: i64, noun: &str) -> String {
    match count {
        1 => format!("1 {noun}"),
        _ => format!("{count} {noun}s"),
    }
}

#[cfg(test)]
mod tests {
    use margin_engine::Tally;

    use super::average;

    #[test]
    fn averages_to_the_nearest() {
        let of = |thousandths, decisions| {
            let mut tally = Tally::default();
            (tally.thousandths, tally.decisions) = (thousandths, decisions);
            average(&tally)
        };
        assert_eq!(of(0, 0), None);
        assert_eq!(of(0, 3).as_deref(), Some("0.0000"));
        assert_eq!(of(1_552, 3).as_deref(), Some("0.5173"));
        assert_eq!(of(2_000, 3).as_deref(), Some("0.6667"));
        // A half goes up, what is just below it down.
        assert_eq!(of(1, 4).as_deref(), Some("0.0003"));
        assert_eq!(of(2_499, 10_000).as_deref(), Some("0.0002"));
        assert_eq!(of(i64::MAX, 1).as_deref(), Some("9223372036854775.8070"));
    }
}
