//! Refusals, as they are printed.

use super::{Printed, Ran};
use crate::second::desk::{self, Form, Stretch};
use crate::second::{Refusal, Stop};

/// What is printed of a refusal.
pub struct Refused {
    pub refusal: Refusal,
    /// Of a match: the position, and the line of the file.
    pub at: Option<(usize, usize)>,
    /// The number of the line between the bars, which the play-number line of a
    /// match does not have, and the line; none where none is shown.
    pub shown: Option<(Option<usize>, String)>,
    pub marks: Vec<Stretch>,
    /// What the reason says after its colon; none where the words are left open.
    pub detail: Option<String>,
}

/// The refusals that have no line of their own.
const WITHOUT_LINE: [u8; 10] = [1, 12, 13, 14, 15, 16, 17, 18, 19, 20];

/// The refusals of the command line, not of a file, so that none is named.
const OF_NO_FILE: [u8; 2] = [19, 20];

impl Refused {
    pub fn of(text: &[u8], refusal: Refusal) -> Refused {
        let shown = desk::shown(text, refusal);
        Refused {
            refusal,
            at: None,
            shown: shown.map(|(number, line)| (Some(number), line)),
            marks: desk::marks(text, refusal),
            detail: desk::detail(text, refusal),
        }
    }

    /// A refused scale, for which no file is looked at.
    pub fn of_scale(stop: Stop) -> Refused {
        let Stop { refusal, position } = stop;
        assert_eq!((refusal.number, refusal.line, position), (20, 0, 0));
        Refused {
            refusal,
            at: None,
            shown: None,
            marks: Vec::new(),
            detail: None,
        }
    }

    /// A refused recipe, for which there is no file; the reason says this after its colon.
    pub fn of_recipe(refusal: Refusal, detail: String) -> Refused {
        assert_eq!((refusal.number, refusal.line), (19, 0));
        Refused {
            refusal,
            at: None,
            shown: None,
            marks: Vec::new(),
            detail: Some(detail),
        }
    }

    pub fn of_match(file: &[u8], stop: Stop) -> Refused {
        let stopped = desk::stopped(file, stop);
        Refused {
            refusal: stop.refusal,
            at: Some((stop.position, stopped.line)),
            shown: stopped.shown,
            marks: stopped.marks,
            detail: stopped.detail,
        }
    }

    /// Fails the test unless the program printed this and nothing else; `name` is
    /// the table's.
    pub fn hold(&self, ran: &Ran, form: Form, name: &str, why: &str) {
        let (printed, other) = match form {
            Form::People => (&ran.err, &ran.out),
            Form::Tsv => (&ran.out, &ran.err),
        };
        let place = format!("{}: {why}: printed\n{printed}", ran.asked);
        assert_eq!(ran.status, Some(1), "exit status, {place}");
        assert_eq!(other, "", "the other output, {place}");
        let mut printed = Printed(printed);
        self.hold_next(&mut printed, form, name, &place);
        assert_eq!(printed.0, "", "too much: {place}");
    }

    /// Takes this off what the program printed.
    pub fn hold_next(&self, lines: &mut Printed, form: Form, name: &str, place: &str) {
        let advice = match form {
            Form::People => {
                self.hold_first_line(lines.next().unwrap_or_default(), name, place);
                if let Some((_, shown)) = &self.shown {
                    assert_eq!(lines.next(), Some(&*format!("  |{shown}|")), "{place}");
                    self.hold_marks(lines.next().unwrap_or_default(), place);
                }
                ["reason  ", "mend    "]
            }
            Form::Tsv => {
                self.hold_rows(lines, name, place);
                ["reason\t", "mend\t"]
            }
        };
        for (name, detail) in advice.into_iter().zip([&self.detail, &None]) {
            let said = lines.next().and_then(|line| line.strip_prefix(name));
            let well = said.is_some_and(|said| !said.is_empty() && said == said.trim());
            let said = said.unwrap_or_default();
            assert!(well && !said.contains('\t'), "{place}");
            if let Some(detail) = detail {
                let after = said.split_once(": ").map(|(_, after)| after);
                assert_eq!(after, Some(detail.as_str()), "{place}");
            }
        }
    }

    fn hold_first_line(&self, printed: &str, name: &str, place: &str) {
        let Refusal { number, line } = self.refusal;
        let at = self.at.map_or(String::new(), |(position, line)| {
            format!("position {position}, line {line} of the file: ")
        });
        let start = match OF_NO_FILE.contains(&number) {
            true => format!("desk: refused {number}"),
            false => format!("desk: {name}: {at}refused {number}"),
        };
        if WITHOUT_LINE.contains(&number) {
            assert_eq!(printed, start, "{place}");
        } else if line == 0 {
            assert_eq!(printed, start + " at line 0 (the header)", "{place}");
        } else {
            let node = line - 1;
            let rest = format!(" at line {line} (node {node}; the header is line 0)");
            assert_eq!(printed, start + &rest, "{place}");
        }
    }

    fn hold_marks(&self, printed: &str, place: &str) {
        let end = printed.rfind('^').map_or(0, |last| last + 1);
        let (carets, words) = printed.split_at(end);
        assert!(words.starts_with(" column"), "{place}");
        assert_eq!(carets, self::carets(&self.marks), "{place}");
    }

    fn hold_rows(&self, lines: &mut Printed, name: &str, place: &str) {
        let Refusal { number, line } = self.refusal;
        let mut rows = Vec::new();
        if self.at.is_some() {
            rows.push(format!("file\t{name}"));
        }
        rows.push(format!("refused\t{number}"));
        rows.push(format!("line\t{line}"));
        if let Some((position, line)) = self.at {
            rows.push(format!("at\t{position}\t{line}"));
        }
        if let Some((shown, _)) = &self.shown {
            let number = shown.map_or(String::new(), |number| number.to_string());
            rows.push(format!("shown\t{number}"));
        }
        for row in rows {
            assert_eq!(lines.next(), Some(&*row), "{place}");
        }
        let mut columns_marked = Vec::new();
        while let Some((name, columns)) = lines.clone().next().and_then(|l| l.split_once('\t')) {
            if name != "columns" {
                break;
            }
            columns_marked.push(stretch_of(columns, '\t'));
            lines.next();
        }
        assert_eq!(columns_marked, self.marks, "{place}");
    }
}

/// A stretch as it is written: its first column and its last, or its only one.
pub fn stretch_of(written: &str, between: char) -> Stretch {
    let (first, last) = written.split_once(between).unwrap_or((written, written));
    let column = |written: &str| written.parse().expect("a column");
    (column(first), column(last))
}

/// The marks below the line, up to the last.
fn carets(marks: &[Stretch]) -> String {
    let last = marks.iter().map(|stretch| stretch.1).max();
    let is_marked = |column| {
        let mut marks = marks.iter();
        marks.any(|&(first, last)| (first..=last).contains(&column))
    };
    let marks = (1..=last.unwrap_or(0)).map(|column| if is_marked(column) { '^' } else { ' ' });
    // Two blanks and the bar come before column 1.
    "   ".chars().chain(marks).collect()
}
