//! Reports of matches, as they are printed.

use std::ffi::{OsStr, OsString};

use super::{run, Printed, Ran, Refused};
use crate::second;
use crate::second::desk::{self, Form, Reported, USUAL_SCALE};

/// A file that the command is given.
#[derive(Clone)]
pub struct Given {
    /// The word that names it; none where it is standard input without one.
    word: Option<OsString>,
    /// None where it cannot be read.
    bytes: Option<Vec<u8>>,
}

/// What must come of a file.
pub enum Outcome {
    Reported(Reported),
    Refused(Refused),
    Unread,
}

impl Given {
    /// A file of this name, which stands there.
    pub fn file(name: impl AsRef<OsStr>, bytes: &[u8]) -> Given {
        Given {
            word: Some(name.as_ref().to_owned()),
            bytes: Some(bytes.to_vec()),
        }
    }

    /// A file of this name that is not there.
    pub fn missing(name: &str) -> Given {
        Given {
            word: Some(name.into()),
            bytes: None,
        }
    }

    /// Standard input as `-`.
    pub fn dash(bytes: &[u8]) -> Given {
        Given::file("-", bytes)
    }

    /// Standard input, where no file is named.
    pub fn input(bytes: &[u8]) -> Given {
        Given {
            word: None,
            bytes: Some(bytes.to_vec()),
        }
    }

    fn is_input(&self) -> bool {
        self.word.as_ref().is_none_or(|word| word == "-")
    }

    /// What is printed as its name.
    pub fn name(&self) -> String {
        match &self.word {
            Some(word) if !self.is_input() => desk::printed_name(&word.to_string_lossy()),
            _ => "standard input".to_string(),
        }
    }

    pub fn outcome(&self, scale: i64) -> Outcome {
        let Some(bytes) = &self.bytes else {
            return Outcome::Unread;
        };
        match Reported::of(&self.name(), bytes, scale) {
            Ok(reported) => Outcome::Reported(reported),
            Err(stop) => Outcome::Refused(Refused::of_match(bytes, stop)),
        }
    }
}

/// How a report is asked for.
#[derive(Clone, Copy, Debug)]
pub struct Manner {
    pub form: Form,
    /// The scale's number, none where the option is not given.
    pub scale: Option<i64>,
    /// Sets where the options stand, and how the scale's number does.
    pub turn: u64,
}

impl From<Form> for Manner {
    /// Without a scale.
    fn from(form: Form) -> Manner {
        Manner {
            form,
            scale: None,
            turn: 0,
        }
    }
}

impl Manner {
    /// The number of the scale that is used.
    pub fn scale(&self) -> i64 {
        self.scale.unwrap_or(USUAL_SCALE)
    }

    /// The words of the options, in either sequence.
    fn options(&self) -> Vec<OsString> {
        let scale = match (self.scale, self.turn / 4 % 2) {
            (None, _) => vec![],
            (Some(scale), 0) => vec!["--scale".into(), scale.to_string().into()],
            (Some(scale), _) => vec![format!("--scale={scale}").into()],
        };
        let tsv = match self.form {
            Form::People => vec![],
            Form::Tsv => vec!["--tsv".into()],
        };
        match self.turn / 2 % 2 {
            0 => [tsv, scale].concat(),
            _ => [scale, tsv].concat(),
        }
    }
}

/// The words of a report on these files, the options before all else or at the end
/// by turns, and what stands on standard input.
pub fn report_words(given: &[Given], manner: impl Into<Manner>) -> (Vec<OsString>, &[u8]) {
    let manner = manner.into();
    let files = given.iter().filter_map(|file| file.word.clone());
    let mut words: Vec<OsString> = vec!["report".into()];
    if manner.turn.is_multiple_of(2) {
        words.extend(manner.options());
        words.extend(files);
    } else {
        words.extend(files);
        words.extend(manner.options());
    }
    let input = given.iter().find(|file| file.is_input());
    let input = input.and_then(|file| file.bytes.as_deref());
    (words, input.unwrap_or_default())
}

/// Asks for a report on these files, and holds it to the second engine.
pub fn hold_report(given: &[Given], manner: impl Into<Manner>, why: &str) -> Vec<Outcome> {
    let manner = manner.into();
    let (words, input) = report_words(given, manner);
    let ran = run(&words, input);
    hold_reported(&ran, given, manner, why)
}

/// Fails the test unless this is what must come of these files, to the byte but for
/// the words of reasons and mends and of what cannot be read. Nothing comes of them
/// where the scale is refused.
pub fn hold_reported(
    ran: &Ran,
    given: &[Given],
    manner: impl Into<Manner>,
    why: &str,
) -> Vec<Outcome> {
    let manner = manner.into();
    let (form, scale) = (manner.form, manner.scale());
    // Of no file at all, only the scale can be refused.
    if let Err(stop) = second::report(b"", scale, 0) {
        Refused::of_scale(stop).hold(ran, form, "", why);
        return Vec::new();
    }
    let (mut out, mut err) = (Printed(&ran.out), Printed(&ran.err));
    let place = format!("{}: {why}\n{}\n{}", ran.asked, ran.out, ran.err);
    let several = given.len() > 1;
    let outcomes: Vec<Outcome> = given.iter().map(|file| file.outcome(scale)).collect();
    let mut before = 0;
    for (file, outcome) in given.iter().zip(&outcomes) {
        match outcome {
            Outcome::Reported(reported) => {
                if before > 0 && form == Form::People {
                    out.take_text("\n", &place);
                }
                before += 1;
                out.take_text(&desk::report(reported, several, form), &place);
            }
            Outcome::Refused(refused) => {
                let printed = match form {
                    Form::People => &mut err,
                    Form::Tsv => &mut out,
                };
                refused.hold_next(printed, form, &file.name(), &place);
            }
            Outcome::Unread => {
                let said = err.next().unwrap_or_default();
                assert!(said.contains(&file.name()), "{place}");
            }
        }
    }
    if several {
        match end(&outcomes, scale, form) {
            Ok(totals) => out.take_text(&totals, &place),
            Err(none) => err.take_text(&none, &place),
        }
    }
    assert_eq!((out.0, err.0), ("", ""), "too much: {place}");
    assert_eq!(ran.status, Some(status(&outcomes)), "exit status, {place}");
    let blank = |text: &str| text.lines().any(|line| line.ends_with(' '));
    assert!(!blank(&ran.out) && !blank(&ran.err), "a blank: {place}");
    outcomes
}

/// The end of several reports: the totals over all, or the line that says why there
/// are none.
fn end(outcomes: &[Outcome], scale: i64, form: Form) -> Result<String, String> {
    let mut reported = Vec::new();
    let (mut refused, mut unread) = (0, 0);
    for outcome in outcomes {
        match outcome {
            Outcome::Reported(report) => reported.push(report),
            Outcome::Refused(_) => refused += 1,
            Outcome::Unread => unread += 1,
        }
    }
    if refused + unread > 0 {
        return Err(desk::no_totals(outcomes.len(), refused, unread));
    }
    let totals = desk::all(&reported, scale, form);
    Ok(match form {
        Form::People => format!("\n{totals}"),
        Form::Tsv => totals,
    })
}

/// The exit status: the greatest of the files'.
fn status(outcomes: &[Outcome]) -> i32 {
    let statuses = outcomes.iter().map(|outcome| match outcome {
        Outcome::Reported(_) => 0,
        Outcome::Refused(_) => 1,
        Outcome::Unread => 2,
    });
    statuses.max().unwrap_or(0)
}
