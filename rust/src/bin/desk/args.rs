//! The command line.

use std::collections::VecDeque;
use std::ffi::{OsStr, OsString};
use std::fmt;

use crate::input::Source;
use crate::margin::{Margin, Number};
use crate::verbs::{Question, VERBS, Verb, recipe};

/// What the user wants.
pub enum Asked {
    /// The help page of a verb, or the list of all.
    Help(Option<&'static Verb>),
    Version,
    Task(Task),
}

/// What to do, and with which files.
pub enum Task {
    /// A question about a table.
    Table {
        question: Box<dyn Question>,
        source: Source,
        tsv: bool,
    },
    /// A report on each of these, of which there is at least one, with the marks of
    /// this scale.
    Matches {
        sources: Vec<Source>,
        scale: Number,
        tsv: bool,
    },
    /// A table by this recipe.
    Recipe { asked: recipe::Asked, tsv: bool },
}

/// A command line that asks nothing, and the verb that it names, if it does.
pub struct Wrong {
    why: String,
    verb: Option<&'static Verb>,
}

impl fmt::Display for Wrong {
    fn fmt(&self, f: &mut fmt::Formatter) -> fmt::Result {
        writeln!(f, "desk: {}", self.why)?;
        match self.verb {
            Some(verb) => {
                writeln!(f, "usage: {}", verb.usage())?;
                writeln!(f, "`desk help {}` explains it", verb.name)
            }
            None => {
                let verbs: Vec<String> = VERBS.iter().map(|verb| verb.call()).collect();
                writeln!(f, "usage: desk VERB [options] [FILE]")?;
                writeln!(f, "verbs: {}", verbs.join(", "))?;
                writeln!(f, "`desk help` explains them")
            }
        }
    }
}

/// Reads the words after the program's name.
pub fn parse(mut words: impl Iterator<Item = OsString>) -> Result<Asked, Wrong> {
    let wrong = |why| Wrong { why, verb: None };
    let first = words.next();
    let first = first.ok_or_else(|| wrong("a verb is missing".to_string()))?;
    match first.to_str() {
        Some("--version") => return Ok(Asked::Version),
        Some("help" | "--help" | "-h") => return help(words).map_err(wrong),
        _ => {}
    }
    let verb = find(&first).map_err(wrong)?;
    let wrong = |why| Wrong {
        why,
        verb: Some(verb),
    };
    let words = Words::sort(verb, words).map_err(wrong)?;
    if words.help {
        return Ok(Asked::Help(Some(verb)));
    }
    (verb.ask)(words).map(Asked::Task).map_err(wrong)
}

fn help(mut words: impl Iterator<Item = OsString>) -> Result<Asked, String> {
    let verb = words.next().map(|word| find(&word)).transpose()?;
    match words.next() {
        Some(word) => Err(too_many(&word)),
        None => Ok(Asked::Help(verb)),
    }
}

fn find(word: &OsStr) -> Result<&'static Verb, String> {
    let mut verbs = VERBS.iter().copied();
    let verb = verbs.find(|verb| word == verb.name);
    verb.ok_or_else(|| format!("there is no verb {}", quoted(word)))
}

/// The words after a verb, which takes those that it knows.
#[derive(Default)]
pub struct Words {
    /// Those that are no options, in sequence.
    plain: VecDeque<OsString>,
    /// The verb's own options that were given, with what stands after each.
    options: Vec<(&'static str, OsString)>,
    tsv: bool,
    help: bool,
}

impl Words {
    fn sort(verb: &Verb, mut words: impl Iterator<Item = OsString>) -> Result<Words, String> {
        let mut sorted = Words::default();
        while let Some(word) = words.next() {
            match word.to_str() {
                Some("--") => {
                    sorted.plain.extend(words);
                    break;
                }
                Some("--tsv") => sorted.tsv = true,
                Some("--help" | "-h") => sorted.help = true,
                Some(word) if is_option(word) => {
                    let option = option(verb, word, &mut words)?;
                    sorted.options.push(option);
                }
                _ => sorted.plain.push_back(word),
            }
        }
        Ok(sorted)
    }

    /// The task to ask this about a table. What is left of the words is its file.
    pub fn about_table(mut self, question: impl Question + 'static) -> Result<Task, String> {
        let source = self.plain.pop_front().map(Source::named);
        if let Some(word) = self.plain.pop_front() {
            return Err(too_many(&word));
        }
        Ok(Task::Table {
            question: Box::new(question),
            source: source.unwrap_or(Source::StandardInput),
            tsv: self.tsv,
        })
    }

    /// The task to report on matches. What is left of the words is their files.
    pub fn about_matches(self, scale: Number) -> Result<Task, String> {
        let inputs = self.plain.iter().filter(|word| *word == "-");
        if inputs.count() > 1 {
            return Err("- stands twice, and standard input can be read once".to_string());
        }
        let mut sources: Vec<Source> = self.plain.into_iter().map(Source::named).collect();
        if sources.is_empty() {
            sources.push(Source::StandardInput);
        }
        Ok(Task::Matches {
            sources,
            scale,
            tsv: self.tsv,
        })
    }

    /// The task to make a table by this recipe. No word is left for a file.
    pub fn about_recipe(mut self, asked: recipe::Asked) -> Result<Task, String> {
        if let Some(word) = self.plain.pop_front() {
            return Err(too_many(&word));
        }
        Ok(Task::Recipe {
            asked,
            tsv: self.tsv,
        })
    }

    /// The next word as a whole number, which its verb calls by this name.
    pub fn number(&mut self, name: &str) -> Result<Number, String> {
        let word = self.next(name)?;
        number(&word)
    }

    /// The next word as a margin.
    pub fn margin(&mut self) -> Result<Margin, String> {
        let word = self.next("MARGIN")?;
        margin(&word)
    }

    /// The margin after this option, if it was given.
    pub fn margin_after(&self, option: &str) -> Result<Option<Margin>, String> {
        self.after(option).map(margin).transpose()
    }

    /// The whole number after this option, if it was given.
    pub fn number_after(&self, option: &str) -> Result<Option<Number>, String> {
        self.after(option).map(number).transpose()
    }

    /// Whether this option was given.
    pub fn has(&self, option: &str) -> bool {
        self.after(option).is_some()
    }

    /// What stands after this option; the last, where it was given more than once.
    fn after(&self, option: &str) -> Option<&OsStr> {
        let mut options = self.options.iter().rev();
        let given = options.find(|(name, _)| *name == option);
        given.map(|(_, word)| word.as_os_str())
    }

    /// The next word as a list of bytes, if it is made of digits and commas. Any
    /// other word is a file's name.
    pub fn policy(&mut self) -> Result<Vec<u8>, String> {
        let listed = |c: char| c.is_ascii_digit() || c == ',';
        let is_list = |word: &str| !word.is_empty() && word.chars().all(listed);
        let first = self.plain.front().and_then(|word| word.to_str());
        let Some(list) = first.filter(|word| is_list(word)) else {
            return Ok(Vec::new());
        };
        let bytes: Option<Vec<u8>> = list.split(',').map(|byte| byte.parse().ok()).collect();
        let policy = bytes.ok_or_else(|| {
            format!("'{list}' is no policy: write numbers from 0 to 255, as 2,0,1")
        })?;
        self.plain.pop_front();
        Ok(policy)
    }

    fn next(&mut self, name: &str) -> Result<OsString, String> {
        let word = self.plain.pop_front();
        word.ok_or_else(|| format!("{name} is missing"))
    }
}

/// An option of the verb and what stands after it: behind a `=`, or as the next word, or
/// nothing where it needs nothing.
fn option(
    verb: &Verb,
    word: &str,
    rest: &mut impl Iterator<Item = OsString>,
) -> Result<(&'static str, OsString), String> {
    let (name, value) = match word.split_once('=') {
        Some((name, value)) => (name, Some(value.into())),
        None => (word, None),
    };
    let known = verb.options.iter().find(|(known, _)| *known == name);
    let (name, needs) = known.ok_or_else(|| {
        let word = quoted(OsStr::new(word));
        format!("{} takes no option {word}", verb.call())
    })?;
    if needs.is_empty() {
        return match value {
            None => Ok((name, OsString::new())),
            Some(_) => Err(format!("nothing may stand after {name}")),
        };
    }
    let value = value.or_else(|| rest.next());
    let value = value.ok_or_else(|| format!("nothing stands after {name}"))?;
    Ok((name, value))
}

/// Whether a word has the look of an option: a minus, and no number after it.
fn is_option(word: &str) -> bool {
    let after = word.strip_prefix('-').unwrap_or_default();
    after.starts_with(|c: char| !c.is_ascii_digit() && c != '.')
}

fn number(word: &OsStr) -> Result<Number, String> {
    let number = word.to_str().and_then(Number::parse);
    number.ok_or_else(|| format!("{} is no whole number", quoted(word)))
}

fn margin(word: &OsStr) -> Result<Margin, String> {
    let margin = word.to_str().and_then(Margin::parse);
    margin.ok_or_else(|| {
        let word = quoted(word);
        format!("{word} is no margin: write points, as 0.05, or whole grains, as 12g")
    })
}

fn too_many(word: &OsStr) -> String {
    format!("{} is one word too many", quoted(word))
}

/// A word as it can be shown, whatever bytes it has.
fn quoted(word: &OsStr) -> String {
    format!("'{}'", word.to_string_lossy().escape_debug())
}
