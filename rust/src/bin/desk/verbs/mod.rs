//! The verbs, one module each. A new verb is a module and its line in `VERBS`.

mod index;
pub mod judge;
pub mod recipe;
pub mod report;
mod rollout;
mod search;
mod show;
mod turn;
mod worth;

use margin_engine::{Kind, Play, Refusal, Table, read};

use crate::args::{Task, Words};
use crate::input::Holding;
use crate::output::{Page, Sheet, coloured};

/// All verbs, in the sequence in which help lists them.
pub const VERBS: &[&Verb] = &[
    &show::VERB,
    &worth::VERB,
    &judge::VERB,
    &search::VERB,
    &index::VERB,
    &turn::VERB,
    &rollout::VERB,
    &report::VERB,
    &recipe::VERB,
];

/// A verb: how it is called, what help says of it, and the question that it asks.
pub struct Verb {
    pub name: &'static str,
    /// What stands after it.
    pub arguments: &'static str,
    /// Its own options beside `--tsv` and `--help`, with what stands after each, if
    /// anything does.
    pub options: &'static [(&'static str, &'static str)],
    pub files: &'static Holding,
    /// What it does; the verb stands before this.
    pub does: &'static str,
    /// What else is good to know, a paragraph each.
    pub more: &'static [&'static str],
    pub ask: fn(Words) -> Result<Task, String>,
}

impl Verb {
    /// The verb and what stands after it.
    pub fn call(&self) -> String {
        let call = format!("{} {}", self.name, self.arguments);
        call.trim_end().to_string()
    }

    /// The whole line to type.
    pub fn usage(&self) -> String {
        let options = self.options.iter();
        let options: String = options
            .map(|(name, value)| format!("[{}] ", format!("{name} {value}").trim_end()))
            .collect();
        let files = self.files.usage;
        let usage = format!("desk {} {options}[--tsv] {files}", self.call());
        usage.trim_end().to_string()
    }
}

/// A question about a table.
pub trait Question {
    /// Asks the engine.
    fn answer(&self, text: &[u8]) -> Result<Box<dyn Answer>, Refusal>;

    /// Where the table is accepted and the question is refused: what was asked, to be
    /// printed with the reason.
    fn given(&self, _: &Refusal, _: &Table) -> String {
        String::new()
    }
}

/// An answer in its two forms.
pub trait Answer {
    fn people(&self, page: &mut Page);
    fn tsv(&self, sheet: &mut Sheet);
}

/// The answer as it is printed.
pub fn formed(answer: &dyn Answer, tsv: bool) -> Vec<u8> {
    if tsv {
        let mut sheet = Sheet::default();
        answer.tsv(&mut sheet);
        return sheet.into_text().into_bytes();
    }
    let mut page = Page::new(coloured());
    answer.people(&mut page);
    page.into_bytes()
}

/// A table that the engine wrote, as its text.
struct Written(Vec<u8>);

impl Answer for Written {
    fn people(&self, page: &mut Page) {
        page.raw(&self.0);
    }

    fn tsv(&self, sheet: &mut Sheet) {
        let table = read(&self.0).expect("what the engine writes is a table");
        sheet.row("nodes", &[&table.nodes.len()]);
        sheet.totals_and_ends(&table);
        for (number, node) in table.nodes.iter().enumerate() {
            sheet.node(number, node, &[]);
        }
    }
}

/// The play that a verb speaks of, if there is one.
struct Played {
    play: Play,
    /// The root's kind, which says why there is no play where there is none.
    root: Kind,
    /// Why there is none at an M or N root.
    none: &'static str,
    /// What is said behind the play.
    note: &'static str,
}

impl Played {
    fn of(play: Play, table: &Table, none: &'static str) -> Played {
        let root = table.nodes[0].kind;
        let note = "";
        Played {
            play,
            root,
            none,
            note,
        }
    }

    fn people(&self, page: &mut Page) {
        match self.play {
            Play::Child { number, node } => {
                page.named("play", format_args!("{number}, node {node}{}", self.note));
            }
            Play::None => {
                let why = match self.root {
                    Kind::Chance => "none: nobody chooses at a C root",
                    Kind::Leaf => "none: nobody chooses at an L root",
                    Kind::Max | Kind::Min => self.none,
                };
                page.named("play", why);
            }
        }
    }

    fn tsv(&self, sheet: &mut Sheet) {
        let (number, node) = match self.play {
            Play::Child { number, node } => (number, node),
            Play::None => (0, 0),
        };
        sheet.row("play", &[&number, &node]);
    }
}
