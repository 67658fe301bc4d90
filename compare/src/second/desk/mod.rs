//! The desk's command: what each verb prints of an accepted table or match, and
//! what is shown of a refused one, written from docs/DESK.md and from nothing of
//! the command itself.
//!
//! The verbs here and in `matches` gather what there is to say, and `people` and
//! `tsv` say it in their form; `columns` sets amounts and columns, `tree` draws the
//! tree. `recipes` has the verb that reads no table. `refused` has the line and the columns
//! of a refusal, `stopped` those of a refused match, and `details` what is said of a sum and
//! of a grain count.

mod columns;
mod details;
mod matches;
mod people;
mod recipes;
mod refused;
mod stopped;
mod tree;
mod tsv;

pub use details::detail;
pub use matches::{all, no_totals, printed_name, report, Reported, USUAL_SCALE};
pub use recipes::{recipe, recipe_detail};
pub use refused::{marks, shown, Stretch};
pub use stopped::{stopped, Stopped};

use crate::second::{self, worths};
use crate::second::{Bounds, Found, Judgement, Kind, Refusal, Rolled, Table};

/// How an answer is printed.
#[derive(Clone, Copy, Debug, PartialEq, Eq)]
pub enum Form {
    /// In lines and columns, for people.
    People,
    /// In fields with tabs between them, for spreadsheets.
    Tsv,
}

pub const FORMS: [Form; 2] = [Form::People, Form::Tsv];

/// A child of an M or N root: its number, from 1, its node, its worth and what
/// it loses, in grains.
struct Play {
    number: usize,
    node: usize,
    worth: i64,
    loss: i64,
}

/// What the search to a margin found.
struct Searched {
    margin: i64,
    /// None where it is not limited.
    budget: Option<i64>,
    /// The lowest and the highest utility of all, where the index is used.
    utilities: Option<(i64, i64)>,
    found: Found,
    /// The leaves read, in reading sequence.
    read: Vec<u16>,
}

/// A node with children, and the lowest and the highest utility under it.
struct Entry {
    node: usize,
    lowest: i64,
    highest: i64,
}

/// What rollouts found.
struct RolledOut {
    rolled: Rolled,
    /// The leaves read, in reading sequence.
    read: Vec<u16>,
    /// The bounds of each node.
    records: Vec<Bounds>,
}

pub fn worth(table: &Table, form: Form) -> String {
    let worth = worths(table)[0];
    match form {
        Form::People => people::worth(table, worth),
        Form::Tsv => tsv::worth(table, worth),
    }
}

/// Judges the root child with this number; the first has number 1. Where there is
/// no decision, every number will do.
pub fn judge(table: &Table, number: i64, form: Form) -> Result<String, Refusal> {
    let plays = plays(table);
    let judged = match second::judge(table, number)? {
        Judgement::NoDecision => {
            assert!(plays.len() < 2, "no decision between several plays");
            None
        }
        Judgement::Loss { grains, level } => {
            let play = &plays[number as usize - 1];
            assert_eq!(play.loss, grains, "one loss in two ways");
            Some((play, level))
        }
    };
    Ok(match form {
        Form::People => people::judge(table, judged, &plays),
        Form::Tsv => tsv::judge(table, judged, &plays),
    })
}

/// Searches to a margin in grains, within a budget of leaves if there is one.
pub fn search(
    table: &Table,
    margin: i64,
    budget: Option<i64>,
    form: Form,
) -> Result<String, Refusal> {
    let searched = searched(table, margin, budget)?;
    Ok(match form {
        Form::People => people::search(table, &searched),
        Form::Tsv => tsv::search(table, &searched),
    })
}

/// Searches to a margin in grains with the table's index.
pub fn search_indexed(table: &Table, margin: i64, form: Form) -> Result<String, Refusal> {
    let (lows, highs) = index_of(table);
    let mut read = vec![0; table.leaves];
    let found = second::search_indexed(table, margin, (&lows, &highs), &mut read)?;
    read.truncate(found.read);
    let utilities = || table.nodes.iter().filter_map(|node| node.utility);
    let searched = Searched {
        margin,
        budget: None,
        utilities: utilities().min().zip(utilities().max()),
        found,
        read,
    };
    Ok(match form {
        Form::People => people::search(table, &searched),
        Form::Tsv => tsv::search(table, &searched),
    })
}

/// Lists the index.
pub fn index(table: &Table, form: Form) -> String {
    let (lows, highs) = index_of(table);
    let nodes = 0..table.nodes.len();
    let inner = nodes.filter(|&node| table.nodes[node].kind != Kind::Leaf);
    let entries = inner.map(|node| Entry {
        node,
        lowest: lows[node],
        highest: highs[node],
    });
    let entries: Vec<Entry> = entries.collect();
    match form {
        Form::People => people::index(table, &entries),
        Form::Tsv => tsv::index(table, &entries),
    }
}

/// The two lists of a table's index.
fn index_of(table: &Table) -> (Vec<i64>, Vec<i64>) {
    let mut lows = vec![0; table.nodes.len()];
    let mut highs = lows.clone();
    second::index(table, &mut lows, &mut highs).expect("room for every node");
    (lows, highs)
}

pub fn turn(text: &[u8], form: Form) -> Result<String, Refusal> {
    let mut turned = vec![0; text.len()];
    second::turn(text, &mut turned)?;
    written(turned, form)
}

/// A table that was written.
fn written(text: Vec<u8>, form: Form) -> Result<String, Refusal> {
    Ok(match form {
        Form::People => String::from_utf8(text).expect("a table is in ASCII"),
        Form::Tsv => tsv::table(&second::read(&text)?),
    })
}

pub fn rollout(table: &Table, policy: &[u8], form: Form) -> Result<String, Refusal> {
    let mut records = vec![Bounds { low: 0, high: 0 }; table.nodes.len()];
    let mut read = vec![0; table.leaves];
    let rolled = second::rollout(table, policy, &mut records, &mut read)?;
    read.truncate(rolled.read);
    let rolled_out = RolledOut {
        rolled,
        read,
        records,
    };
    Ok(match form {
        Form::People => people::rollout(table, &rolled_out),
        Form::Tsv => tsv::rollout(table, &rolled_out),
    })
}

/// Draws the tree; with a margin, in grains, also what the search makes of it.
pub fn show(table: &Table, margin: Option<i64>, form: Form) -> Result<String, Refusal> {
    let searched = match margin {
        Some(margin) => Some(searched(table, margin, None)?),
        None => None,
    };
    Ok(match form {
        Form::People => people::show(table, searched.as_ref()),
        Form::Tsv => tsv::show(table, searched.as_ref()),
    })
}

fn searched(table: &Table, margin: i64, budget: Option<i64>) -> Result<Searched, Refusal> {
    let mut read = vec![0; table.leaves];
    let found = match budget {
        None => second::search(table, margin, &mut read)?,
        Some(budget) => second::search_within(table, margin, budget, &mut read)?,
    };
    read.truncate(found.read);
    Ok(Searched {
        margin,
        budget,
        utilities: None,
        found,
        read,
    })
}

/// The plays at the root, a forced one too; none at a C or L.
fn plays(table: &Table) -> Vec<Play> {
    let sign = match table.nodes[0].kind {
        Kind::Max => 1,
        Kind::Min => -1,
        Kind::Chance | Kind::Leaf => return Vec::new(),
    };
    let worths = worths(table);
    let nodes = 0..table.nodes.len();
    let children = nodes.filter(|&node| table.nodes[node].parent == Some(0));
    let numbered = (1..).zip(children);
    numbered
        .map(|(number, node)| Play {
            number,
            node,
            worth: worths[node],
            loss: sign * (worths[0] - worths[node]),
        })
        .collect()
}

impl Searched {
    /// The number and the node of the search's play.
    fn play(&self, table: &Table) -> Option<(usize, usize)> {
        let node = self.found.play?;
        let plays = plays(table);
        let play = plays.iter().find(|play| play.node == node);
        Some((play.expect("a child of the root").number, node))
    }

    /// Whether a leaf of the search's play was read.
    fn looks_into_its_play(&self, table: &Table) -> bool {
        self.read.iter().any(|&leaf| {
            let up = |node: &usize| table.nodes[*node].parent;
            let mut path = std::iter::successors(Some(usize::from(leaf)), up);
            path.any(|node| self.found.play == Some(node))
        })
    }

    /// High minus low.
    fn apart(&self) -> i64 {
        self.found.high - self.found.low
    }

    fn within(&self, play: &Play) -> bool {
        play.loss <= self.margin
    }

    fn has_read(&self, node: usize) -> bool {
        self.read.iter().any(|&leaf| usize::from(leaf) == node)
    }
}

fn letter(kind: Kind) -> char {
    match kind {
        Kind::Max => 'M',
        Kind::Min => 'N',
        Kind::Chance => 'C',
        Kind::Leaf => 'L',
    }
}
