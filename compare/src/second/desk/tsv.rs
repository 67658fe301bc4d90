//! The answers for spreadsheets: lines of fields, the first of which is a name.

use std::fmt::Display;

use super::columns::{average, listed, points};
use super::matches::{word, Reported, Side, Sums};
use super::{letter, plays, Entry, Play, RolledOut, Searched};
use crate::second::{worths, Kind, Table};

pub fn worth(table: &Table, worth: i64) -> String {
    row("worth", &[&amount(table, worth)]) + &grain(table)
}

/// The play judged and how many are level, none where there is no decision; then
/// all plays.
pub fn judge(table: &Table, judged: Option<(&Play, usize)>, plays: &[Play]) -> String {
    let mut answer = play(judged.map(|(play, _)| (play.number, play.node)));
    if let Some((play, level)) = judged {
        answer += &row("loss", &[&amount(table, play.loss)]);
        answer += &row("level", &[&level]);
        answer += &row("plays", &[&plays.len()]);
    }
    answer + &grain(table)
}

pub fn search(table: &Table, searched: &Searched) -> String {
    found(table, searched) + &leaves(table) + &read(&searched.read) + &grain(table)
}

pub fn index(table: &Table, entries: &[Entry]) -> String {
    let mut answer = ends(table);
    for entry in entries {
        let kind = letter(table.nodes[entry.node].kind);
        answer += &row(
            "entry",
            &[&entry.node, &kind, &entry.lowest, &entry.highest],
        );
    }
    answer
}

/// A table that was written: the turned one, or that of a recipe.
pub fn table(table: &Table) -> String {
    let mut answer = nodes(table) + &totals_and_ends(table);
    for node in 0..table.nodes.len() {
        answer += &row("node", &[&line(table, node)]);
    }
    answer
}

pub fn rollout(table: &Table, out: &RolledOut) -> String {
    let mut answer = row("worth", &[&amount(table, out.rolled.worth)]);
    answer += &leaves(table);
    answer += &read(&out.read);
    for (node, bounds) in out.records.iter().enumerate() {
        let (low, high) = (amount(table, bounds.low), amount(table, bounds.high));
        answer += &row("record", &[&node, &low, &high]);
    }
    answer + &grain(table)
}

pub fn show(table: &Table, searched: Option<&Searched>) -> String {
    let mut answer = nodes(table) + &leaves(table) + &totals_and_ends(table);
    answer += &row("chances", &[&table.chances]);
    answer += &grain(table);
    if let Some(searched) = searched {
        answer += &found(table, searched);
        answer += &row("read", &[&searched.read.len()]);
    }
    for (node, worth) in worths(table).into_iter().enumerate() {
        let (line, worth) = (line(table, node), amount(table, worth));
        answer += &match searched {
            None => row("node", &[&line, &worth]),
            Some(searched) => {
                let leaf = table.nodes[node].kind == Kind::Leaf;
                let read = leaf.then(|| bit(searched.has_read(node)));
                row("node", &[&line, &worth, &field(read)])
            }
        };
    }
    if let Some(searched) = searched {
        for play in plays(table) {
            answer += &child(table, searched, &play);
        }
    }
    answer
}

fn child(table: &Table, searched: &Searched, play: &Play) -> String {
    row(
        "child",
        &[
            &play.number,
            &play.node,
            &amount(table, play.worth),
            &amount(table, play.loss),
            &bit(searched.within(play)),
            &bit(searched.found.play == Some(play.node)),
        ],
    )
}

// Matches

pub fn report(reported: &Reported) -> String {
    let mut answer = row("file", &[&reported.name]);
    answer += &row("scale", &[&reported.scale]);
    let positions = reported.report.entries.iter().zip(&reported.plays);
    for (number, (entry, play)) in (1..).zip(positions) {
        let (kind, loss) = (letter(entry.root), field(entry.loss));
        let (points, mark) = (field(entry.loss.map(listed)), field(entry.mark.map(word)));
        answer += &row("position", &[&number, &kind, play, &loss, &points, &mark]);
    }
    let sums = Sums::of(reported);
    answer += &row("positions", &[&sums.positions]);
    for side in &sums.sides {
        answer += &row("total", &[&side.letter, &lost(side), &marks(side)]);
    }
    answer
}

/// The totals over all files.
pub fn all(files: usize, sums: &Sums) -> String {
    let [max, min] = &sums.sides;
    let (lost_max, lost_min) = (lost(max), lost(min));
    let (marks_max, marks_min) = (marks(max), marks(min));
    row(
        "all",
        &[
            &files,
            &sums.positions,
            &lost_max,
            &lost_min,
            &marks_max,
            &marks_min,
        ],
    )
}

/// The four fields of what a side lost.
fn lost(side: &Side) -> String {
    let (decisions, sum) = (side.total.decisions, side.total.sum);
    let (points, average) = (listed(sum), field(average(side.total)));
    format!("{decisions}\t{sum}\t{points}\t{average}")
}

/// The four fields of a side's marks.
fn marks(side: &Side) -> String {
    side.marks.map(|count| count.to_string()).join("\t")
}

// The lines of several answers

/// The margin and the budget or the index, the bounds and the play.
fn found(table: &Table, searched: &Searched) -> String {
    let mut answer = row("margin", &[&amount(table, searched.margin)]);
    if let Some(budget) = searched.budget {
        answer += &row("budget", &[&budget, &bit(searched.found.spent)]);
    }
    if let Some((lowest, highest)) = searched.utilities {
        answer += &row("index", &[&lowest, &highest]);
    }
    answer += &row("low", &[&amount(table, searched.found.low)]);
    answer += &row("high", &[&amount(table, searched.found.high)]);
    if searched.budget.is_some() {
        answer += &row("apart", &[&amount(table, searched.apart())]);
    }
    answer + &play(searched.play(table))
}

fn play(play: Option<(usize, usize)>) -> String {
    let (number, node) = play.unwrap_or((0, 0));
    row("play", &[&number, &node])
}

fn nodes(table: &Table) -> String {
    row("nodes", &[&table.nodes.len()])
}

fn leaves(table: &Table) -> String {
    row("leaves", &[&table.leaves])
}

/// A table with one total has no row of a second.
fn totals_and_ends(table: &Table) -> String {
    let mut rows = row("total", &[&table.total]);
    rows.extend(table.second.map(|second| row("second", &[&second])));
    rows + &ends(table)
}

/// The table's own.
fn ends(table: &Table) -> String {
    row("lowest", &[&table.lowest]) + &row("highest", &[&table.highest])
}

/// How many leaves were read, and each of them.
fn read(leaves: &[u16]) -> String {
    let each = leaves.iter().map(|leaf| row("leaf", &[leaf]));
    row("read", &[&leaves.len()]) + &each.collect::<String>()
}

fn grain(table: &Table) -> String {
    row("grain", &[&table.grains])
}

// Fields

/// A line of the table: its number, parent, kind, weight and utility.
fn line(table: &Table, number: usize) -> String {
    let node = &table.nodes[number];
    let (kind, parent) = (letter(node.kind), field(node.parent));
    let (weight, utility) = (field(node.weight), field(node.utility));
    format!("{number}\t{parent}\t{kind}\t{weight}\t{utility}")
}

/// The two fields of an amount.
fn amount(table: &Table, grains: i64) -> String {
    format!("{grains}\t{}", points(table, grains))
}

/// A field, empty where there is no such thing.
fn field(value: Option<impl Display>) -> String {
    value.map_or(String::new(), |value| value.to_string())
}

fn bit(yes: bool) -> u8 {
    u8::from(yes)
}

/// A line: the name and the fields, with a tab between two.
fn row(name: &str, fields: &[&dyn Display]) -> String {
    let fields = fields.iter().map(|field| format!("\t{field}"));
    format!("{name}{}\n", fields.collect::<String>())
}
