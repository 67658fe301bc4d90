//! The answers for people: lines of a name and what it names, and columns.

use std::fmt::Display;

use super::columns::{average, listed, points, side_by_side, Column};
use super::matches::{word, Reported, Side, Sums};
use super::{letter, plays, tree, Entry, Play, RolledOut, Searched};
use crate::second::{worths, Kind, Table};

/// The columns of a name, the blanks after it included.
const NAME: usize = 8;

/// The last column of a line of the leaves read.
const LAST_COLUMN: usize = 79;

pub fn worth(table: &Table, worth: i64) -> String {
    amount("worth", table, worth) + &grain(table)
}

/// The play judged and how many are level, none where there is no decision; then
/// all plays.
pub fn judge(table: &Table, judged: Option<(&Play, usize)>, plays: &[Play]) -> String {
    let mut answer = match (judged, plays) {
        (None, [only]) => forced(only),
        _ => play(table, judged.map(|(play, _)| (play.number, play.node)), ""),
    };
    if let Some((play, level)) = judged {
        answer += &amount("loss", table, play.loss);
        answer += &line("level", format!("{level} of {} plays", plays.len()));
    }
    answer + &grain(table)
}

/// The line of a forced play, which is not judged.
fn forced(only: &Play) -> String {
    let said = format!("no decision: node {} is the only play", only.node);
    line("play", said)
}

pub fn search(table: &Table, searched: &Searched) -> String {
    found(table, searched) + &read(&searched.read) + &grain(table)
}

pub fn index(table: &Table, entries: &[Entry]) -> String {
    let ends = line("ends", format!("{} and {}", table.lowest, table.highest));
    if entries.is_empty() {
        return ends;
    }
    let kind = |entry: &Entry| letter(table.nodes[entry.node].kind).to_string();
    let columns = side_by_side(&[
        Column::of_numbers("node", entries.iter().map(|entry| entry.node)),
        Column::of_words("kind", entries.iter().map(kind).collect()),
        Column::of_numbers("lowest", entries.iter().map(|entry| entry.lowest)),
        Column::of_numbers("highest", entries.iter().map(|entry| entry.highest)),
    ]);
    format!("{ends}\n{columns}")
}

pub fn rollout(table: &Table, out: &RolledOut) -> String {
    let mut answer = amount("worth", table, out.rolled.worth);
    answer += &leaves(table, out.read.len());
    answer += &read(&out.read);
    answer += &grain(table);
    answer += "\n";
    let lows: Vec<i64> = out.records.iter().map(|bounds| bounds.low).collect();
    let highs: Vec<i64> = out.records.iter().map(|bounds| bounds.high).collect();
    answer
        + &side_by_side(&[
            Column::of_numbers("node", 0..lows.len()),
            Column::of_amounts("low", table, &lows),
            Column::of_amounts("high", table, &highs),
        ])
}

pub fn show(table: &Table, searched: Option<&Searched>) -> String {
    let mut answer = header(table);
    if let Some(searched) = searched {
        answer += &found(table, searched);
    }
    answer += &grain(table);
    answer += "\n";
    answer += &drawn(table, searched);
    if let Some(searched) = searched {
        answer += &standings(table, searched);
    }
    answer
}

/// The tree, and which leaves the search read.
fn drawn(table: &Table, searched: Option<&Searched>) -> String {
    let mut columns = vec![
        Column::of_words("tree", tree::lines(table)),
        Column::of_amounts("worth", table, &worths(table)),
    ];
    if let Some(searched) = searched {
        let word = |node| if searched.has_read(node) { "read" } else { "" };
        let words = (0..table.nodes.len()).map(|node| word(node).to_string());
        columns.push(Column::of_words("", words.collect()));
    }
    side_by_side(&columns)
}

/// How each play stands to the search's margin; nothing at a C or L root.
fn standings(table: &Table, searched: &Searched) -> String {
    let plays = plays(table);
    if plays.is_empty() {
        return String::new();
    }
    let worths: Vec<i64> = plays.iter().map(|play| play.worth).collect();
    let losses: Vec<i64> = plays.iter().map(|play| play.loss).collect();
    let standings = plays.iter().map(|play| standing(searched, play));
    let columns = side_by_side(&[
        Column::of_numbers("number", plays.iter().map(|play| play.number)),
        Column::of_numbers("node", plays.iter().map(|play| play.node)),
        Column::of_amounts("worth", table, &worths),
        Column::of_amounts("loss", table, &losses),
        Column::of_words("standing", standings.collect()),
    ]);
    format!("\n{columns}")
}

fn standing(searched: &Searched, play: &Play) -> String {
    let mut words = Vec::new();
    if searched.found.play == Some(play.node) {
        words.push("play");
    }
    if play.loss == 0 {
        words.push("best");
    }
    words.push(if searched.within(play) {
        "within the margin"
    } else {
        "past the margin"
    });
    words.join(", ")
}

// Matches

/// The report of one match, which is named where there are several.
pub fn report(reported: &Reported, several: bool) -> String {
    let mut answer = String::new();
    if several {
        answer += &line("file", &reported.name);
    }
    if !reported.plays.is_empty() {
        answer += &positions(reported);
        answer += "\n";
    }
    answer += &sides(&Sums::of(reported));
    answer + &line("scale", reported.scale)
}

/// The totals over all files.
pub fn all(files: usize, sums: &Sums, scale: i64) -> String {
    let positions = counted(sums.positions, "position");
    let counts = line("all", format!("{files} files, {positions}"));
    counts + &sides(sums) + &line("scale", scale)
}

fn positions(reported: &Reported) -> String {
    let entries = &reported.report.entries;
    let losses = entries.iter().map(|entry| match entry.loss {
        Some(loss) => listed(loss),
        None => "no decision".to_string(),
    });
    let sides = entries.iter().map(|entry| letter(entry.root).to_string());
    let marks = entries.iter().map(|entry| entry.mark.map_or("", word));
    side_by_side(&[
        Column::of_numbers("position", 1..=entries.len()),
        Column::of_words("side", sides.collect()),
        Column::of_numbers("play", reported.plays.iter()),
        Column::of_numbers("loss", losses),
        Column::of_words("mark", marks.map(str::to_string).collect()),
    ])
}

/// The lines of both sides.
fn sides(sums: &Sums) -> String {
    sums.sides.iter().map(side).collect()
}

/// What a side lost in all and on average, and its marks.
fn side(side: &Side) -> String {
    let Some(average) = average(side.total) else {
        return line(side.letter, "no decisions");
    };
    let decisions = counted(side.total.decisions, "decision");
    let lost = listed(side.total.sum);
    let [none, doubtful, errors, blunders] = side.marks;
    let (errors, blunders) = (counted(errors, "error"), counted(blunders, "blunder"));
    line(
        side.letter,
        format!("{decisions}, {lost} points lost, {average} each"),
    ) + &line(
        "marks",
        format!("{none} no mark, {doubtful} doubtful, {errors}, {blunders}"),
    )
}

/// A number of these, in the plural unless it is 1.
fn counted(number: i64, noun: &str) -> String {
    let plural = if number == 1 { "" } else { "s" };
    format!("{number} {noun}{plural}")
}

// The lines of several answers

/// The margin and the budget or the index, and what the search found.
fn found(table: &Table, searched: &Searched) -> String {
    let mut answer = amount("margin", table, searched.margin);
    if let Some(budget) = searched.budget {
        answer += &line("budget", self::budget(budget, searched.found.spent));
    }
    if let Some((lowest, highest)) = searched.utilities {
        answer += &line("index", format!("utilities {lowest} to {highest}"));
    }
    answer += &amount("low", table, searched.found.low);
    answer += &amount("high", table, searched.found.high);
    if searched.budget.is_some() {
        answer += &amount("apart", table, searched.apart());
    }
    let note = match searched.looks_into_its_play(table) {
        true => "",
        false => ", not looked into",
    };
    answer += &play(table, searched.play(table), note);
    answer + &leaves(table, searched.read.len())
}

fn budget(budget: i64, spent: bool) -> String {
    let leaves = if budget == 1 { "leaf" } else { "leaves" };
    let not = if spent { "" } else { "not " };
    format!("{budget} {leaves}, {not}spent")
}

fn header(table: &Table) -> String {
    let totals = match table.second {
        None => table.total.to_string(),
        Some(second) => format!("{} and {second}", table.total),
    };
    line(
        "table",
        format!(
            "{} nodes, {} leaves, T {totals}, ends {} and {}, K {}",
            table.nodes.len(),
            table.leaves,
            table.lowest,
            table.highest,
            table.chances
        ),
    )
}

/// A play, if there is one, and what is said behind it.
fn play(table: &Table, play: Option<(usize, usize)>, note: &str) -> String {
    let written = match play {
        Some((number, node)) => format!("{number}, node {node}{note}"),
        None => match table.nodes[0].kind {
            Kind::Max | Kind::Min => "none: a budget of 0 reads no leaf".to_string(),
            kind => {
                let article = if kind == Kind::Leaf { "an" } else { "a" };
                format!("none: nobody chooses at {article} {} root", letter(kind))
            }
        },
    };
    line("play", written)
}

fn leaves(table: &Table, read: usize) -> String {
    line("leaves", format!("{read} of {} read", table.leaves))
}

/// The leaves read, as many in a line as it has room for.
fn read(leaves: &[u16]) -> String {
    let mut lines: Vec<String> = Vec::new();
    for leaf in leaves {
        let leaf = leaf.to_string();
        match lines.last_mut() {
            Some(line) if NAME + line.len() + 1 + leaf.len() <= LAST_COLUMN => {
                line.push(' ');
                line.push_str(&leaf);
            }
            _ => lines.push(leaf),
        }
    }
    let names = std::iter::once("leaf").chain(std::iter::repeat(""));
    names
        .zip(lines)
        .map(|(name, text)| line(name, text))
        .collect()
}

fn grain(table: &Table) -> String {
    line("grain", format!("{}g to the point", table.grains))
}

fn amount(name: &str, table: &Table, grains: i64) -> String {
    let points = points(table, grains);
    line(name, format!("{points} points ({grains}g)"))
}

fn line(name: &str, named: impl Display) -> String {
    format!("{name:<NAME$}{named}\n")
}
