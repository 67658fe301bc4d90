//! The search: the refusal and its line, or the bounds, the play, the number of
//! leaves read, G, the difference of the bounds, whether the budget was spent, and
//! every entry of the leaf list; and that all else in what was lent is left as it was.
//! What the search promises of the exact worth is held to the answers too. The search
//! with a budget has more to it in `budget`, plays that tie in `ties`, C in `sums`.

use std::fmt::Arguments;

use super::numbers::{agree, ROOM};
use super::seen::{Seen, ROOTS};
use super::tally::Tally;
use super::{best_plays, code, span};
use crate::engine;
use crate::random::Random;
use crate::second::{
    self, root_children, Found, Kind, Refusal, Rounding, Step, Table, Terms, GREATEST_MARGIN,
    MOST_NODES,
};
use crate::texts::examples::escaped;
use crate::texts::knobs::{OPENINGS, ROLLS, WAYS};
use crate::texts::put_utility;

/// No node has this number, so an entry of a list that was written shows.
pub const PATTERN: u16 = 0xa5a5;

/// A longer list has at most so many entries beyond a table's leaves, or 1,024
/// entries.
const SPARE: usize = 30;

/// Entries kept as a guard after a list lent.
const GUARD: usize = 2;

/// The roundings of a window that document 01 does not want.
pub const OTHER_ROUNDINGS: [(&str, Rounding); 2] = [
    ("alpha rounded up", Rounding::AlphaUp),
    ("beta rounded down", Rounding::BetaDown),
];

/// What a call must return and write: the answer with G, and the leaves read, in
/// reading sequence.
#[derive(Clone, Debug, PartialEq, Eq)]
pub struct Expected {
    pub answer: Result<(Found, i64), Refusal>,
    pub leaves: Vec<u16>,
}

impl Expected {
    /// What the second engine says of a table that was read, without a budget.
    pub fn of(table: &Result<Table, Refusal>, margin: i64, room: usize) -> Expected {
        Expected::by(table.as_ref(), Terms::of(margin), room)
    }

    /// The same by any terms.
    pub fn by(table: Result<&Table, &Refusal>, terms: Terms, room: usize) -> Expected {
        let table = match table {
            Ok(table) => table,
            Err(refusal) => return Expected::refused(*refusal),
        };
        let mut leaves = vec![PATTERN; room];
        match second::search_watched(table, terms, &mut leaves, |_| {}) {
            Ok(found) => {
                leaves.truncate(found.read);
                let answer = Ok((found, table.grains));
                Expected { answer, leaves }
            }
            Err(refusal) => Expected::refused(refusal),
        }
    }

    /// An answer that is known; play 0 is none. No budget was spent.
    pub fn known(low: i64, high: i64, play: usize, leaves: &[u16], grains: i64) -> Expected {
        let found = Found {
            low,
            high,
            play: (play > 0).then_some(play),
            read: leaves.len(),
            spent: false,
        };
        Expected {
            answer: Ok((found, grains)),
            leaves: leaves.to_vec(),
        }
    }

    pub fn refused(refusal: Refusal) -> Expected {
        Expected {
            answer: Err(refusal),
            leaves: Vec::new(),
        }
    }

    /// What must come of the turned table: the bounds negated and exchanged.
    pub fn turned(&self) -> Expected {
        let negated = self.answer.map(|(found, grains)| {
            let (low, high) = (-found.high, -found.low);
            (Found { low, high, ..found }, grains)
        });
        Expected {
            answer: negated,
            leaves: self.leaves.clone(),
        }
    }
}

/// What the proved engine writes of an answer.
pub fn numbers(found: Found, grains: i64) -> [i64; 7] {
    [
        found.low,
        found.high,
        found.play.unwrap_or(0) as i64,
        found.read as i64,
        grains,
        found.high - found.low,
        i64::from(found.spent),
    ]
}

/// Holds the proved engine to this, with a leaf list of `room` entries and so
/// many numbers lent.
pub fn hold_to(
    tally: &Tally,
    text: &[u8],
    margin: i64,
    room: usize,
    numbers: usize,
    expected: &Expected,
) {
    let asked = format_args!("the search with margin {margin} and a list of {room}");
    hold_call(
        tally,
        text,
        asked,
        (room, numbers),
        expected,
        |list, lent| engine::search(text, margin, list, lent),
    );
}

/// Holds a call to this, with a leaf list and numbers of these lengths; `asked` names
/// it.
pub fn hold_call(
    tally: &Tally,
    text: &[u8],
    asked: Arguments,
    (room, numbers): (usize, usize),
    expected: &Expected,
    call: impl FnOnce(&mut [u16], &mut [i64]) -> u64,
) {
    let written = expected.answer.map(|(found, g)| self::numbers(found, g));
    let written = written.as_ref().map_or(&[][..], |written| written);
    let mut list = vec![PATTERN; room + GUARD];
    let returned = (code(&expected.answer), written);
    agree(tally, text, asked, numbers, returned, |lent| {
        call(&mut list[..room], lent)
    });
    let (read, rest) = list.split_at(expected.leaves.len());
    if read != expected.leaves || rest.iter().any(|&entry| entry != PATTERN) {
        panic!(
            "{}: the engines differ on {asked}\n\
             leaves: expected {:?}, then {PATTERN} for each entry left alone\n\
             got {list:?}\n\
             text of {} bytes:\n{}",
            tally.place(),
            expected.leaves,
            text.len(),
            escaped(text),
        );
    }
}

/// Compares the two engines on texts and margins.
pub struct Comparison {
    pub tally: Tally,
    /// What the tables, the calls and answers, and the cut tests were like.
    pub tables: Seen,
    pub answers: Seen,
    pub tests: Seen,
    lengths: Lengths,
}

impl Comparison {
    pub fn new(name: &'static str) -> Comparison {
        Comparison {
            tally: Tally::new(name),
            tables: Seen::default(),
            answers: Seen::default(),
            tests: Seen::default(),
            lengths: Lengths::default(),
        }
    }

    /// Gives a text to both engines with each margin that `margins` chooses; it
    /// is told the table, or nothing where the text is refused. Fails the test
    /// unless the engines agree and the answers keep what the search promises.
    pub fn hold(
        &mut self,
        text: &[u8],
        margins: impl FnOnce(Option<&Table>) -> Vec<i64>,
    ) -> Result<Table, Refusal> {
        let table = second::read(text);
        let worths = table.as_ref().ok().map(second::worths);
        let margins = margins(table.as_ref().ok());
        let mut codes = Vec::with_capacity(2 * margins.len());
        for margin in margins {
            for (room, numbers) in self.lengths.next(table.as_ref().ok()) {
                let expected = Expected::of(&table, margin, room);
                hold_to(&self.tally, text, margin, room, numbers, &expected);
                codes.push(code(&expected.answer));
                let (Ok(table), Some(worths)) = (&table, &worths) else {
                    continue;
                };
                count_list(&mut self.answers, room, table.leaves);
                if let Ok((found, _)) = expected.answer {
                    keeps_its_promises(table, worths, margin, found, &expected.leaves);
                    count_answer(&mut self.answers, table, margin, found);
                }
            }
        }
        self.tally.add(&codes);
        if let (Ok(table), Some(worths)) = (&table, &worths) {
            self.tally.add_table(table);
            count_table(&mut self.tables, table, worths);
        }
        table
    }

    /// Counts the cut tests of one search.
    pub fn count_tests(&mut self, table: &Table, margin: i64) {
        count_tests(&mut self.tests, table, Terms::of(margin));
    }
}

/// Counts the cut tests of one search: by the kind of the node those that cut, those where
/// the margin is just enough, and those that would have cut at a margin that is greater by
/// one grain.
pub fn count_tests(seen: &mut Seen, table: &Table, terms: Terms) {
    let (gaps, margin) = (gaps(table, terms), terms.margin);
    for kind in [Kind::Max, Kind::Min, Kind::Chance] {
        let here = || gaps.iter().filter(|(k, _)| *k == kind).map(|(_, gap)| gap);
        let mut add = |sort: &str, count: usize| {
            seen.add(&format!("{sort} at {kind:?}"), count as u64);
        };
        add("cut", here().filter(|gap| **gap <= margin).count());
        add("just cut", here().filter(|gap| **gap == margin).count());
        let not = here().filter(|gap| **gap == margin + 1).count();
        add("just not cut", not);
    }
}

/// What is lent to a call, by turns.
#[derive(Default)]
pub struct Lengths {
    turn: usize,
}

impl Lengths {
    /// The lengths of the leaf lists and the numbers to lend next: a list for exactly
    /// the leaves or a longer one, with all numbers and some to spare; and in some
    /// turns one that is too short, or fewer numbers.
    pub fn next(&mut self, table: Option<&Table>) -> Vec<(usize, usize)> {
        self.turn += 1;
        let Some(table) = table else {
            return vec![([0, 1, MOST_NODES][self.turn % 3], self.turn % (ROOM + 1))];
        };
        let leaves = table.leaves;
        let fewer = self.turn / 8 % ROOM;
        match self.turn % 8 {
            0 => vec![(leaves, ROOM), (leaves - 1, ROOM)],
            1 => vec![(leaves + 1, ROOM)],
            2 => vec![(leaves + 1 + self.turn % SPARE, ROOM)],
            3 => vec![(leaves, fewer), (leaves / 2, fewer)],
            4 => vec![(MOST_NODES, ROOM), (0, ROOM)],
            5 => vec![(leaves + 2, fewer)],
            _ => vec![(leaves, ROOM)],
        }
    }
}

/// The exact worth lies within the bounds, these within the margin, the play's
/// worth is within the margin of the best, and the leaves read are leaves, each
/// once and in line order.
pub fn keeps_its_promises(
    table: &Table,
    worths: &[i64],
    margin: i64,
    found: Found,
    leaves: &[u16],
) {
    let worth = worths[0];
    assert!(found.low <= worth && worth <= found.high, "{found:?}");
    assert!(found.high - found.low <= margin, "{found:?} at {margin}");

    let root = &table.nodes[0];
    assert_eq!(
        found.play.is_some(),
        matches!(root.kind, Kind::Max | Kind::Min)
    );
    if let Some(play) = found.play {
        assert_eq!(table.nodes[play].parent, Some(0));
        let loss = match root.kind {
            Kind::Max => worth - worths[play],
            _ => worths[play] - worth,
        };
        assert!((0..=margin).contains(&loss), "{found:?} loses {loss}");
    }

    assert!(!leaves.is_empty() && leaves.len() == found.read);
    assert!(leaves.windows(2).all(|pair| pair[0] < pair[1]));
    let mut read = leaves.iter().map(|&leaf| &table.nodes[leaf as usize]);
    assert!(read.all(|node| node.kind == Kind::Leaf));
}

/// Holds the search without a budget to the same answer with other utilities in the
/// leaves that were not read, and to that in a mirror on the turned table.
pub fn hold_changed(tally: &Tally, text: &[u8], table: &Table, margin: i64, random: &mut Random) {
    let expected = Expected::by(Ok(table), Terms::of(margin), table.leaves);
    let hold = |text: &[u8], expected: &Expected| {
        hold_to(tally, text, margin, table.leaves, ROOM, expected);
    };
    let mut other = text.to_vec();
    change_unread(&mut other, table, &expected.leaves, random);
    hold(&other, &expected);
    let other = second::read(&other).expect("valid still");
    let (found, _) = expected.answer.expect("an answer");
    let worths = second::worths(&other);
    keeps_its_promises(&other, &worths, margin, found, &expected.leaves);

    let mut turned = text.to_vec();
    second::turn(text, &mut turned).expect("a valid table");
    hold(&turned, &expected.turned());
}

fn count_table(seen: &mut Seen, table: &Table, worths: &[i64]) {
    seen.count_table(table);
    let best = best_plays(table, worths);
    seen.count("a forced play", best > 0 && root_children(table) == 1);
    seen.count("several plays of the best worth", best > 1);
    let openings = rolls(table, OPENINGS as i64, OPENINGS);
    let rolls = rolls(table, WAYS, ROLLS);
    let nodes = table.nodes.iter();
    let all = nodes.filter(|node| node.kind == Kind::Chance).count();
    seen.count("the 21 rolls at every C", all > 0 && rolls == all);
    let both = rolls > 0 && openings > 0 && rolls + openings == all;
    seen.count("the 21 rolls and the 15 opening rolls", both);
    seen.count_chances(table);
    seen.count_root(&ROOTS, table);
}

/// How many C have this T and so many children.
fn rolls(table: &Table, total: i64, rolls: usize) -> usize {
    let mut children = vec![0; table.nodes.len()];
    for node in &table.nodes {
        if let Some(parent) = node.parent {
            children[parent] += 1;
        }
    }
    let nodes = table.nodes.iter().zip(children);
    let here = nodes.filter(|(node, children)| node.sum == total && *children == rolls);
    here.count()
}

pub fn count_list(seen: &mut Seen, room: usize, leaves: usize) {
    seen.count("list exact", room == leaves);
    seen.count("list longer", room > leaves);
    seen.count("list too short", room < leaves);
    seen.count("no list", room == 0);
}

pub fn count_answer(seen: &mut Seen, table: &Table, margin: i64, found: Found) {
    let width = found.high - found.low;
    seen.count("bounds equal", width == 0);
    seen.count("bounds within the margin", 0 < width && width < margin);
    let as_far = 0 < width && width == margin;
    seen.count("bounds as far apart as the margin", as_far);
    seen.count("first child played", found.play == Some(1));
    seen.count("later child played", found.play > Some(1));
    let all = found.read == table.leaves;
    for kind in ROOTS {
        let here = table.nodes[0].kind == kind;
        seen.count(&format!("all leaves read, root {kind:?}"), here && all);
        // A lone leaf is always read.
        if kind != Kind::Leaf {
            seen.count(&format!("leaves unread, root {kind:?}"), here && !all);
        }
    }
}

/// The cut tests of a search: the kind of the node, and beta minus alpha.
fn gaps(table: &Table, terms: Terms) -> Vec<(Kind, i64)> {
    let mut gaps = Vec::new();
    let mut list = [PATTERN; MOST_NODES];
    let _ = second::search_watched(table, terms, &mut list, |step| {
        if let Step::Test(node, window) = step {
            gaps.push((table.nodes[node].kind, window.beta - window.alpha));
        }
    });
    gaps
}

/// Margins for a table: the least ones, the greatest, some around the gaps of
/// cut tests and around the whole span, and one that is refused.
pub fn margins(random: &mut Random, table: &Table) -> Vec<i64> {
    margins_by(random, table, Terms::of)
}

/// The same for the searches by these terms.
pub fn margins_by(random: &mut Random, table: &Table, terms: fn(i64) -> Terms) -> Vec<i64> {
    let span = span(table);
    let any = random.between(0, span);
    let mut margins = vec![0, 1, any, GREATEST_MARGIN];
    let beside = random.pick(&[-1, 0, 1]);
    margins.push(span + beside);
    // The first gaps are those of a full search, the others those of one that
    // is cut more; what a search cuts at its own gap shows only by trying it.
    for margin in [0, any] {
        let gaps = gaps(table, terms(margin));
        if !gaps.is_empty() {
            let (_, gap) = random.pick(&gaps);
            margins.extend([gap - 1, gap, gap + 1]);
        }
    }
    margins.push(match random.below(6) {
        0 => GREATEST_MARGIN + 1,
        1 => -1,
        2 => i64::MIN,
        3 => i64::MAX,
        // A margin that would be allowed if bits were lost.
        4 => any ^ (-1 << random.pick(&[46, 48, 63])),
        _ => random.bits() as i64,
    });
    margins
}

/// Gives each leaf that was not read any other utility between the ends.
pub fn change_unread(text: &mut [u8], table: &Table, read: &[u16], random: &mut Random) {
    for (i, node) in table.nodes.iter().enumerate() {
        if node.kind == Kind::Leaf && !read.contains(&(i as u16)) {
            let utility = match random.below(3) {
                0 => table.lowest,
                1 => table.highest,
                _ => random.between(table.lowest, table.highest),
            };
            put_utility(text, i, utility);
        }
    }
}
