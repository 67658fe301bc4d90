//! The index of ends (document 02, Item 14). Building it: the refusal and its line, or every
//! entry of the two lists, and that all else in them is left as it was. The search that is
//! lent one: all that is held of a search without, and what it promises with other unread
//! leaves, on the turned table and between other ends. How often another way with the ends
//! would have answered otherwise is counted too.

mod lent;

use super::budget::turning_points_by;
use super::numbers::ROOM;
use super::searching::{
    count_answer, count_list, hold_call, keeps_its_promises, Expected, Lengths, OTHER_ROUNDINGS,
    PATTERN,
};
use super::seen::Seen;
use super::sums::{count_wrong, FAULTS, FAULTS_OF_TOTALS};
use super::tally::Tally;
use super::{code, span};
use crate::engine;
use crate::random::Random;
use crate::second::{
    self, ends_under, Bounds, Ends, Kind, Refusal, Table, Terms, WrongEnds, FARTHEST_END,
    GREATEST_MARGIN, MOST_NODES,
};
use crate::texts::examples::escaped;
use crate::texts::{put_ends, put_utility};
use lent::{Lent, RIGHT, WRONG};

/// No utility, so an entry that was written shows.
pub const ENTRY: i64 = 0x5a5a_5a5a_5a5a_5a5a;

/// Entries kept as a guard after each list lent to be built in.
const GUARD: usize = 2;

/// The lists of an index, whatever they hold and however long they are.
#[derive(Clone, Debug, PartialEq, Eq)]
pub struct Index {
    pub lows: Vec<i64>,
    pub highs: Vec<i64>,
}

impl Index {
    /// Lists of these lengths with nothing built in them.
    pub fn unbuilt((lows, highs): (usize, usize)) -> Index {
        Index {
            lows: vec![ENTRY; lows],
            highs: vec![ENTRY; highs],
        }
    }

    /// The table's own by the second engine, with an entry for each node.
    pub fn of(table: &Table) -> Index {
        let nodes = table.nodes.len();
        let Built { answer, index } = Built::by(Ok(table), (nodes, nodes));
        answer.expect("lists of its length");
        index
    }

    fn is_of(&self, table: &Table) -> bool {
        second::is_index(table, &self.lows, &self.highs)
    }

    fn lists(&mut self) -> [&mut Vec<i64>; 2] {
        [&mut self.lows, &mut self.highs]
    }
}

// ---------------------------------------------------------------------------
// Building
// ---------------------------------------------------------------------------

/// What the building of an index must return, and what the lists then hold.
#[derive(Clone, Debug, PartialEq, Eq)]
pub struct Built {
    pub answer: Result<(), Refusal>,
    pub index: Index,
}

impl Built {
    /// By the second engine, in lists of these lengths.
    pub fn by(table: Result<&Table, &Refusal>, lengths: (usize, usize)) -> Built {
        let mut index = Index::unbuilt(lengths);
        let answer = match table {
            Ok(table) => second::index(table, &mut index.lows, &mut index.highs),
            Err(refusal) => Err(*refusal),
        };
        Built { answer, index }
    }
}

/// Holds the proved engine to this.
pub fn hold_built(tally: &Tally, text: &[u8], expected: &Built) {
    let Built { answer, index } = expected;
    let (lows, highs) = (index.lows.len(), index.highs.len());
    let mut lent = Index::unbuilt((lows + GUARD, highs + GUARD));
    let returned = engine::index(text, &mut lent.lows[..lows], &mut lent.highs[..highs]);
    let mut kept = index.clone();
    for list in kept.lists() {
        list.resize(list.len() + GUARD, ENTRY);
    }
    if returned != code(answer) || lent != kept {
        panic!(
            "{}: the engines differ on the index, in lists of {lows} and {highs}\n\
             returned: expected {}, got {returned}\n\
             expected {kept:?}\n\
             got {lent:?}\n\
             text of {} bytes:\n{}",
            tally.place(),
            code(answer),
            text.len(),
            escaped(text),
        );
    }
}

// ---------------------------------------------------------------------------
// Searching
// ---------------------------------------------------------------------------

/// What the second engine says of a table that was read, with this index and a leaf list of
/// `room` entries.
pub fn expected(
    table: Result<&Table, &Refusal>,
    margin: i64,
    index: &Index,
    room: usize,
) -> Expected {
    let table = match table {
        Ok(table) => table,
        Err(refusal) => return Expected::refused(*refusal),
    };
    let mut leaves = vec![PATTERN; room];
    let lists = (&index.lows[..], &index.highs[..]);
    match second::search_indexed(table, margin, lists, &mut leaves) {
        Ok(found) => {
            leaves.truncate(found.read);
            let answer = Ok((found, table.grains));
            Expected { answer, leaves }
        }
        Err(refusal) => Expected::refused(refusal),
    }
}

/// Holds the proved engine to this, with a leaf list and numbers of these lengths.
pub fn hold_to(
    tally: &Tally,
    text: &[u8],
    margin: i64,
    index: &Index,
    (room, numbers): (usize, usize),
    expected: &Expected,
) {
    let asked = format_args!("the search with margin {margin}, a list of {room} and {index:?}");
    hold_call(
        tally,
        text,
        asked,
        (room, numbers),
        expected,
        |list, lent| engine::search_indexed(text, margin, &index.lows, &index.highs, list, lent),
    );
}

// ---------------------------------------------------------------------------
// The comparison
// ---------------------------------------------------------------------------

/// Compares the two engines on texts and margins, by both calls.
pub struct Comparison {
    pub building: Tally,
    pub searching: Tally,
    /// What the lists were like that were lent to be built in.
    pub lists: Seen,
    /// What the searches on accepted tables, those on refused ones and the answers were
    /// like.
    pub calls: Seen,
    pub of_refused: Seen,
    pub answers: Seen,
    lengths: Lengths,
    /// Texts compared so far; it sets the lists lent next to be built in.
    turn: usize,
}

impl Comparison {
    pub fn new(building: &'static str, searching: &'static str) -> Comparison {
        Comparison {
            building: Tally::new(building),
            searching: Tally::new(searching),
            lists: Seen::default(),
            calls: Seen::default(),
            of_refused: Seen::default(),
            answers: Seen::default(),
            lengths: Lengths::default(),
            turn: 0,
        }
    }

    /// The source for one case.
    pub fn case(&self, number: u64) -> Random {
        Random::of_case(self.searching.seed, number)
    }

    /// Gives a text to both engines, to be indexed and to be searched with each margin that
    /// `margins` chooses; it is told the table, or nothing where the text is refused. Fails
    /// the test unless the engines agree and the answers keep what Item 14 promises.
    pub fn hold(
        &mut self,
        text: &[u8],
        random: &mut Random,
        margins: impl FnOnce(Option<&Table>, &mut Random) -> Vec<i64>,
    ) -> Result<Table, Refusal> {
        let table = second::read(text);
        self.hold_building(text, table.as_ref());
        let subject = table.as_ref().ok().map(|table| Subject::new(text, table));
        let mut codes = Vec::new();
        for margin in margins(table.as_ref().ok(), random) {
            for (room, numbers) in self.lengths.next(table.as_ref().ok()) {
                let lent = Lent::next(table.as_ref().ok(), random);
                let expected = expected(table.as_ref(), margin, &lent.index, room);
                let rooms = (room, numbers);
                hold_to(&self.searching, text, margin, &lent.index, rooms, &expected);
                codes.push(code(&expected.answer));
                match &table {
                    Ok(table) => self.count_call(table, margin, rooms, &lent),
                    Err(refusal) => {
                        let sort = "refused before 12 could be";
                        self.of_refused.count(sort, is_no_margin(margin));
                        let grains = refusal.number == 18;
                        self.of_refused.count("18 before 22 could be", grains);
                    }
                }
            }
            if let Some(subject) = &subject {
                subject.hold(&self.searching, margin, random, &mut self.answers);
            }
        }
        self.searching.add(&codes);
        if let Ok(table) = &table {
            self.searching.add_table(table);
            self.building.add_table(table);
        }
        table
    }

    /// Gives a text to both engines with several lists.
    fn hold_building(&mut self, text: &[u8], table: Result<&Table, &Refusal>) {
        let mut codes = Vec::new();
        for lengths in self.lengths_to_build(table.ok()) {
            let expected = Built::by(table, lengths);
            hold_built(&self.building, text, &expected);
            codes.push(code(&expected.answer));
            if let Ok(table) = table {
                let nodes = table.nodes.len();
                let (lows, highs) = lengths;
                let seen = &mut self.lists;
                seen.count("both exact", lows == nodes && highs == nodes);
                seen.count("lows longer", lows > nodes && highs >= nodes);
                seen.count("highs longer", lows >= nodes && highs > nodes);
                seen.count("lows alone too short", lows < nodes && highs >= nodes);
                seen.count("highs alone too short", lows >= nodes && highs < nodes);
                seen.count("both too short", lows < nodes && highs < nodes);
                let by_one = lows.min(highs) + 1 == nodes;
                seen.count("too short by a leaf's entry alone", by_one);
                seen.count("no list of lows", lows == 0);
                seen.count("no list of highs", highs == 0);
                seen.count("a lone leaf", nodes == 1);
                let leaf = nodes == 1 && expected.answer.is_ok();
                seen.count("a lone leaf, nothing written", leaf);
            }
        }
        self.building.add(&codes);
    }

    /// The lengths of the lists to lend next: for a table exact ones, and others by turns.
    fn lengths_to_build(&mut self, table: Option<&Table>) -> Vec<(usize, usize)> {
        self.turn += 1;
        let turn = self.turn;
        let Some(table) = table else {
            let any = |turn: usize| [0, 1, MOST_NODES][turn % 3];
            return vec![(any(turn), any(turn / 3))];
        };
        let nodes = table.nodes.len();
        let other = match turn % 10 {
            0 => (nodes - 1, nodes),
            1 => (nodes, nodes - 1),
            2 => (nodes - 1, nodes - 1),
            3 => (0, nodes + turn % 30),
            4 => (MOST_NODES, 0),
            5 => (nodes / 2, nodes / 3),
            6 => (nodes + 1, nodes),
            7 => (nodes, nodes + 1 + turn % 30),
            8 => (MOST_NODES, MOST_NODES + 1),
            _ => (0, 0),
        };
        vec![(nodes, nodes), other]
    }

    /// Counts what was lent, and what else would have been refused: 22 comes before 12, and
    /// 12 before 11.
    fn count_call(
        &mut self,
        table: &Table,
        margin: i64,
        (room, numbers): (usize, usize),
        lent: &Lent,
    ) {
        let seen = &mut self.calls;
        count_list(seen, room, table.leaves);
        for length in 0..=ROOM {
            seen.count(&format!("room for {length} numbers"), numbers == length);
        }
        let own = lent.index.is_of(table);
        for sort in RIGHT {
            seen.count(sort, own && lent.sorts.contains(&sort));
        }
        for sort in WRONG {
            seen.count(sort, !own && lent.sorts.contains(&sort));
        }
        // An engine that compares the entries of leaves refuses this.
        let leaves = own && !has_utilities(table, &lent.index);
        seen.count("22 if the entries of leaves were compared", leaves);
        let (margin, short) = (is_no_margin(margin), room < table.leaves);
        seen.count("22 alone", !own && !margin && !short);
        seen.count("22, and 12 could be", !own && margin && !short);
        seen.count("22, and 11 could be", !own && !margin && short);
        seen.count("22, and 12 and 11 could be", !own && margin && short);
        seen.count("12 alone", own && margin && !short);
        seen.count("12, and 11 could be", own && margin && short);
        seen.count("11 alone", own && !margin && short);
    }
}

fn is_no_margin(margin: i64) -> bool {
    !(0..=GREATEST_MARGIN).contains(&margin)
}

/// Whether the entries of leaves are their utilities.
fn has_utilities(table: &Table, index: &Index) -> bool {
    let leaf = |(node, ends): (usize, Bounds)| {
        table.nodes[node].kind != Kind::Leaf
            || (index.lows[node], index.highs[node]) == (ends.low, ends.high)
    };
    ends_under(table).into_iter().enumerate().all(leaf)
}

// ---------------------------------------------------------------------------
// What the search promises
// ---------------------------------------------------------------------------

/// An accepted table, its index, its worths and the same turned.
struct Subject<'a> {
    text: &'a [u8],
    table: &'a Table,
    index: Index,
    worths: Vec<i64>,
    turned_text: Vec<u8>,
    turned: Table,
    turned_index: Index,
}

impl Subject<'_> {
    fn new<'a>(text: &'a [u8], table: &'a Table) -> Subject<'a> {
        let mut turned_text = vec![0; text.len()];
        second::turn(text, &mut turned_text).expect("a buffer of its length");
        let turned = second::read(&turned_text).expect("valid too");
        Subject {
            text,
            table,
            index: Index::of(table),
            worths: second::worths(table),
            turned_text,
            turned_index: Index::of(&turned),
            turned,
        }
    }

    /// Holds the answer to what it promises; both engines to the same answer with other
    /// utilities in leaves that were not read, if the index stays the same, and with other
    /// ends of the table; and to that in a mirror on the turned table with its own index.
    fn hold(&self, tally: &Tally, margin: i64, random: &mut Random, seen: &mut Seen) {
        let table = self.table;
        let rooms = (table.leaves, ROOM);
        let by = |table, index| expected(Ok(table), margin, index, self.table.leaves);
        let expected = by(table, &self.index);
        let Ok((found, _)) = expected.answer else {
            return;
        };
        hold_to(tally, self.text, margin, &self.index, rooms, &expected);
        keeps_its_promises(table, &self.worths, margin, found, &expected.leaves);

        let mut text = self.text.to_vec();
        change_unread(&mut text, table, &expected.leaves, random);
        let other = second::read(&text).expect("valid still");
        assert_eq!(Index::of(&other), self.index, "{}", escaped(&text));
        hold_to(tally, &text, margin, &self.index, rooms, &expected);
        assert_eq!(by(&other, &self.index), expected, "{}", escaped(&text));
        let worths = second::worths(&other);
        keeps_its_promises(&other, &worths, margin, found, &expected.leaves);
        seen.count("other unread leaves", other != *table);
        let moved = worths[0] != self.worths[0];
        seen.count("another worth by unread leaves", moved);

        let mirrored = expected.turned();
        let (turned, index) = (&self.turned, &self.turned_index);
        hold_to(tally, &self.turned_text, margin, index, rooms, &mirrored);
        assert_eq!(by(turned, index), mirrored, "{}", escaped(self.text));

        // The table's ends have no part in it.
        let mut text = self.text.to_vec();
        change_ends(&mut text, table, random);
        let between = second::read(&text).expect("valid still");
        hold_to(tally, &text, margin, &self.index, rooms, &expected);
        assert_eq!(by(&between, &self.index), expected, "{}", escaped(&text));
        let ends = (between.lowest, between.highest);
        seen.count("other ends", ends != (table.lowest, table.highest));

        count_answer(seen, table, margin, found);
        self.count_plain(seen, margin, &expected);
    }

    /// Counts how the search does next to the one without an index.
    fn count_plain(&self, seen: &mut Seen, margin: i64, expected: &Expected) {
        let table = self.table;
        let plain = Expected::by(Ok(table), Terms::of(margin), table.leaves);
        let (read, without) = (expected.leaves.len(), plain.leaves.len());
        seen.count("fewer leaves than without an index", read < without);
        seen.count("as many leaves", read == without);
        seen.count("more leaves", read > without);
        seen.count("the answer without an index", *expected == plain);
        let (found, _) = expected.answer.expect("an answer");
        let (other, _) = plain.answer.expect("an answer");
        seen.count("another play", found.play != other.play);
        let better = found.low > other.low || found.high < other.high;
        seen.count("a better bound", better);
        let worse = found.low < other.low || found.high > other.high;
        seen.count("a worse bound", worse);
    }
}

/// Gives leaves that were not read other utilities so that the index stays the same: each is
/// between the ends of the line above it, and each end of a line stays that of some leaf.
pub fn change_unread(text: &mut [u8], table: &Table, read: &[u16], random: &mut Random) {
    let ends = ends_under(table);
    let above = |node: usize| std::iter::successors(table.nodes[node].parent, parent_in(table));
    let mut utilities: Vec<Option<i64>> = table.nodes.iter().map(|node| node.utility).collect();
    // How many leaves under a line are at its low, and at its high.
    let mut holders = vec![(0, 0); table.nodes.len()];
    for (leaf, utility) in utilities.iter().enumerate() {
        for line in above(leaf) {
            holders[line].0 += i32::from(*utility == Some(ends[line].low));
            holders[line].1 += i32::from(*utility == Some(ends[line].high));
        }
    }
    // Leaves are read in line order.
    let is_read = |leaf: usize| read.binary_search(&(leaf as u16)).is_ok();
    let mut unread: Vec<usize> = (0..table.nodes.len()).collect();
    unread.retain(|leaf| utilities[*leaf].is_some() && !is_read(*leaf));
    // Twice, as one leaf may take the end that another then leaves.
    for leaf in [&unread[..], &unread[..]].concat() {
        // A lone leaf is always read.
        let parent = table.nodes[leaf].parent.expect("a line above it");
        let Bounds { low, high } = ends[parent];
        let new = match random.below(3) {
            0 => low,
            1 => high,
            _ => random.between(low, high),
        };
        let old = utilities[leaf].expect("a leaf");
        let stays = |line: usize| {
            let Bounds { low, high } = ends[line];
            (old != low || new == low || holders[line].0 > 1)
                && (old != high || new == high || holders[line].1 > 1)
        };
        if above(leaf).all(stays) {
            for line in above(leaf) {
                let Bounds { low, high } = ends[line];
                holders[line].0 += i32::from(new == low) - i32::from(old == low);
                holders[line].1 += i32::from(new == high) - i32::from(old == high);
            }
            utilities[leaf] = Some(new);
            put_utility(text, leaf, new);
        }
    }
}

/// The node above a node.
fn parent_in(table: &Table) -> impl Fn(&usize) -> Option<usize> + '_ {
    |node| table.nodes[*node].parent
}

/// Writes other ends in the header, which no utility lies beyond.
fn change_ends(text: &mut [u8], table: &Table, random: &mut Random) {
    let Bounds { low, high } = ends_under(table)[0];
    let lowest = random.pick(&[low, low, -FARTHEST_END, table.lowest]);
    let highest = random.pick(&[high, high, FARTHEST_END, table.highest]);
    put_ends(text, (lowest, highest));
}

// ---------------------------------------------------------------------------
// Other ways
// ---------------------------------------------------------------------------

/// Ways with the ends that Item 14 is not.
const OTHER_ENDS: [(&str, WrongEnds); 7] = [
    ("the child's ends in windows", WrongEnds::ChildInWindows),
    ("the table's ends in windows", WrongEnds::TableInWindows),
    ("the table's ends in sums", WrongEnds::TableInSums),
    ("the table's ends at C", WrongEnds::TableAtChance),
    ("the table's ends at M and N", WrongEnds::TableAtSides),
    ("a beta not lowered at M", WrongEnds::HighAtMax),
    ("an alpha not raised at N", WrongEnds::LowAtMin),
];

/// Ways that it is not either, but that change no answer.
const HARMLESS: [(&str, WrongEnds); 4] = [
    ("alpha past the greatest", WrongEnds::AlphaPastGreatest),
    ("beta past the least", WrongEnds::BetaPastLeast),
    ("the table's ends at the root", WrongEnds::TableAtRoot),
    ("windows met with the ends", WrongEnds::MetWindow),
];

/// Counts where the search with an index to this margin would have answered otherwise: by the
/// other ways with the ends, and by windows that are rounded the wrong way. Fails the test
/// where one of the harmless ways would.
pub fn count_others(seen: &mut Seen, sort: &str, table: &Table, margin: i64) {
    let terms = Terms::indexed(margin);
    let by = |(other, wrong)| {
        let ends = Ends::Wrong(wrong);
        (other, Terms { ends, ..terms })
    };
    count_wrong(seen, sort, table, terms, &OTHER_ENDS.map(by));
    let roundings = OTHER_ROUNDINGS.map(|(other, rounding)| (other, Terms { rounding, ..terms }));
    count_wrong(seen, sort, table, terms, &roundings);
    let mut none = Seen::default();
    let differs = count_wrong(&mut none, sort, table, terms, &HARMLESS.map(by));
    assert!(
        !differs,
        "a way thought harmless is not (DECISIONS, 102): margin {margin}, {table:?}"
    );
}

/// The same by what an engine with T times the numbers of a C may have wrong (Items 4 and 5).
pub fn count_sums(seen: &mut Seen, sort: &str, table: &Table, margin: i64) {
    let terms = Terms::indexed(margin);
    let by = |(other, sums)| (other, Terms { sums, ..terms });
    count_wrong(seen, sort, table, terms, &FAULTS.map(by));
    count_wrong(seen, sort, table, terms, &FAULTS_OF_TOTALS.map(by));
}

/// The margins, from the least, at each of which a cut test of the search with an index just
/// begins to cut.
pub fn turning_points(table: &Table) -> Vec<i64> {
    turning_points_by(table, Terms::indexed)
}

/// The least margins, one of any size, and some about those at which a cut test turns.
pub fn some_margins(random: &mut Random, table: &Table, points: &[i64]) -> Vec<i64> {
    let mut margins = vec![0, random.between(0, span(table))];
    if !points.is_empty() {
        for _ in 0..2 {
            let point = random.pick(points);
            margins.extend([point - 1, point, point + 1]);
        }
    }
    margins
}
