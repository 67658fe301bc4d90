//! The search with a leaf budget (document 02, Item 3): all that is held of a search
//! without one, and what it promises beside that search.

use super::numbers::ROOM;
use super::searching::{
    self, change_unread, count_list, hold_call, margins, Expected, Lengths, PATTERN,
};
use super::seen::{Seen, ROOTS, SIDES};
use super::tally::Tally;
use super::{code, span};
use crate::engine;
use crate::random::Random;
use crate::second::{
    self, Entered, Found, Kind, Refusal, Step, Table, Terms, GREATEST_BUDGET, GREATEST_MARGIN,
    MOST_NODES,
};
use crate::texts::examples::escaped;

/// What a call is asked for.
#[derive(Clone, Copy, Debug)]
pub struct Asked {
    pub margin: i64,
    pub budget: i64,
}

impl Asked {
    pub fn terms(self) -> Terms {
        Terms::within(self.margin, self.budget)
    }

    fn is_no_margin(self) -> bool {
        !(0..=GREATEST_MARGIN).contains(&self.margin)
    }

    fn is_no_budget(self) -> bool {
        !(0..=GREATEST_BUDGET).contains(&self.budget)
    }
}

/// The budget where none is named.
pub const NONE: i64 = GREATEST_BUDGET;

/// Holds the proved engine to this, with a leaf list and numbers of these lengths.
pub fn hold_to(
    tally: &Tally,
    text: &[u8],
    asked: Asked,
    (room, numbers): (usize, usize),
    expected: &Expected,
) {
    let Asked { margin, budget } = asked;
    let asked =
        format_args!("the search with margin {margin}, budget {budget} and a list of {room}");
    hold_call(
        tally,
        text,
        asked,
        (room, numbers),
        expected,
        |list, lent| engine::search_within(text, margin, budget, list, lent),
    );
}

/// Compares the two engines on texts, margins and budgets.
pub struct Comparison {
    pub tally: Tally,
    /// What the calls on accepted tables, the calls on refused ones and the answers
    /// were like.
    pub calls: Seen,
    pub of_refused: Seen,
    pub answers: Seen,
    lengths: Lengths,
}

impl Comparison {
    pub fn new(name: &'static str) -> Comparison {
        Comparison {
            tally: Tally::new(name),
            calls: Seen::default(),
            of_refused: Seen::default(),
            answers: Seen::default(),
            lengths: Lengths::default(),
        }
    }

    /// Gives a text to both engines with all that `asked` chooses; it is told the
    /// table, or nothing where the text is refused. Fails the test unless the engines
    /// agree and the answers keep what the search promises.
    pub fn hold(
        &mut self,
        text: &[u8],
        random: &mut Random,
        asked: impl FnOnce(Option<&Table>, &mut Random) -> Vec<Asked>,
    ) -> Result<Table, Refusal> {
        let table = second::read(text);
        let subject = table.as_ref().ok().map(|table| Subject::new(text, table));
        let mut codes = Vec::new();
        for asked in asked(table.as_ref().ok(), random) {
            for (room, numbers) in self.lengths.next(table.as_ref().ok()) {
                let expected = Expected::by(table.as_ref(), asked.terms(), room);
                hold_to(&self.tally, text, asked, (room, numbers), &expected);
                codes.push(code(&expected.answer));
                match &table {
                    Ok(table) => self.count_call(asked, room, numbers, table),
                    Err(_) => {
                        let both = asked.is_no_margin() && asked.is_no_budget();
                        let sort = "refused before 12 and 17 could be";
                        self.of_refused.count(sort, both);
                    }
                }
            }
            if let Some(subject) = &subject {
                subject.hold(&self.tally, asked, random, &mut self.answers);
            }
        }
        self.tally.add(&codes);
        if let Ok(table) = &table {
            self.tally.add_table(table);
        }
        table
    }

    /// Counts the lengths lent, and what else would have been refused: 12 comes before
    /// 17, and 17 before 11.
    fn count_call(&mut self, asked: Asked, room: usize, numbers: usize, table: &Table) {
        let seen = &mut self.calls;
        count_list(seen, room, table.leaves);
        for length in 0..=ROOM {
            seen.count(&format!("room for {length} numbers"), numbers == length);
        }
        let (margin, budget) = (asked.is_no_margin(), asked.is_no_budget());
        let short = room < table.leaves;
        seen.count("12 alone", margin && !budget && !short);
        seen.count("12, and 17 could be", margin && budget && !short);
        seen.count("12, and 11 could be", margin && !budget && short);
        seen.count("12, and 17 and 11 could be", margin && budget && short);
        seen.count("17 alone", !margin && budget && !short);
        seen.count("17, and 11 could be", !margin && budget && short);
        let eleven = !margin && !budget && short;
        let enough = eleven && asked.budget <= room as i64;
        seen.count("11, and the list had room for the budget", enough);
        seen.count("11 with budget 0", eleven && asked.budget == 0);
        for (sort, number) in [
            ("budget -1", -1),
            ("budget 1,025", GREATEST_BUDGET + 1),
            ("the least budget", i64::MIN),
            ("the greatest budget", i64::MAX),
        ] {
            seen.count(sort, asked.budget == number);
        }
        seen.count("budget 0", !margin && asked.budget == 0);
        let greatest = asked.budget == GREATEST_BUDGET;
        seen.count("budget 1,024", !margin && greatest);
    }
}

/// An accepted table, its worths and the same turned.
struct Subject<'a> {
    text: &'a [u8],
    table: &'a Table,
    worths: Vec<i64>,
    turned_text: Vec<u8>,
    turned: Table,
}

impl Subject<'_> {
    fn new<'a>(text: &'a [u8], table: &'a Table) -> Subject<'a> {
        let mut turned_text = vec![0; text.len()];
        second::turn(text, &mut turned_text).expect("a buffer of its length");
        Subject {
            text,
            table,
            worths: second::worths(table),
            turned: second::read(&turned_text).expect("valid too"),
            turned_text,
        }
    }

    /// Holds the answer to what it promises, and both engines to the same answer with
    /// other utilities in the leaves that were not read, and to that in a mirror on
    /// the turned table.
    fn hold(&self, tally: &Tally, asked: Asked, random: &mut Random, seen: &mut Seen) {
        let table = self.table;
        let by = |table, terms| Expected::by(Ok(table), terms, self.table.leaves);
        let expected = by(table, asked.terms());
        let Ok((found, _)) = expected.answer else {
            return;
        };
        let plain = by(table, Terms::of(asked.margin));
        keeps_to_the_plain_search(asked, &expected, &plain);
        keeps_its_bounds(table, &self.worths, found);

        let room = (table.leaves, ROOM);
        let mut text = self.text.to_vec();
        change_unread(&mut text, table, &expected.leaves, random);
        let other = second::read(&text).expect("valid still");
        hold_to(tally, &text, asked, room, &expected);
        assert_eq!(by(&other, asked.terms()), expected);
        let worths = second::worths(&other);
        keeps_its_bounds(&other, &worths, found);

        let mirrored = expected.turned();
        hold_to(tally, &self.turned_text, asked, room, &mirrored);
        assert_eq!(by(&self.turned, asked.terms()), mirrored);

        hold_default(tally, self.text, asked.margin, table.leaves);

        seen.count("other unread leaves", other != *table);
        let moved = worths[0] != self.worths[0];
        seen.count("another worth by unread leaves", moved);
        count_budget(seen, asked, found, &plain);
        count_unread(seen, table, asked, found);
        count_answer(seen, table, &self.worths, asked, found);
    }
}

/// The proved search without a budget gives what it gives with the greatest.
fn hold_default(tally: &Tally, text: &[u8], margin: i64, room: usize) {
    let mut plain = (vec![PATTERN; room], vec![-1; ROOM]);
    let mut within = plain.clone();
    let codes = [
        engine::search(text, margin, &mut plain.0, &mut plain.1),
        engine::search_within(text, margin, GREATEST_BUDGET, &mut within.0, &mut within.1),
    ];
    let seed = tally.seed;
    assert_eq!(codes[0], codes[1], "seed {seed}, margin {margin}");
    assert_eq!(plain, within, "seed {seed}, margin {margin}");
}

/// Where the search without a budget reads no more leaves, the answer is the same in
/// every part; otherwise the budget is spent, and the leaves read are the first of
/// that search's.
fn keeps_to_the_plain_search(asked: Asked, expected: &Expected, plain: &Expected) {
    let (found, _) = expected.answer.expect("an answer");
    let budget = asked.budget as usize;
    assert_eq!(found.spent, plain.leaves.len() > budget, "{asked:?}");
    if found.spent {
        assert_eq!(expected.leaves, plain.leaves[..budget], "{asked:?}");
    } else {
        assert_eq!(expected, plain, "{asked:?}");
    }
}

/// No bound is past the exact worth, nor past the worth of the play on its side: low at
/// M, high at N. A child of the root is named at every M or N where a leaf was read.
fn keeps_its_bounds(table: &Table, worths: &[i64], found: Found) {
    let bounds = found.low..=found.high;
    assert!(bounds.contains(&worths[0]), "{found:?}, {}", worths[0]);
    let root = table.nodes[0].kind;
    let names = SIDES.contains(&root) && found.read > 0;
    assert_eq!(found.play.is_some(), names, "{found:?}");
    if let Some(play) = found.play {
        assert_eq!(table.nodes[play].parent, Some(0), "{found:?}");
        match root {
            Kind::Max => assert!(worths[play] >= found.low, "{found:?}"),
            _ => assert!(worths[play] <= found.high, "{found:?}"),
        }
    }
}

fn count_budget(seen: &mut Seen, asked: Asked, found: Found, plain: &Expected) {
    let (without, _) = plain.answer.expect("an answer");
    let (budget, read) = (asked.budget, without.read as i64);
    seen.count("spent", found.spent);
    seen.count("not spent", !found.spent);
    seen.count("as many as are read, not spent", budget == read);
    seen.count("one fewer, spent", budget + 1 == read && found.spent);
    seen.count("one more, not spent", budget == read + 1);
    let other = found.play.is_some() && found.play != without.play;
    seen.count("another play than without a budget", other);
}

/// Counts where nodes were met with no read left, and what came after them.
fn count_unread(seen: &mut Seen, table: &Table, asked: Asked, found: Found) {
    let steps = Steps::of(table, asked.terms());
    let (root, nodes) = (table.nodes[0].kind, &table.nodes);
    assert_eq!(found.spent, !steps.unread.is_empty());
    for kind in ROOTS {
        let here = root == kind && steps.unread == [0];
        seen.count(&format!("root {kind:?} met unread"), here);
    }
    let below = || steps.unread.iter().filter(|node| **node > 0);
    let is_leaf = |node: &usize| nodes[*node].kind == Kind::Leaf;
    seen.count("a leaf met unread", below().any(is_leaf));
    seen.count("an inner node met unread", !below().all(is_leaf));
    for kind in INNER {
        let under = |node: &usize| nodes[*node].parent.is_some_and(|p| nodes[p].kind == kind);
        let sort = format!("a node met unread under {kind:?}");
        seen.count(&sort, below().any(under));
        // A cut after such a child changes no answer, as what it leaves out would be met
        // unread; those before count for more. This is so at the root too: a play met
        // unread may be named only where the bound that decides is still an end, and a
        // margin that cuts there is as wide as the ends, so that one leaf is all it reads.
        for (when, unread) in [(" while reads are left", false), (AFTER_UNREAD, true)] {
            let tests = || steps.tests.iter().filter(|test| test.unread == unread);
            let mut count = |sort: &str, is_one: &dyn Fn(i64) -> bool| {
                let here = tests().any(|test| test.kind == kind && is_one(test.gap));
                let sort = format!("{kind:?} {sort}{when}");
                seen.count(&sort, found.spent && here);
            };
            count("cut", &|gap| gap <= asked.margin);
            count("just cut", &|gap| gap == asked.margin);
            count("just not cut", &|gap| gap == asked.margin + 1);
        }
    }
    let unread_play = below().find(|node| nodes[**node].parent == Some(0));
    let named_unread = found.play.is_some_and(|play| steps.unread.contains(&play));
    for side in SIDES {
        let mut count = |sort: &str, is_one: bool| {
            seen.count(&format!("{sort} at {side:?}"), root == side && is_one);
        };
        let within = |node: &usize| {
            let under = |play: usize| (play + 1..nodes[play].stop).contains(node);
            found.play.is_some_and(under)
        };
        count("a node met unread under the play", below().any(within));
        count("a play met unread", unread_play.is_some());
        count("a play met unread named", named_unread);
    }
    // A play met unread has the two ends as its bounds, so it is named only where the
    // bound that decides is still an end, and the first of several (Item 6).
    if named_unread {
        assert_eq!(found.play, unread_play.copied(), "{found:?}");
        let end = match root {
            Kind::Max => found.low == table.lowest * table.grains,
            _ => found.high == table.highest * table.grains,
        };
        assert!(end, "{found:?}");
    }
}

fn count_answer(seen: &mut Seen, table: &Table, worths: &[i64], asked: Asked, found: Found) {
    let width = found.high - found.low;
    seen.count("bounds wider than the margin", width > asked.margin);
    let within = found.spent && width <= asked.margin && found.read > 0;
    seen.count("spent, and bounds within the margin", within);
    let ends = width == span(table) && found.read > 0 && width > 0;
    seen.count("bounds still at the ends", ends);
    let loses = |play: usize| (worths[play] - worths[0]).abs() > asked.margin;
    let past = found.play.is_some_and(loses);
    seen.count("a play past the margin", past);
}

/// How the sorts end that count cut tests after a child with a node met unread.
pub const AFTER_UNREAD: &str = " after a child with a node met unread";

/// The kinds of nodes with children.
const INNER: [Kind; 3] = [Kind::Max, Kind::Min, Kind::Chance];

/// The steps of a search.
pub struct Steps {
    /// The nodes met when no read was left.
    pub unread: Vec<usize>,
    pub tests: Vec<Test>,
    /// The root's children that were entered, in line order.
    pub entered: Vec<Entered>,
}

/// A cut test.
#[derive(Clone, Copy, Debug)]
pub struct Test {
    /// Of the node.
    pub kind: Kind,
    /// Beta minus alpha.
    pub gap: i64,
    /// Whether the child before it has a node in it that was met unread.
    pub unread: bool,
}

impl Steps {
    pub fn of(table: &Table, terms: Terms) -> Steps {
        let (mut unread, mut tests, mut entered) = (Vec::new(), Vec::new(), Vec::new());
        let mut list = [PATTERN; MOST_NODES];
        let searched = second::search_watched(table, terms, &mut list, |step| match step {
            Step::Unread(node) => {
                let parent = table.nodes[node].parent;
                assert!(parent.is_none_or(|p| p + 1 < node), "a first child");
                unread.push(node);
            }
            Step::Test(node, window) => {
                let gap = window.beta - window.alpha;
                // Once a node was met unread, all later ones are.
                let last = unread.last();
                if last.is_some_and(|&child| table.nodes[child].parent == Some(node)) {
                    // The child has left the window as it was at the test before.
                    assert!(gap > terms.margin, "cut by a child met unread");
                }
                tests.push(Test {
                    kind: table.nodes[node].kind,
                    gap,
                    unread: last.is_some(),
                });
            }
            Step::Play(play) => entered.push(play),
        });
        searched.expect("an answer");
        Steps {
            unread,
            tests,
            entered,
        }
    }
}

/// The margins, from the least, at each of which a cut test of the search within this
/// budget, or without one, just begins to cut.
pub fn turning_points(table: &Table, budget: Option<i64>) -> Vec<i64> {
    turning_points_by(table, |margin| Terms {
        budget,
        ..Terms::of(margin)
    })
}

/// The same for the searches by these terms.
pub fn turning_points_by(table: &Table, terms: impl Fn(i64) -> Terms) -> Vec<i64> {
    let next = |margin: i64| {
        let tests = Steps::of(table, terms(margin)).tests;
        let gaps = tests.iter().map(|test| test.gap);
        gaps.filter(|gap| *gap > margin).min()
    };
    std::iter::successors(next(0), |margin| next(*margin)).collect()
}

/// An answer in short: the margin and the budget; low, high, the play's node and
/// whether the budget was spent; and the leaves read.
pub type Known = ((i64, i64), (i64, i64, usize, bool), &'static [u16]);

/// Texts, each with what is asked of it and what must come of that; and of the text
/// turned. A text has its grains in a point beside it.
pub fn known(tables: &[(Vec<u8>, i64, &[Known])]) -> Vec<(Vec<u8>, Asked, Expected)> {
    let mut all = Vec::new();
    for (text, grains, answers) in tables {
        let mut turned = text.clone();
        second::turn(text, &mut turned).expect("a valid table");
        for ((margin, budget), (low, high, play, spent), leaves) in answers.iter().copied() {
            let mut expected = Expected::known(low, high, play, leaves, *grains);
            let (found, _) = expected.answer.as_mut().expect("an answer");
            *found = Found { spent, ..*found };
            let asked = Asked { margin, budget };
            all.push((turned.clone(), asked, expected.turned()));
            all.push((text.clone(), asked, expected));
        }
    }
    all
}

/// The second engine has the known answers.
pub fn second_has(known: &[(Vec<u8>, Asked, Expected)]) {
    for (text, asked, expected) in known {
        let table = second::read(text).expect("accepted");
        let got = Expected::by(Ok(&table), asked.terms(), table.leaves);
        assert_eq!(got, *expected, "{asked:?}\n{}", escaped(text));
    }
}

/// The proved engine has the known answers, whatever the second says, with lists and
/// numbers of all lengths; where no budget is named, it has them without one too.
pub fn hold_known(name: &'static str, known: &[(Vec<u8>, Asked, Expected)]) {
    let mut comparison = Comparison::new(name);
    let mut random = Random::new(1);
    for (text, asked, expected) in known {
        let leaves = second::read(text).expect("accepted").leaves;
        for room in leaves..leaves + 3 {
            for numbers in 0..=ROOM {
                let tally = &comparison.tally;
                hold_to(tally, text, *asked, (room, numbers), expected);
                if asked.budget == NONE {
                    searching::hold_to(tally, text, asked.margin, room, numbers, expected);
                }
            }
        }
        let held = comparison.hold(text, &mut random, |_, _| vec![*asked]);
        held.expect("accepted");
    }
    comparison.tally.report();
}

/// Margins with budgets for a table: fewer leaves than the search reads, as many or
/// more, and some that are refused.
pub fn questions(random: &mut Random, table: &Table, count: usize) -> Vec<Asked> {
    let margins = margins(random, table);
    let mut questions = Vec::with_capacity(count);
    for _ in 0..count {
        let margin = random.pick(&margins);
        let plain = Expected::by(Ok(table), Terms::of(margin), table.leaves);
        let budget = budget(random, plain.leaves.len() as i64);
        questions.push(Asked { margin, budget });
    }
    questions
}

/// Three of these margins, each with two budgets, which most often end before the search
/// does.
pub fn questions_at(random: &mut Random, table: &Table, margins: &[i64]) -> Vec<Asked> {
    let mut questions = Vec::new();
    for _ in 0..3 {
        let margin = random.pick(margins);
        let plain = Expected::by(Ok(table), Terms::of(margin), table.leaves);
        let read = plain.leaves.len() as i64;
        for _ in 0..2 {
            let budget = match random.below(5) {
                0 => random.pick(&[0, read, read + 1, GREATEST_BUDGET]),
                _ => random.between(1, read),
            };
            questions.push(Asked { margin, budget });
        }
    }
    questions
}

/// A budget where the search without one reads so many leaves.
fn budget(random: &mut Random, read: i64) -> i64 {
    match random.below(8) {
        0 => random.pick(&[0, 1, GREATEST_BUDGET]),
        1 => read,
        2 => (read - 1).max(0),
        3 => read + 1,
        4 => no_budget(random),
        5 => random.between(0, GREATEST_BUDGET),
        _ => random.between(0, read),
    }
}

/// A budget that is refused.
pub fn no_budget(random: &mut Random) -> i64 {
    let any = random.between(0, GREATEST_BUDGET);
    match random.below(7) {
        0 => -1,
        1 => GREATEST_BUDGET + 1,
        2 => i64::MIN,
        3 => i64::MAX,
        // Two that would be allowed if bits were lost.
        4 => any ^ (-1 << random.pick(&[11, 16, 31, 32, 63])),
        5 => any + (1 << random.pick(&[11, 16, 31, 32, 62])),
        // No budget has this bit.
        _ => random.bits() as i64 | (1 << 11),
    }
}
