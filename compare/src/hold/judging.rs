//! Judging: the refusal and its line, "no decision", or the loss and the number
//! of level children; and that all else in the lent numbers is left as it was.

use super::numbers::{agree, ROOM};
use super::seen::{Seen, ROOTS, SIDES};
use super::tally::Tally;
use super::{best_plays, code};
use crate::engine;
use crate::second::{self, root_children, Judgement, Kind, Refusal, Table};

/// Compares the two engines on texts and numbers played.
pub struct Comparison {
    pub tally: Tally,
    pub seen: Seen,
}

impl Comparison {
    pub fn new(name: &'static str) -> Comparison {
        Comparison {
            tally: Tally::new(name),
            seen: Seen::default(),
        }
    }

    /// Gives a text to both engines with each number that `plays` chooses. It
    /// is told how many children the root has, or nothing where the table is
    /// refused. The proved engine has room to spare for its numbers; half of the
    /// calls are made once more with room for 0 to 3. Fails the test unless the
    /// engines agree.
    pub fn hold(
        &mut self,
        text: &[u8],
        plays: impl FnOnce(Option<usize>) -> Vec<i64>,
    ) -> Result<Table, Refusal> {
        let table = second::read(text);
        let plays = plays(table.as_ref().ok().map(root_children));
        let mut answers = Vec::with_capacity(plays.len());
        for number in plays {
            let answer = match &table {
                Ok(table) => second::judge(table, number),
                Err(refusal) => Err(*refusal),
            };
            hold_to(&self.tally, text, number, ROOM, &answer);
            let turn = (self.tally.cases as usize + answers.len()) % 8;
            if turn <= 3 {
                hold_to(&self.tally, text, number, turn, &answer);
            }
            answers.push((number, answer));
        }
        let codes: Vec<u64> = answers.iter().map(|(_, answer)| code(answer)).collect();
        self.tally.add(&codes);
        if let Ok(table) = &table {
            self.tally.add_table(table);
            self.seen.count_root(&ROOTS, table);
            self.seen.count_choice(table);
            count(&mut self.seen, table, &answers);
        }
        table
    }
}

/// A number played, and what was answered.
type Answer = (i64, Result<Judgement, Refusal>);

/// Holds the proved engine to this answer.
pub fn hold_to(
    tally: &Tally,
    text: &[u8],
    number: i64,
    room: usize,
    answer: &Result<Judgement, Refusal>,
) {
    let written = match *answer {
        Ok(Judgement::Loss { grains, level }) => &[1, grains, level as i64][..],
        Ok(Judgement::NoDecision) => &[0],
        Err(_) => &[],
    };
    let asked = format_args!("the play of number {number}");
    agree(tally, text, asked, room, (code(answer), written), |lent| {
        engine::judge(text, number, lent)
    });
}

/// Counts what the answers for a table are like: "no decision" at a root C or L
/// and where the play is forced (document 02, Item 2), and nowhere else.
fn count(seen: &mut Seen, table: &Table, answers: &[Answer]) {
    let (mut none, mut losses, mut refused) = (Vec::new(), Vec::new(), 0);
    for &(number, answer) in answers {
        match answer {
            Ok(Judgement::NoDecision) => none.push(number),
            Ok(Judgement::Loss { grains, level }) => losses.push((grains, level)),
            Err(refusal) => {
                assert_eq!((refusal.number, refusal.line), (14, 0));
                refused += 1;
            }
        }
    }
    let (root, children) = (table.nodes[0].kind, root_children(table));
    let choice = SIDES.contains(&root) && children > 1;
    let expected = if choice { 0 } else { answers.len() };
    assert_eq!(none.len(), expected, "{root:?} with {children} children");

    for kind in [Kind::Chance, Kind::Leaf] {
        let found = if root == kind { none.len() } else { 0 };
        seen.add(&format!("no decision at {kind:?}"), found as u64);
    }
    seen.count_forced(table, &none);
    for kind in SIDES {
        let here = root == kind && children == 2;
        let found = if here { refused } else { 0 };
        seen.add(&format!("14 at {kind:?} with two children"), found);
    }
    count_losses(seen, table, &losses);
    count_level(seen, table, &losses);
}

/// A loss, and the number of level children that was answered with it.
type Loss = (i64, usize);

/// Counts what losses are like.
fn count_losses(seen: &mut Seen, table: &Table, losses: &[Loss]) {
    let point = table.grains;
    for (grains, _) in losses {
        assert!(*grains >= 0, "a play lost {grains}");
    }
    let lost = |least, most| {
        let range = least..=most;
        let found = losses.iter().filter(|(grains, _)| range.contains(grains));
        found.count() as u64
    };
    for kind in SIDES {
        let here = table.nodes[0].kind == kind;
        let mut add = |sort: &str, found| {
            let found = if here { found } else { 0 };
            seen.add(&format!("{sort} at {kind:?}"), found);
        };
        add("no loss", lost(0, 0));
        add("less than a point lost", lost(1, point - 1));
        add("a point lost", lost(point, point));
        add("more lost", lost(point + 1, i64::MAX));
    }
}

/// The sort of answers whose number of level children would be another by document
/// 01's older rule, which asked for a loss of less than a point.
pub const OLDER: &str = "another number by the older rule";

/// Counts the tables by how close their plays are, and holds the number of level
/// children to the worths: it is that of the plays worth as much as the root
/// (document 02, Item 8).
fn count_level(seen: &mut Seen, table: &Table, losses: &[Loss]) {
    let (root, children) = (table.nodes[0].kind, root_children(table));
    let choice = SIDES.contains(&root) && children > 1;
    let worths = second::worths(table);
    let plays = table.nodes.iter().zip(&worths);
    let plays = plays.filter(|(node, _)| choice && node.parent == Some(0));
    let apart: Vec<i64> = plays.map(|(_, worth)| (worths[0] - worth).abs()).collect();

    let level = best_plays(table, &worths);
    for (_, answered) in losses {
        assert_eq!(*answered, level, "level of {children}");
    }
    let point = table.grains;
    let older = apart.iter().filter(|grains| **grains < point).count();
    for kind in SIDES {
        let here = choice && root == kind;
        let mut count = |sort: &str, is_one| {
            seen.count(&format!("{sort} at {kind:?}"), here && is_one);
        };
        count("one play level", level == 1);
        count("equal plays, not all", 1 < level && level < children);
        count("all plays equal", level == children);
        count("a grain apart", point > 1 && apart.contains(&1));
        count("less than a point apart", older > level);
        let answers = if here && older > level {
            losses.len()
        } else {
            0
        };
        seen.add(&format!("{OLDER} at {kind:?}"), answers as u64);
    }
}
