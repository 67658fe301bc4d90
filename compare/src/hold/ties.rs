//! Which play is named where several share the bound that decides (document 02, Item
//! 6): the second engine's play is held to the words of the request, all else to the
//! former rule; and the searches are counted where another rule names another play.

use super::budget::Steps;
use super::searching::Expected;
use super::seen::{Seen, SIDES};
use crate::second::{Bounds, Entered, Found, Kind, Table, Terms, Ties};

/// The plays among which a search chooses.
struct Tie {
    /// Those with the highest low at M, with the lowest high at N, in line order.
    plays: Vec<Entered>,
    /// Those of them with the highest high at M, with the lowest low at N.
    left: Vec<Entered>,
}

impl Tie {
    /// There are no plays at a C or L, nor where none was entered.
    fn of(root: Kind, entered: &[Entered]) -> Tie {
        let (low, high) = (|b: Bounds| b.low, |b: Bounds| b.high);
        let plays = match root {
            Kind::Max => sharing(entered, low, i64::max),
            Kind::Min => sharing(entered, high, i64::min),
            Kind::Chance | Kind::Leaf => Vec::new(),
        };
        let left = match root {
            Kind::Max => sharing(&plays, high, i64::max),
            _ => sharing(&plays, low, i64::min),
        };
        Tie { plays, left }
    }

    /// Whether there are several plays to choose among.
    fn is_one(&self) -> bool {
        self.plays.len() > 1
    }

    /// Whether the other bound leaves fewer of them.
    fn is_broken(&self) -> bool {
        self.left.len() < self.plays.len()
    }

    fn named(&self) -> Option<Entered> {
        self.left.first().copied()
    }
}

/// The plays with the bound that is the best of all.
fn sharing(
    plays: &[Entered],
    bound: fn(Bounds) -> i64,
    better: fn(i64, i64) -> i64,
) -> Vec<Entered> {
    let best = plays.iter().map(|play| bound(play.bounds)).reduce(better);
    let shares = |play: &&Entered| Some(bound(play.bounds)) == best;
    plays.iter().filter(shares).copied().collect()
}

/// Rules that Item 6 is not, for each side.
fn other_rules(side: Kind) -> [(&'static str, Ties); 3] {
    let worst = match side {
        Kind::Max => ("the one with the lowest high", Ties::LowestHighAtMax),
        _ => ("the one with the highest low", Ties::HighestLowAtMin),
    };
    [
        ("the first", Ties::First),
        ("the last of those left", Ties::Last),
        worst,
    ]
}

/// Holds the second engine's play to Item 6, and all else in its answer to what other
/// rules give. Counts the ties there were, and returns whether there was one.
pub fn hold(seen: &mut Seen, table: &Table, terms: Terms) -> bool {
    let by = |ties| Expected::by(Ok(table), Terms { ties, ..terms }, table.leaves);
    let expected = by(Ties::Safer);
    // The rule of Item 6 is the usual one.
    assert_eq!(by(terms.ties), expected, "{terms:?}");
    let (found, _) = expected.answer.expect("an answer");
    let steps = Steps::of(table, terms);
    let root = table.nodes[0].kind;
    let tie = Tie::of(root, &steps.entered);
    assert_eq!(found.play, tie.named().map(|play| play.node), "{terms:?}");

    for side in SIDES {
        let mut count = |sort: &str, is_one: bool| {
            seen.count(&format!("{sort} at {side:?}"), root == side && is_one);
        };
        for (rule, ties) in other_rules(side) {
            let mut other = by(ties);
            let (named, _) = other.answer.as_mut().expect("an answer");
            let another = named.play != found.play;
            count(&format!("another play than {rule}"), another);
            // Where no plays tie, all rules name the same. Bounds and leaves are
            // compared as before.
            assert!(tie.is_one() || !another, "{terms:?}, {ties:?}");
            named.play = found.play;
            assert_eq!(other, expected, "{terms:?}, {ties:?}");
        }
        count("a tie", tie.is_one());
        count("a tie of three or more", tie.plays.len() > 2);
        count("a tie of equal bounds", tie.is_one() && !tie.is_broken());
        count("a tie broken", tie.is_broken());
        count(AWAY, tie.is_broken() && !at_end(table, found));
        count(BEHIND, is_behind(root, &tie, &steps.entered));
        if terms.budget.is_some() {
            count_unread(&mut count, &tie, &steps, found);
        }
    }
    tie.is_one()
}

/// How the sorts begin that count ties broken in favour of a later play, where before it
/// stands one that has no part in the tie but as good an other bound. An engine that
/// remembers the best of these bounds, and not that of the play to name, goes wrong there.
pub const BEHIND: &str = "a tie broken behind a play that could turn out as well";

fn is_behind(root: Kind, tie: &Tie, entered: &[Entered]) -> bool {
    let Some(named) = tie.named().filter(|named| tie.plays[0] != *named) else {
        return false;
    };
    let before = entered.iter().take_while(|play| **play != named);
    let mut others = before.filter(|play| !tie.plays.contains(play));
    others.any(|play| match root {
        Kind::Max => play.bounds.high >= named.bounds.high,
        _ => play.bounds.low <= named.bounds.low,
    })
}

/// How the sorts begin that count ties broken where the bound which decides is no end.
pub const AWAY: &str = "a tie broken away from the end";

/// Whether the bound that decides is still an end.
fn at_end(table: &Table, found: Found) -> bool {
    match table.nodes[0].kind {
        Kind::Max => found.low == table.lowest * table.grains,
        _ => found.high == table.highest * table.grains,
    }
}

/// Counts the ties with plays met unread, and those within the budget and past it.
fn count_unread(count: &mut dyn FnMut(&str, bool), tie: &Tie, steps: &Steps, found: Found) {
    let unread = |play: &Entered| steps.unread.contains(&play.node);
    let with_unread = tie.is_one() && tie.plays.iter().any(unread);
    let named = tie.named().is_some_and(|named| unread(&named));
    count("a tie with a play met unread", with_unread);
    count("a play met unread named", named);
    let not_named = with_unread && !named;
    count("a play met unread that one before is as good as", not_named);
    count("a tie, the budget spent", tie.is_one() && found.spent);
    count("a tie, the budget not spent", tie.is_one() && !found.spent);
}
