//! The bounded search, Algorithm 1 of document 000 in grains, with its leaf budget
//! (document 02, Item 3), its choice among equal plays (Item 6) and the ends that it has
//! at each line, the table's or the line's own (Item 14): refusals 12, 17 and 11.
//!
//! The faults that tests count are in modules of their own.

mod sums;
mod wrong_ends;

pub use sums::Sums;
pub use wrong_ends::WrongEnds;

use super::index::ends_under;
use super::table::*;

/// The greatest margin, in grains.
pub const GREATEST_MARGIN: i64 = 40_000_000_000_000;

/// The greatest budget, in leaves.
pub const GREATEST_BUDGET: i64 = 1_024;

/// What the search found.
#[derive(Clone, Copy, Debug, PartialEq, Eq)]
pub struct Found {
    pub low: i64,
    pub high: i64,
    /// The root child to play, the only one too; none at a root C or L, or where no
    /// leaf may be read.
    pub play: Option<usize>,
    /// How many leaves were read. Their node numbers stand first in the list.
    pub read: usize,
    /// Whether a node was met when no read was left.
    pub spent: bool,
}

/// Searches a table to within a margin. The list must have room for all leaves
/// of the table; it gets the node number of each leaf as it is read.
pub fn search(table: &Table, margin: i64, leaves: &mut [u16]) -> Result<Found, Refusal> {
    search_watched(table, Terms::of(margin), leaves, |_| {})
}

/// The same search, which reads no more leaves than the budget. The list must have
/// room for all leaves all the same.
pub fn search_within(
    table: &Table,
    margin: i64,
    budget: i64,
    leaves: &mut [u16],
) -> Result<Found, Refusal> {
    search_watched(table, Terms::within(margin, budget), leaves, |_| {})
}

/// What a search is asked for.
#[derive(Clone, Copy, Debug)]
pub struct Terms {
    /// In grains.
    pub margin: i64,
    /// In leaves; none where there is no budget.
    pub budget: Option<i64>,
    pub rounding: Rounding,
    pub ties: Ties,
    pub sums: Sums,
    pub ends: Ends,
}

impl Terms {
    /// Without a budget.
    pub fn of(margin: i64) -> Terms {
        Terms {
            margin,
            budget: None,
            rounding: Rounding::Outward,
            ties: Ties::Safer,
            sums: Sums::Right,
            ends: Ends::Table,
        }
    }

    /// With the table's index, and without a budget.
    pub fn indexed(margin: i64) -> Terms {
        Terms {
            ends: Ends::Own,
            ..Terms::of(margin)
        }
    }

    pub fn within(margin: i64, budget: i64) -> Terms {
        Terms {
            budget: Some(budget),
            ..Terms::of(margin)
        }
    }
}

/// What a line has for Algorithm 1's least and greatest values.
#[derive(Clone, Copy, Debug, PartialEq, Eq)]
pub enum Ends {
    /// The table's ends.
    Table,
    /// The lowest and the highest utility under the line (document 02, Item 14).
    Own,
    /// The same with a fault.
    Wrong(WrongEnds),
}

/// How the quotients of lines 9 and 10 are rounded. Document 01 wants them outward,
/// alpha down and beta up; the other ways are there for tests to count where one
/// would have changed an answer.
#[derive(Clone, Copy, Debug, PartialEq, Eq)]
pub enum Rounding {
    Outward,
    /// Alpha inward, beta outward.
    AlphaUp,
    /// Beta inward, alpha outward.
    BetaDown,
}

/// Which play is named where several share the highest low at an M root, or the lowest
/// high at an N root. Document 02, Item 6 wants the safer; the other ways are there for
/// tests to count where one would have named another play.
#[derive(Clone, Copy, Debug, PartialEq, Eq)]
pub enum Ties {
    /// Item 6: at M the one with the highest high, at N the one with the lowest low; of
    /// several such the first.
    Safer,
    /// Document 01 alone: the first.
    First,
    /// As Item 6, but of several such the last.
    Last,
    /// The highest low at N; at M as Item 6.
    HighestLowAtMin,
    /// The lowest high at M; at N as Item 6.
    LowestHighAtMax,
}

impl Ties {
    /// The play at a root of this kind, of those entered in line order; none at a C or
    /// L, or where none was entered.
    fn play(self, root: Kind, entered: &[Entered]) -> Option<usize> {
        // The best play has the least pair of numbers.
        let pair: fn(Bounds) -> (i64, i64) = match (root, self) {
            (Kind::Max, Ties::First) => |found| (-found.low, 0),
            (Kind::Max, Ties::LowestHighAtMax) => |found| (-found.low, found.high),
            (Kind::Max, _) => |found| (-found.low, -found.high),
            (Kind::Min, Ties::First) => |found| (found.high, 0),
            (Kind::Min, Ties::HighestLowAtMin) => |found| (found.high, -found.low),
            (Kind::Min, _) => |found| (found.high, found.low),
            (Kind::Chance | Kind::Leaf, _) => return None,
        };
        // Of several that are equal this takes the first that it meets.
        let best = match self {
            Ties::Last => entered.iter().rev().min_by_key(|play| pair(play.bounds)),
            _ => entered.iter().min_by_key(|play| pair(play.bounds)),
        };
        best.map(|play| play.node)
    }
}

/// A child of the root that was entered, and what was found there. By Item 6 one that is
/// met when no read is left counts as entered, with the two ends as its bounds.
#[derive(Clone, Copy, Debug, PartialEq, Eq)]
pub struct Entered {
    pub node: usize,
    pub bounds: Bounds,
}

/// What is shown of a search on its way.
#[derive(Clone, Copy, Debug)]
pub enum Step {
    /// A cut test: its node, and that node's window. The node is cut if the window
    /// is not wider than the margin.
    Test(usize, Window),
    /// A node met when no read is left.
    Unread(usize),
    /// A child of the root, when all of it is searched that will be.
    Play(Entered),
}

/// The search, where each step is shown to `watch`.
pub fn search_watched(
    table: &Table,
    terms: Terms,
    leaves: &mut [u16],
    watch: impl FnMut(Step),
) -> Result<Found, Refusal> {
    let refused = |number| Err(Refusal { number, line: 0 });
    if !(0..=GREATEST_MARGIN).contains(&terms.margin) {
        return refused(12);
    }
    let most = match terms.budget {
        None => usize::MAX,
        Some(budget @ 0..=GREATEST_BUDGET) => budget as usize,
        Some(_) => return refused(17),
    };
    if leaves.len() < table.leaves {
        return refused(11);
    }

    let whole = Bounds {
        low: table.lowest,
        high: table.highest,
    };
    let whole = whole.times(table.grains);
    let ends = match terms.ends {
        Ends::Table => Values::Same(whole),
        Ends::Own | Ends::Wrong(_) => {
            let own = ends_under(table);
            Values::ByNode(own.iter().map(|ends| ends.times(table.grains)).collect())
        }
    };
    let wrong = match terms.ends {
        Ends::Wrong(wrong) => Some(wrong),
        Ends::Table | Ends::Own => None,
    };
    let root = match wrong {
        Some(WrongEnds::TableAtRoot) => whole,
        _ => ends.at(0),
    };
    let mut search = Search {
        nodes: &table.nodes,
        grains: table.grains,
        whole,
        ends,
        wrong,
        rounding: terms.rounding,
        totals: (table.smaller_total(), table.larger_total()),
        margin: terms.margin,
        sums: terms.sums,
        leaves,
        read: 0,
        most,
        spent: false,
        entered: Vec::new(),
        watch,
    };
    let bounds = search.enter(0, || Window {
        alpha: root.low,
        beta: root.high,
    });
    Ok(Found {
        low: bounds.low,
        high: bounds.high,
        play: terms.ties.play(table.nodes[0].kind, &search.entered),
        read: search.read,
        spent: search.spent,
    })
}

/// The least and the greatest value at a C, in grains, its T, and how a window under it is
/// rounded.
#[derive(Clone, Copy, Debug)]
pub struct Scale {
    pub least: i64,
    pub greatest: i64,
    pub total: i64,
    pub rounding: Rounding,
}

/// No product here leaves the range of i64: a difference of two values is at
/// most 2,000,000 times the greatest grain count, and it is multiplied by 64 at most.
impl Scale {
    /// Line 9: alpha for a child of this weight, from the alpha and the high of
    /// the chance node above it. Document 01 has the quotient rounded down. Document 02,
    /// Item 14 has alpha at most the greatest value too, and with the table's ends it never
    /// is above.
    pub fn alpha_below(&self, weight: i64, alpha: i64, high: i64) -> i64 {
        let unlimited = self.quotient_below_alpha(weight, alpha, high) + self.greatest;
        self.greatest.min(self.least.max(unlimited))
    }

    /// Line 10: beta likewise, from beta and low. Document 01 has the quotient rounded
    /// up, and Item 14 has beta at least the least value.
    pub fn beta_below(&self, weight: i64, beta: i64, low: i64) -> i64 {
        let unlimited = self.quotient_below_beta(weight, beta, low) + self.least;
        self.least.max(self.greatest.min(unlimited))
    }

    fn quotient_below_alpha(&self, weight: i64, alpha: i64, high: i64) -> i64 {
        let dividend = (alpha - high) * self.total;
        match self.rounding {
            Rounding::AlphaUp => ceiling(dividend, weight),
            _ => floor(dividend, weight),
        }
    }

    fn quotient_below_beta(&self, weight: i64, beta: i64, low: i64) -> i64 {
        let dividend = (beta - low) * self.total;
        match self.rounding {
            Rounding::BetaDown => floor(dividend, weight),
            _ => ceiling(dividend, weight),
        }
    }

    /// A child's part, weight in T, of so many grains; it is a whole number.
    fn part(&self, weight: i64, grains: i64) -> i64 {
        let product = weight * grains;
        debug_assert_eq!(product % self.total, 0, "T leaves a remainder");
        product / self.total
    }
}

/// The quotient rounded down, also below zero; the divisor is above zero.
fn floor(dividend: i64, divisor: i64) -> i64 {
    dividend.div_euclid(divisor)
}

/// The quotient rounded up likewise.
fn ceiling(dividend: i64, divisor: i64) -> i64 {
    -floor(-dividend, divisor)
}

/// L and U of a node, or two ends.
#[derive(Clone, Copy, Debug, PartialEq, Eq)]
pub struct Bounds {
    pub low: i64,
    pub high: i64,
}

impl Bounds {
    /// Both in grains, from points.
    fn times(self, grains: i64) -> Bounds {
        Bounds {
            low: self.low * grains,
            high: self.high * grains,
        }
    }
}

/// The least and the greatest value at each node, in grains.
enum Values {
    Same(Bounds),
    ByNode(Vec<Bounds>),
}

impl Values {
    fn at(&self, node: usize) -> Bounds {
        match self {
            Values::Same(ends) => *ends,
            Values::ByNode(ends) => ends[node],
        }
    }
}

/// Alpha and beta of a node.
#[derive(Clone, Copy, Debug)]
pub struct Window {
    pub alpha: i64,
    pub beta: i64,
}

impl Window {
    /// Lines 22 and 23.
    fn narrow(&mut self, bounds: Bounds) {
        self.alpha = self.alpha.max(bounds.low);
        self.beta = self.beta.min(bounds.high);
    }
}

struct Search<'a, W> {
    nodes: &'a [Node],
    grains: i64,
    /// The table's ends: the bounds of a node met when no read is left.
    whole: Bounds,
    /// The least and the greatest value at each node: its bounds while nothing is known.
    ends: Values,
    wrong: Option<WrongEnds>,
    rounding: Rounding,
    /// The smaller total and the larger, for the faults.
    totals: (i64, i64),
    margin: i64,
    sums: Sums,
    leaves: &'a mut [u16],
    read: usize,
    /// The most leaves to read.
    most: usize,
    spent: bool,
    /// The root's children, in line order.
    entered: Vec<Entered>,
    watch: W,
}

impl<W: FnMut(Step)> Search<'_, W> {
    /// Searches a node by the rule of its kind if a read is left. A leaf needs no
    /// window.
    fn enter(&mut self, node: usize, window: impl FnOnce() -> Window) -> Bounds {
        let bounds = match self.nodes[node].kind {
            _ if self.read == self.most => self.unread(node),
            Kind::Leaf => self.leaf(node),
            kind if self.wrong.is_some() => self.with_wrong_ends(node, kind, window()),
            Kind::Max => self.max(node, window()),
            Kind::Min => self.min(node, window()),
            Kind::Chance if self.sums == Sums::Right => self.chance(node, window()),
            Kind::Chance => self.faulty_chance(node, window()),
        };
        if self.nodes[node].parent == Some(0) {
            let entered = Entered { node, bounds };
            self.entered.push(entered);
            (self.watch)(Step::Play(entered));
        }
        bounds
    }

    /// A node met when no read is left, of whatever kind.
    fn unread(&mut self, node: usize) -> Bounds {
        self.spent = true;
        (self.watch)(Step::Unread(node));
        self.whole
    }

    fn leaf(&mut self, node: usize) -> Bounds {
        self.leaves[self.read] = node as u16;
        self.read += 1;
        let utility = self.nodes[node].utility.expect("a leaf has a utility");
        let worth = utility * self.grains;
        Bounds {
            low: worth,
            high: worth,
        }
    }

    fn max(&mut self, node: usize, mut window: Window) -> Bounds {
        let stop = self.nodes[node].stop;
        let mut bounds = self.ends.at(node);
        let mut best_high = bounds.low;
        let mut child = node + 1;
        loop {
            let found = self.enter(child, || window);
            best_high = best_high.max(found.high);
            bounds.low = bounds.low.max(found.low);
            window.narrow(bounds);
            child = self.nodes[child].stop;
            if child == stop {
                bounds.high = best_high;
                return bounds;
            }
            if self.cuts(node, window) {
                return bounds;
            }
        }
    }

    fn min(&mut self, node: usize, mut window: Window) -> Bounds {
        let stop = self.nodes[node].stop;
        let mut bounds = self.ends.at(node);
        let mut best_low = bounds.high;
        let mut child = node + 1;
        loop {
            let found = self.enter(child, || window);
            best_low = best_low.min(found.low);
            bounds.high = bounds.high.min(found.high);
            window.narrow(bounds);
            child = self.nodes[child].stop;
            if child == stop {
                bounds.low = best_low;
                return bounds;
            }
            if self.cuts(node, window) {
                return bounds;
            }
        }
    }

    fn chance(&mut self, node: usize, mut window: Window) -> Bounds {
        let Node { sum, stop, .. } = self.nodes[node];
        let mut bounds = self.ends.at(node);
        let scale = self.scale(bounds, sum);
        let mut child = node + 1;
        loop {
            let weight = self.nodes[child].weight;
            let weight = weight.expect("a child of a C has a weight");
            let found = self.enter(child, || Window {
                alpha: scale.alpha_below(weight, window.alpha, bounds.high),
                beta: scale.beta_below(weight, window.beta, bounds.low),
            });
            bounds.low += scale.part(weight, found.low - scale.least);
            bounds.high -= scale.part(weight, scale.greatest - found.high);
            window.narrow(bounds);
            child = self.nodes[child].stop;
            if child == stop || self.cuts(node, window) {
                return bounds;
            }
        }
    }

    /// The scale at a C with these ends and this T.
    fn scale(&self, ends: Bounds, total: i64) -> Scale {
        Scale {
            least: ends.low,
            greatest: ends.high,
            total,
            rounding: self.rounding,
        }
    }

    /// Line 24, for a child that is not the last.
    fn cuts(&mut self, node: usize, window: Window) -> bool {
        (self.watch)(Step::Test(node, window));
        window.beta <= window.alpha + self.margin
    }
}
