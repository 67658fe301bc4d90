//! Other ways with a line's own ends (document 02, Item 14), there for tests to count where
//! one would have changed an answer. They stand apart, so that the right way is not slowed.

use super::{Bounds, Search, Step, Window};
use crate::second::table::{Kind, Node};

/// Ways that Item 14 is not. The last four, from `AlphaPastGreatest` on, change no answer. A
/// line's window decides nothing before its first child is known, and then alpha is at least
/// the line's least value and beta at most its greatest, so that what the window had beyond
/// these is lost. It is lost for the first child too, whose ends lie within the line's, also
/// below a C, where a window that reaches past the C's ends gives just these. And where alpha
/// is not below the line's greatest value, or beta not above its least, the line is cut after
/// its first child, and so is every line entered under it, however far out the window is.
#[derive(Clone, Copy, Debug, PartialEq, Eq)]
pub enum WrongEnds {
    /// Lines 9 and 10 take the child's ends, not those of the C above it.
    ChildInWindows,
    /// They take the table's.
    TableInWindows,
    /// A C counts its unread children at the table's ends.
    TableInSums,
    /// A C does both.
    TableAtChance,
    /// M and N have the table's ends.
    TableAtSides,
    /// An M does not lower beta to its own greatest value.
    HighAtMax,
    /// An N does not raise alpha to its own least value.
    LowAtMin,
    /// A new alpha below a C may be above the C's greatest value.
    AlphaPastGreatest,
    /// A new beta may be below its least.
    BetaPastLeast,
    /// The root's window is the table's ends.
    TableAtRoot,
    /// The window handed down is met with the line's own ends.
    MetWindow,
}

/// A window without its limits may widen at each C on a path. Nothing is as far out as this,
/// and T times it is still in the range of i64.
const FAR: i64 = 1 << 55;

impl<W: FnMut(Step)> Search<'_, W> {
    /// The rule of the node's kind, which is not L, but for the fault.
    pub(super) fn with_wrong_ends(
        &mut self,
        node: usize,
        kind: Kind,
        mut window: Window,
    ) -> Bounds {
        let wrong = self.wrong.expect("a fault");
        if wrong == WrongEnds::MetWindow {
            window.narrow(self.ends.at(node));
        }
        match kind {
            Kind::Chance => self.chance_with(wrong, node, window),
            _ => self.side_with(wrong, node, window),
        }
    }

    fn side_with(&mut self, wrong: WrongEnds, node: usize, mut window: Window) -> Bounds {
        let Node { kind, stop, .. } = self.nodes[node];
        let ends = match wrong {
            WrongEnds::TableAtSides => self.whole,
            _ => self.ends.at(node),
        };
        let mut bounds = ends;
        // The bound that is known when the last child is: the high of an M, the low of an N.
        let mut best = match kind {
            Kind::Max => ends.low,
            _ => ends.high,
        };
        let mut child = node + 1;
        loop {
            let found = self.enter(child, || window);
            match kind {
                Kind::Max => {
                    best = best.max(found.high);
                    bounds.low = bounds.low.max(found.low);
                }
                _ => {
                    best = best.min(found.low);
                    bounds.high = bounds.high.min(found.high);
                }
            }
            match (wrong, kind) {
                (WrongEnds::HighAtMax, Kind::Max) => window.alpha = window.alpha.max(bounds.low),
                (WrongEnds::LowAtMin, Kind::Min) => window.beta = window.beta.min(bounds.high),
                _ => window.narrow(bounds),
            }
            child = self.nodes[child].stop;
            if child == stop {
                match kind {
                    Kind::Max => bounds.high = best,
                    _ => bounds.low = best,
                }
                return bounds;
            }
            if self.cuts(node, window) {
                return bounds;
            }
        }
    }

    fn chance_with(&mut self, wrong: WrongEnds, node: usize, mut window: Window) -> Bounds {
        let Node { sum, stop, .. } = self.nodes[node];
        let (own, whole) = (self.ends.at(node), self.whole);
        let in_sums = match wrong {
            WrongEnds::TableInSums | WrongEnds::TableAtChance => whole,
            _ => own,
        };
        let sums = self.scale(in_sums, sum);
        let mut bounds = in_sums;
        let mut child = node + 1;
        loop {
            let weight = self.nodes[child].weight;
            let weight = weight.expect("a child of a C has a weight");
            let in_windows = match wrong {
                WrongEnds::ChildInWindows => self.ends.at(child),
                WrongEnds::TableInWindows | WrongEnds::TableAtChance => whole,
                _ => own,
            };
            let windows = self.scale(in_windows, sum);
            let below = |Window { alpha, beta }, Bounds { low, high }| Window {
                alpha: match wrong {
                    WrongEnds::AlphaPastGreatest => {
                        let quotient = windows.quotient_below_alpha(weight, alpha, high);
                        (quotient + windows.greatest).clamp(windows.least, FAR)
                    }
                    _ => windows.alpha_below(weight, alpha, high),
                },
                beta: match wrong {
                    WrongEnds::BetaPastLeast => {
                        let quotient = windows.quotient_below_beta(weight, beta, low);
                        (quotient + windows.least).clamp(-FAR, windows.greatest)
                    }
                    _ => windows.beta_below(weight, beta, low),
                },
            };
            let found = self.enter(child, || below(window, bounds));
            bounds.low += sums.part(weight, found.low - sums.least);
            bounds.high -= sums.part(weight, sums.greatest - found.high);
            window.narrow(bounds);
            child = self.nodes[child].stop;
            if child == stop || self.cuts(node, window) {
                return bounds;
            }
        }
    }
}
