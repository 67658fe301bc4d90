//! A C that takes its numbers in a wrong way (document 02, Items 4 and 5), there for tests to
//! count where it would have changed an answer. It stands apart, so that the right way is
//! not slowed.

use super::{floor, Bounds, Scale, Search, Step, Window, GREATEST_MARGIN};
use crate::second::table::Node;

/// How a C takes its numbers: as they are, as Algorithm 1 does. An engine may keep T times
/// them instead (document 02, Item 4) and must answer alike. The other ways are what it
/// answers if it takes a number for T times that number, or the other way round, or the
/// other total for its own; they are there for tests to count where one would have changed
/// an answer. The faults count from the lowest end, as an engine does whose sums begin with
/// 0.
#[derive(Clone, Copy, Debug, PartialEq, Eq)]
pub enum Sums {
    Right,
    /// The cut test of a C is T × beta <= T × alpha + the margin.
    BareMargin,
    /// A C hands T times the margin on to its children.
    MarginBelow,
    /// A C takes the alpha that it is handed for T times it.
    BareAlpha,
    /// The same with beta.
    BareBeta,
    /// The low and the high of a C are divided by T once more where it is left.
    DividedAgain,
    /// The same, but only where it is cut.
    DividedAgainAtCut,
    /// A C takes the larger of two totals for its own sum (document 02, Item 5), in its
    /// sums and in the windows below it.
    LargerTotal,
    /// The smaller.
    SmallerTotal,
    /// The larger in its sums alone.
    LargerInSums,
    SmallerInSums,
    /// The larger in the windows below it alone.
    LargerInWindows,
    SmallerInWindows,
    /// The larger times the margin, beside T times alpha and beta, in its cut test alone.
    LargerAtMargin,
    SmallerAtMargin,
}

impl Scale {
    /// What a value that is taken for T times it amounts to, counted from the least and
    /// rounded down.
    fn divided(&self, value: i64) -> i64 {
        self.least + floor(value - self.least, self.total)
    }
}

impl<W: FnMut(Step)> Search<'_, W> {
    /// As `chance`, but for the fault.
    pub(super) fn faulty_chance(&mut self, node: usize, mut window: Window) -> Bounds {
        let Node { sum, stop, .. } = self.nodes[node];
        let ((smaller, larger), margin) = (self.totals, self.margin);
        // T in the sums, and in the windows below.
        let (total, below) = match self.sums {
            Sums::LargerTotal => (larger, larger),
            Sums::SmallerTotal => (smaller, smaller),
            Sums::LargerInSums => (larger, sum),
            Sums::SmallerInSums => (smaller, sum),
            Sums::LargerInWindows => (sum, larger),
            Sums::SmallerInWindows => (sum, smaller),
            _ => (sum, sum),
        };
        let mut bounds = self.ends.at(node);
        let (scale, windows) = (self.scale(bounds, total), self.scale(bounds, below));
        let mut child = node + 1;
        match self.sums {
            Sums::BareAlpha => window.alpha = scale.divided(window.alpha),
            Sums::BareBeta => window.beta = scale.divided(window.beta),
            _ => (),
        }
        // The greatest margin is past every span, so a greater one cuts no more.
        let below = match self.sums {
            Sums::MarginBelow => (margin * scale.total).min(GREATEST_MARGIN),
            _ => margin,
        };
        let cut = loop {
            let weight = self.nodes[child].weight;
            let weight = weight.expect("a child of a C has a weight");
            self.margin = below;
            let found = self.enter(child, || Window {
                alpha: windows.alpha_below(weight, window.alpha, bounds.high),
                beta: windows.beta_below(weight, window.beta, bounds.low),
            });
            self.margin = margin;
            // What is divided once too often, or by another total, may leave a remainder.
            bounds.low += weight * (found.low - scale.least) / scale.total;
            bounds.high -= weight * (scale.greatest - found.high) / scale.total;
            // A divisor that is too small leads past the ends, where numbers would soon be
            // too large.
            bounds.low = bounds.low.min(scale.greatest);
            bounds.high = bounds.high.max(scale.least);
            window.narrow(bounds);
            child = self.nodes[child].stop;
            if child == stop {
                break false;
            }
            let cuts = self.cuts(node, window);
            let Window { alpha, beta } = window;
            let cuts_by = |times| scale.total * beta <= scale.total * alpha + times * margin;
            if match self.sums {
                Sums::BareMargin => cuts_by(1),
                Sums::LargerAtMargin => cuts_by(larger),
                Sums::SmallerAtMargin => cuts_by(smaller),
                _ => cuts,
            } {
                break true;
            }
        };
        if self.sums == Sums::DividedAgain || self.sums == Sums::DividedAgainAtCut && cut {
            bounds.low = scale.divided(bounds.low);
            bounds.high = scale.divided(bounds.high);
        }
        bounds
    }
}
