//! C lines whose numbers are kept T times (document 02, Item 4): both searches, held to
//! the second engine; the margins at which a cut test of a C turns; and how often an
//! engine that takes a number for T times it would have answered otherwise.

use super::budget::{self, turning_points, Asked, Steps};
use super::searching::{self, hold_changed, Expected, OTHER_ROUNDINGS};
use super::seen::{Seen, ROOTS};
use super::span;
use super::tally::say;
use super::totals;
use crate::random::Random;
use crate::second::{Kind, Node, Sums, Table, Terms, MOST_TOTAL};
use crate::texts::knobs::WAYS;

/// An alpha that is too low makes the window too wide. The other faults show more often.
const BARE_ALPHA: &str = "a bare alpha at a C";

/// What an engine with T times the numbers of a C may have wrong.
pub const FAULTS: [(&str, Sums); 6] = [
    ("the bare margin at a C", Sums::BareMargin),
    ("T times the margin below a C", Sums::MarginBelow),
    (BARE_ALPHA, Sums::BareAlpha),
    ("a bare beta at a C", Sums::BareBeta),
    ("a C divided twice", Sums::DividedAgain),
    ("a C divided twice where cut", Sums::DividedAgainAtCut),
];

/// What it may have wrong with two totals (document 02, Item 5).
pub const FAULTS_OF_TOTALS: [(&str, Sums); 8] = [
    ("the larger total", Sums::LargerTotal),
    ("the smaller total", Sums::SmallerTotal),
    ("the larger total in sums", Sums::LargerInSums),
    ("the smaller total in sums", Sums::SmallerInSums),
    ("the larger total in windows", Sums::LargerInWindows),
    ("the smaller total in windows", Sums::SmallerInWindows),
    ("the larger total at the margin", Sums::LargerAtMargin),
    ("the smaller total at the margin", Sums::SmallerAtMargin),
];

/// Compares the two engines without a budget and within one.
pub struct Comparison {
    pub plain: searching::Comparison,
    pub within: budget::Comparison,
    /// What the C of the tables were like.
    pub tables: Seen,
    /// Where a wrong engine would have answered otherwise: by the faults above, and by
    /// windows that are rounded the wrong way.
    faults: Seen,
    pub roundings: Seen,
    /// And by the wrong total.
    pub totals: Seen,
}

/// What is asked of a table: margins without a budget, and others with budgets.
pub struct Questions {
    pub margins: Vec<i64>,
    pub asked: Vec<Asked>,
}

impl Questions {
    fn terms(&self) -> impl Iterator<Item = Terms> + '_ {
        let plain = self.margins.iter().map(|margin| Terms::of(*margin));
        plain.chain(self.asked.iter().map(|asked| asked.terms()))
    }
}

impl Comparison {
    pub fn new(plain: &'static str, within: &'static str) -> Comparison {
        Comparison {
            plain: searching::Comparison::new(plain),
            within: budget::Comparison::new(within),
            tables: Seen::default(),
            faults: Seen::default(),
            roundings: Seen::default(),
            totals: Seen::default(),
        }
    }

    /// The source for one case.
    pub fn case(&self, number: u64) -> Random {
        Random::of_case(self.plain.tally.seed, number)
    }

    /// Holds the engines to each other on a table of this sort, also with other utilities
    /// in unread leaves and turned. Returns whether a faulty engine would have answered
    /// otherwise.
    pub fn hold(
        &mut self,
        sort: &str,
        text: &[u8],
        table: &Table,
        random: &mut Random,
        questions: Questions,
    ) -> bool {
        count_table(&mut self.tables, table);
        let mut tells = false;
        for terms in questions.terms() {
            let faulty = FAULTS.map(|(fault, sums)| (fault, Terms { sums, ..terms }));
            tells |= count_wrong(&mut self.faults, sort, table, terms, &faulty);
        }
        let Questions { margins, asked } = questions;
        for &margin in &margins {
            hold_changed(&self.plain.tally, text, table, margin, random);
            self.plain.count_tests(table, margin);
        }
        let held = self.plain.hold(text, |_| margins);
        held.expect("valid");
        let held = self.within.hold(text, random, |_, _| asked);
        held.expect("valid");
        tells
    }

    /// Counts where windows that are rounded the wrong way would have changed an answer.
    pub fn count_roundings(&mut self, sort: &str, table: &Table, questions: &Questions) {
        for terms in questions.terms() {
            let others =
                OTHER_ROUNDINGS.map(|(other, rounding)| (other, Terms { rounding, ..terms }));
            count_wrong(&mut self.roundings, sort, table, terms, &others);
        }
    }

    /// Counts where another total in place of a C's own sum would have changed an answer.
    pub fn count_totals(&mut self, sort: &str, table: &Table, questions: &Questions) {
        for terms in questions.terms() {
            let wrong = FAULTS_OF_TOTALS.map(|(fault, sums)| (fault, Terms { sums, ..terms }));
            count_wrong(&mut self.totals, sort, table, terms, &wrong);
        }
    }

    /// Fails the test where a faulty engine would have answered otherwise too seldom, or
    /// one with a bare alpha, of which fewer are enough.
    pub fn demand_faults(&self, least: u64, of_alpha: u64) {
        let of_sort = |sort: &str| match sort.ends_with(BARE_ALPHA) {
            true => of_alpha,
            false => least,
        };
        self.faults.demand_by(of_sort);
    }

    /// Reports, then fails the test where cut tests of C, or those just cut or just not
    /// cut, were too few; or tables with two totals, if there are to be any.
    pub fn demand_tests(&self, least: u64, two_totals: bool) {
        self.plain.tally.report();
        self.within.tally.report();
        if two_totals {
            self.plain.tally.demand_two_totals();
            self.within.tally.demand_two_totals();
        }
        for sort in ["cut", "just cut", "just not cut"] {
            let plain = self.plain.tests.of(&format!("{sort} at Chance"));
            let within = format!("Chance {sort} while reads are left");
            let within = self.within.answers.of(&within);
            say(&format!("C {sort}: {plain}, and {within} within a budget"));
            assert!(plain >= least && within >= least, "{sort} came too seldom");
        }
    }
}

/// Counts the wrong engines, each given by its terms, that would have answered otherwise.
/// Returns whether there was one.
pub fn count_wrong(
    seen: &mut Seen,
    sort: &str,
    table: &Table,
    terms: Terms,
    wrong: &[(&str, Terms)],
) -> bool {
    let by = |terms| Expected::by(Ok(table), terms, table.leaves);
    let expected = by(terms);
    let within = terms.budget.map_or("", |_| " within a budget");
    let mut any = false;
    for (name, terms) in wrong {
        let differs = by(*terms) != expected;
        seen.count(&format!("{sort}{within}, {name}"), differs);
        any |= differs;
    }
    any
}

/// Margins about the width of a cut test that the search to margin 0 makes at a C, and
/// about one of the search to any margin: each width, and one grain below and above it.
pub fn margins(random: &mut Random, table: &Table) -> Vec<i64> {
    let any = span(table) / random.pick(&[2, 5, 20, 100]);
    let mut margins = Vec::new();
    for margin in [0, random.between(0, any)] {
        let widths = widths(table, Terms::of(margin));
        // A window whose alpha is past its beta is cut at every margin.
        let widths: Vec<i64> = widths.into_iter().filter(|width| *width > 0).collect();
        if !widths.is_empty() {
            margins.extend(beside(random.pick(&widths)));
        }
    }
    margins
}

/// The margins, from the least, at each of which a cut test of a C just begins to cut, in
/// the search within this budget or without one.
pub fn turning_points_of_chances(table: &Table, budget: Option<i64>) -> Vec<i64> {
    let mut points = turning_points(table, budget);
    points.retain(|margin| {
        let terms = Terms::of(*margin);
        widths(table, Terms { budget, ..terms }).contains(margin)
    });
    points
}

/// Two of these margins, each with those beside it.
pub fn two_of(random: &mut Random, margins: &[i64]) -> Vec<i64> {
    if margins.is_empty() {
        return Vec::new();
    }
    let two = (0..2).map(|_| random.pick(margins));
    two.flat_map(beside).collect()
}

/// One grain below, the margin itself, and one above.
pub fn beside(margin: i64) -> [i64; 3] {
    [margin - 1, margin, margin + 1]
}

/// Beta minus alpha at each cut test of a C.
fn widths(table: &Table, terms: Terms) -> Vec<i64> {
    let tests = Steps::of(table, terms).tests;
    let of_chances = tests.iter().filter(|test| test.kind == Kind::Chance);
    of_chances.map(|test| test.gap).collect()
}

/// Counts what the C of a table are like.
fn count_table(seen: &mut Seen, table: &Table) {
    let nodes = &table.nodes;
    let is_chance = |parent: &usize| nodes[*parent].kind == Kind::Chance;
    let under_chance = |node: &Node| node.parent.filter(is_chance);
    for kind in ROOTS {
        let here = |node: &Node| node.kind == kind && under_chance(node).is_some();
        seen.count(&format!("{kind:?} under a C"), nodes.iter().any(here));
    }
    // The first child stands in the next line.
    let first = |parent: usize| nodes[parent + 1].weight;
    let differs = |node: &Node| under_chance(node).is_some_and(|c| first(c) != node.weight);
    seen.count("uneven weights", nodes.iter().any(differs));
    for total in [1, 2, WAYS, MOST_TOTAL] {
        let here = nodes.iter().any(|node| node.sum == total);
        seen.count(&format!("T {total}"), here);
    }
    seen.count(
        "both totals under C",
        totals::uses(table).iter().all(|uses| *uses > 0),
    );
    seen.count("both totals on a path", totals::on_one_path(table));
}
