//! The count of a test's texts, and of what the engines returned for them.

use std::io::Write;
use std::time::Instant;

use crate::random::seed;
use crate::second::Table;

/// Refusals of a table itself by document 01, whatever is asked of it.
pub const OF_TABLES: [usize; 10] = [1, 2, 3, 4, 5, 6, 7, 8, 9, 10];

/// That for its grain count (document 02, Item 5).
pub const OF_GRAINS: [usize; 1] = [18];

/// The last refusal's number.
const LAST: usize = 22;

/// Counts the texts of a test, and what the engines returned for them: once for
/// each text, or for each question asked of it.
pub struct Tally {
    pub name: &'static str,
    pub seed: u64,
    began: Instant,
    pub cases: u64,
    /// How often each refusal came, by its number; at 0, how often none came.
    pub counts: [u64; 1 + LAST],
    /// The accepted tables, and those among them with two totals.
    tables: u64,
    of_two_totals: u64,
}

impl Tally {
    pub fn new(name: &'static str) -> Tally {
        Tally {
            name,
            seed: seed(),
            began: Instant::now(),
            cases: 0,
            counts: [0; 1 + LAST],
            tables: 0,
            of_two_totals: 0,
        }
    }

    /// Counts a text for which both engines returned these.
    pub fn add(&mut self, returned: &[u64]) {
        self.cases += 1;
        for code in returned {
            self.counts[(code % 100) as usize] += 1;
        }
    }

    /// Counts an accepted table.
    pub fn add_table(&mut self, table: &Table) {
        self.add_header(table.second.is_some());
    }

    /// Counts an accepted table of two totals or one.
    pub fn add_header(&mut self, two_totals: bool) {
        self.tables += 1;
        self.of_two_totals += u64::from(two_totals);
    }

    /// Where a text is found again.
    pub fn place(&self) -> String {
        format!("{}: seed {}, case {}", self.name, self.seed, self.cases)
    }

    pub fn report(&self) {
        let mut report = format!(
            "{}: seed {}, {} texts, {} answers in {:.1} s; accepted {}; refused",
            self.name,
            self.seed,
            self.cases,
            self.counts.iter().sum::<u64>(),
            self.began.elapsed().as_secs_f64(),
            self.counts[0],
        );
        for (number, count) in self.counts.iter().enumerate().skip(1) {
            if *count > 0 {
                report += &format!("  {number}: {count}");
            }
        }
        say(&report);
    }

    /// Fails the test where there were too few texts or accepted tables, or one
    /// of these refusals came too seldom.
    pub fn demand(&self, refusals: &[usize]) {
        assert!(self.cases >= 100_000, "only {} texts", self.cases);
        assert!(self.counts[0] >= 10_000, "too few accepted tables");
        self.demand_refusals(refusals);
    }

    /// Says how many of the accepted tables have two totals (document 02, Item 5), and
    /// fails the test where they are less than a third.
    pub fn demand_two_totals(&self) {
        let (two, all) = (self.of_two_totals, self.tables);
        let share = 100.0 * two as f64 / all as f64;
        say(&format!(
            "{}: two totals in {two} of {all} accepted tables, {share:.1} %",
            self.name
        ));
        assert!(all > 0 && 3 * two >= all, "too few tables of two totals");
    }

    /// Fails the test where one of these refusals came too seldom.
    pub fn demand_refusals(&self, refusals: &[usize]) {
        for &number in refusals {
            let count = self.counts[number];
            assert!(count >= 100, "refusal {number} came only {count} times");
        }
    }
}

/// Writes a line where the test harness does not hold it back, as it does the
/// output of a test that passes.
pub fn say(line: &str) {
    let line = format!("\n{line}\n");
    std::io::stderr().write_all(line.as_bytes()).expect("write");
}
