//! Reading: the refusal and its line, or every number and entry of the table;
//! and that all else in the lent arrays is left as it was.

use super::tally::Tally;
use super::{code, kind_number};
use crate::engine::{self, Lent};
use crate::second::{self, Refusal, Table};
use crate::texts::examples::escaped;

/// How many numbers are written.
pub const NUMBERS: usize = 8;

/// Compares the two engines on texts.
pub struct Comparison {
    pub tally: Tally,
    lent: Box<Lent>,
}

impl Comparison {
    pub fn new(name: &'static str) -> Comparison {
        Comparison {
            tally: Tally::new(name),
            lent: Box::new(Lent::PATTERN),
        }
    }

    /// Gives a text to both engines. Fails the test unless they agree.
    pub fn hold(&mut self, text: &[u8]) -> Result<Table, Refusal> {
        let answer = second::read(text);
        let (returned, expected) = expected(&answer);
        let got = engine::read(text, &mut self.lent);
        if got != returned || *self.lent != expected {
            panic!(
                "{}: the engines differ\n{}text of {} bytes:\n{}",
                self.tally.place(),
                differences(returned, &expected, got, &self.lent),
                text.len(),
                escaped(text),
            );
        }
        self.tally.add(&[returned]);
        if let Ok(table) = &answer {
            self.tally.add_table(table);
        }
        answer
    }
}

/// What the proved engine must return, and what must then stand in the arrays.
pub fn expected(answer: &Result<Table, Refusal>) -> (u64, Lent) {
    let mut lent = Lent::PATTERN;
    if let Ok(table) = answer {
        lent.numbers[..NUMBERS].copy_from_slice(&[
            table.nodes.len() as i64,
            table.total,
            table.lowest,
            table.highest,
            i64::from(table.chances),
            table.grains,
            table.leaves as i64,
            table.second.unwrap_or(0),
        ]);
        for (i, node) in table.nodes.iter().enumerate() {
            lent.kind[i] = kind_number(node.kind);
            lent.stop[i] = node.stop as u16;
            lent.weight[i] = node.weight.unwrap_or(0) as u8;
            lent.height[i] = node.utility.map_or(0, |u| (u - table.lowest) as u32);
        }
    }
    (code(answer), lent)
}

/// Names what differs: the numbers whole, of each other array the first entry.
fn differences(returned: u64, expected: &Lent, got_returned: u64, got: &Lent) -> String {
    fn first<T: PartialEq + std::fmt::Debug>(name: &str, expected: &[T], got: &[T]) -> String {
        match expected.iter().zip(got).position(|(e, g)| e != g) {
            Some(i) => format!(
                "{name}[{i}]: expected {:?}, got {:?}\n",
                expected[i], got[i]
            ),
            None => String::new(),
        }
    }
    let mut report = format!("returned: expected {returned}, got {got_returned}\n");
    if expected.numbers != got.numbers {
        report += &format!(
            "numbers: expected {:?}, got {:?}\n",
            expected.numbers, got.numbers
        );
    }
    report += &first("kind", &expected.kind, &got.kind);
    report += &first("stop", &expected.stop, &got.stop);
    report += &first("weight", &expected.weight, &got.weight);
    report += &first("height", &expected.height, &got.height);
    report
}
