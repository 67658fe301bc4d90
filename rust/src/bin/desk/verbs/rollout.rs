//! `rollout [POLICY]`: the worth of a table without C, by rollouts.

use margin_engine::{Refusal, Rolled, read, rollout};

use super::{Answer, Question, Verb};
use crate::grid::{Cell, Row, lay};
use crate::input::TABLE;
use crate::output::{Amount, Page, Sheet};

pub const VERB: Verb = Verb {
    name: "rollout",
    arguments: "[POLICY]",
    options: &[],
    files: &TABLE,
    does: "finds the worth of a table without C by rollouts",
    more: &["\
POLICY is a list of numbers from 0 to 255 with commas, as 2,0,1. Each inner node
that a walk comes to uses up one number: of its m candidates, counted from 0, it
takes the one with that number mod m; past the list's end, the first. The worth is
the same under every policy. The list at the end has each node's bounds as last
updated. A file whose name looks like a policy is written ./2.
"],
    ask: |mut words| {
        let policy = words.policy()?;
        words.about_table(Asked { policy })
    },
};

struct Asked {
    policy: Vec<u8>,
}

impl Question for Asked {
    fn answer(&self, text: &[u8]) -> Result<Box<dyn Answer>, Refusal> {
        let rolled = rollout(text, &self.policy)?;
        let table = read(text)?;
        Ok(Box::new(Shown {
            rolled,
            leaves: table.leaves,
            per_point: table.per_point,
        }))
    }
}

struct Shown {
    rolled: Rolled,
    /// The table's leaves.
    leaves: usize,
    per_point: i64,
}

impl Answer for Shown {
    fn people(&self, page: &mut Page) {
        let amount = |grains| Amount::of(grains, self.per_point);
        page.amount("worth", amount(self.rolled.worth));
        page.leaves(self.rolled.leaves.len(), self.leaves);
        page.list("leaf", &self.rolled.leaves);
        page.grain(self.per_point);

        let records = self.rolled.records.iter().enumerate();
        let rows = records.map(|(node, record)| Row {
            cells: vec![
                Cell::number(node),
                Cell::amount(amount(record.low)),
                Cell::amount(amount(record.high)),
            ],
            bold: false,
        });
        page.plain("\n");
        lay(page, &["node", "low", "high"], &rows.collect::<Vec<_>>());
    }

    fn tsv(&self, sheet: &mut Sheet) {
        let amount = |grains| Amount::of(grains, self.per_point);
        sheet.amount("worth", amount(self.rolled.worth));
        sheet.leaves(self.leaves, &self.rolled.leaves);
        for (node, record) in self.rolled.records.iter().enumerate() {
            let (low, high) = (amount(record.low), amount(record.high));
            sheet.row(
                "record",
                &[
                    &node,
                    &low.grains,
                    &low.points(),
                    &high.grains,
                    &high.points(),
                ],
            );
        }
        sheet.row("grain", &[&self.per_point]);
    }
}
