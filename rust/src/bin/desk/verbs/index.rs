//! `index`: the lowest and the highest utility under each line that is no leaf.

use margin_engine::{Index, Kind, Refusal, Table, index, read};

use super::{Answer, Question, Verb};
use crate::grid::{Cell, Row, lay};
use crate::input::TABLE;
use crate::output::{Page, Sheet};

pub const VERB: Verb = Verb {
    name: "index",
    arguments: "",
    options: &[],
    files: &TABLE,
    does: "lists the lowest and highest utility under each line",
    more: &["\
Listed is every M, N and C, with the lowest and the highest utility among the
leaves under it, in points. `desk search --index` counts what is unread under a line
at these two ends of its own, not at the table's.
"],
    ask: |words| words.about_table(Asked),
};

struct Asked;

impl Question for Asked {
    fn answer(&self, text: &[u8]) -> Result<Box<dyn Answer>, Refusal> {
        let index = index(text)?;
        let table = read(text)?;
        Ok(Box::new(Listed { index, table }))
    }
}

struct Listed {
    index: Index,
    table: Table,
}

impl Listed {
    /// Every M, N and C: its node number, its kind and its two ends.
    fn entries(&self) -> impl Iterator<Item = (usize, Kind, i64, i64)> {
        let nodes = self.table.nodes.iter().enumerate();
        let inner = nodes.filter(|(_, node)| node.kind != Kind::Leaf);
        inner.map(|(number, node)| {
            let (lowest, highest) = (self.index.lows[number], self.index.highs[number]);
            (number, node.kind, lowest, highest)
        })
    }
}

impl Answer for Listed {
    fn people(&self, page: &mut Page) {
        let Table {
            lowest, highest, ..
        } = self.table;
        page.named("ends", format_args!("{lowest} and {highest}"));
        let rows = self.entries().map(|(number, kind, lowest, highest)| Row {
            cells: vec![
                Cell::number(number),
                Cell::Text(kind.to_string()),
                Cell::Number(lowest.to_string()),
                Cell::Number(highest.to_string()),
            ],
            bold: false,
        });
        let rows: Vec<Row> = rows.collect();
        // A lone leaf has none.
        if !rows.is_empty() {
            page.plain("\n");
            lay(page, &["node", "kind", "lowest", "highest"], &rows);
        }
    }

    fn tsv(&self, sheet: &mut Sheet) {
        sheet.row("lowest", &[&self.table.lowest]);
        sheet.row("highest", &[&self.table.highest]);
        for (number, kind, lowest, highest) in self.entries() {
            sheet.row("entry", &[&number, &kind, &lowest, &highest]);
        }
    }
}
