//! `show`: the tree, drawn.

use std::fmt::Display;

use margin_engine::{Kind, Play, Refusal, Table, read};

use super::search::{How, Searched, given};
use super::{Answer, Question, Verb};
use crate::grid::{Cell, Row, lay};
use crate::help::MARGINS;
use crate::input::TABLE;
use crate::margin::Margin;
use crate::output::{Amount, Page, Sheet};
use crate::tree;
use crate::under::worths;

pub const VERB: Verb = Verb {
    name: "show",
    arguments: "",
    options: &[("--margin", "M")],
    files: &TABLE,
    does: "draws the tree with every node's worth",
    more: &[
        "\
A node is its number, its kind (M: MAX plays, N: MIN plays, C: dice, L: a leaf)
and at a leaf its utility; a fraction before it is its chance under a C. The
worth is in points, with the grains beside it. `T 36 and 15` are the total and
the second total of a table that has two.
",
        "\
With --margin M the leaves that a search to this margin reads are marked `read`,
and each play is listed with its worth and its loss: `play` is the search's,
`best` loses nothing, and a loss is within the margin or past it.
",
        MARGINS,
    ],
    ask: |words| {
        let margin = words.margin_after("--margin")?;
        words.about_table(Asked { margin })
    },
};

struct Asked {
    margin: Option<Margin>,
}

impl Question for Asked {
    fn answer(&self, text: &[u8]) -> Result<Box<dyn Answer>, Refusal> {
        let table = read(text)?;
        let margin = self.margin.as_ref();
        let searched = margin.map(|margin| Searched::to(margin, &How::Plain, text, &table));
        Ok(Box::new(Drawn {
            searched: searched.transpose()?,
            worths: worths(text, &table),
            table,
        }))
    }

    fn given(&self, _: &Refusal, table: &Table) -> String {
        self.margin
            .as_ref()
            .map_or_else(String::new, |margin| given(margin, table))
    }
}

struct Drawn {
    table: Table,
    /// Of every node, in grains.
    worths: Vec<i64>,
    searched: Option<Searched>,
}

/// How a child of an M or N root stands.
struct Standing {
    number: i64,
    node: usize,
    worth: Amount,
    loss: Amount,
    within: bool,
    /// Whether it is the search's play.
    play: bool,
}

impl Drawn {
    fn amount(&self, grains: i64) -> Amount {
        Amount::of(grains, self.table.per_point)
    }

    /// For each node whether the search read it; none where nothing was searched.
    fn read(&self) -> Option<Vec<bool>> {
        let searched = self.searched.as_ref()?;
        let mut read = vec![false; self.table.nodes.len()];
        for &leaf in &searched.found.leaves {
            read[leaf] = true;
        }
        Some(read)
    }

    /// How each child of the root stands; empty where nothing was searched, and at
    /// a C or L root.
    fn standings(&self) -> Vec<Standing> {
        let Some(searched) = &self.searched else {
            return Vec::new();
        };
        let sign = match self.table.nodes[0].kind {
            Kind::Max => 1,
            Kind::Min => -1,
            Kind::Chance | Kind::Leaf => return Vec::new(),
        };
        let children = (1..).zip(self.table.children(0));
        let standing = children.map(|(number, node)| {
            let loss = sign * (self.worths[0] - self.worths[node]);
            Standing {
                number,
                node,
                worth: self.amount(self.worths[node]),
                loss: self.amount(loss),
                within: loss <= searched.margin,
                play: searched.found.play == Play::Child { number, node },
            }
        });
        standing.collect()
    }
}

impl Standing {
    fn words(&self) -> String {
        let mut words = Vec::new();
        if self.play {
            words.push("play");
        }
        if self.loss.grains == 0 {
            words.push("best");
        }
        words.push(if self.within {
            "within the margin"
        } else {
            "past the margin"
        });
        words.join(", ")
    }

    fn row(&self) -> Row {
        Row {
            cells: vec![
                Cell::number(self.number as usize),
                Cell::number(self.node),
                Cell::amount(self.worth),
                Cell::amount(self.loss),
                Cell::Text(self.words()),
            ],
            bold: self.play,
        }
    }
}

impl Answer for Drawn {
    fn people(&self, page: &mut Page) {
        let table = &self.table;
        let second = table.second.map(|second| format!(" and {second}"));
        let line = format!(
            "{} nodes, {} leaves, T {}{}, ends {} and {}, K {}",
            table.nodes.len(),
            table.leaves,
            table.total,
            second.unwrap_or_default(),
            table.lowest,
            table.highest,
            table.chances
        );
        page.named("table", line);
        if let Some(searched) = &self.searched {
            searched.head(page);
        }
        page.grain(table.per_point);

        let read = self.read();
        let mut rows = Vec::with_capacity(table.nodes.len());
        for (node, line) in tree::lines(table).into_iter().enumerate() {
            let read = read.as_ref().is_some_and(|read| read[node]);
            let mark = if read { "read" } else { "" };
            rows.push(Row {
                cells: vec![
                    Cell::Text(line),
                    Cell::amount(self.amount(self.worths[node])),
                    Cell::Text(mark.to_string()),
                ],
                bold: read,
            });
        }
        page.plain("\n");
        lay(page, &["tree", "worth", ""], &rows);

        let standings = self.standings();
        if !standings.is_empty() {
            let rows: Vec<Row> = standings.iter().map(Standing::row).collect();
            page.plain("\n");
            lay(
                page,
                &["number", "node", "worth", "loss", "standing"],
                &rows,
            );
        }
    }

    fn tsv(&self, sheet: &mut Sheet) {
        let table = &self.table;
        sheet.row("nodes", &[&table.nodes.len()]);
        sheet.row("leaves", &[&table.leaves]);
        sheet.totals_and_ends(table);
        sheet.row("chances", &[&table.chances]);
        sheet.row("grain", &[&table.per_point]);
        if let Some(searched) = &self.searched {
            searched.head_tsv(sheet);
            sheet.row("read", &[&searched.found.leaves.len()]);
        }

        let read = self.read();
        for (number, node) in table.nodes.iter().enumerate() {
            let worth = self.amount(self.worths[number]);
            let (grains, points) = (worth.grains, worth.points());
            let leaf = node.kind == Kind::Leaf;
            let mark = |read: &Vec<bool>| match leaf {
                true => u8::from(read[number]).to_string(),
                false => String::new(),
            };
            let mark = read.as_ref().map(mark);
            let mut more: Vec<&dyn Display> = vec![&grains, &points];
            more.extend(mark.iter().map(|mark| mark as &dyn Display));
            sheet.node(number, node, &more);
        }
        for standing in self.standings() {
            let Standing { worth, loss, .. } = standing;
            sheet.row(
                "child",
                &[
                    &standing.number,
                    &standing.node,
                    &worth.grains,
                    &worth.points(),
                    &loss.grains,
                    &loss.points(),
                    &u8::from(standing.within),
                    &u8::from(standing.play),
                ],
            );
        }
    }
}
