//! `search MARGIN`: the worth and a play to within a margin, or as far as a budget of
//! leaf reads goes; with the index of ends, if that is asked for.

use margin_engine::{
    Found, Play, Refusal, Table, index, read, search, search_indexed, search_within,
};

use super::{Answer, Played, Question, Verb};
use crate::help::MARGINS;
use crate::input::TABLE;
use crate::margin::{Margin, Number};
use crate::output::{Amount, Page, Sheet};

/// The option that names the budget.
const BUDGET: &str = "--budget";

/// The option that asks for the index.
const INDEX: &str = "--index";

/// The refusal of a budget.
const BAD_BUDGET: u8 = 17;

pub const VERB: Verb = Verb {
    name: "search",
    arguments: "MARGIN",
    options: &[(BUDGET, "N"), (INDEX, "")],
    files: &TABLE,
    does: "finds the worth and a play to within a margin",
    more: &[
        "\
The worth lies from low to high, which are at most the margin apart; the play
loses at most the margin against the best. Only the leaves listed were read: the
answer is the same whatever the others are, within the ends. Margin 0 gives the
exact worth.
",
        "\
Of the plays looked into, the one named at an M root has the highest low; of
several such it has the highest high, so that it could also turn out best. At an N
root it has the lowest high, and of several such the lowest low. Of those that are
still equal it is the first.
",
        "\
With --budget N, 0 to 1,024, at most N leaves are read. Where that is too few,
the budget is spent: the worth still lies from low to high, and the play is worth
at least low at an M root, at most high at an N root, but the margin need not be
kept. A play that the search comes to when no read is left counts with the two
ends as its bounds, and may be the one named.
",
        "\
With --index the lowest and the highest utility under each line are found first
(`desk index` lists them), and what is unread under a line counts at these two
ends of its own, not at the table's. Mostly fewer leaves are read then, and the
margin is kept. The answer is the same whatever the others are, provided that the
index is. There is no budget for this search.
",
        MARGINS,
    ],
    ask: |mut words| {
        let margin = words.margin()?;
        let how = match (words.number_after(BUDGET)?, words.has(INDEX)) {
            (Some(_), true) => {
                return Err(format!(
                    "{BUDGET} does not go with {INDEX}: the search with an index has no budget"
                ));
            }
            (Some(budget), false) => How::Within(budget),
            (None, true) => How::Indexed,
            (None, false) => How::Plain,
        };
        words.about_table(Asked { margin, how })
    },
};

struct Asked {
    margin: Margin,
    how: How,
}

/// Which search is asked for.
pub enum How {
    Plain,
    /// With at most so many leaves read.
    Within(Number),
    /// With the table's index.
    Indexed,
}

impl Question for Asked {
    fn answer(&self, text: &[u8]) -> Result<Box<dyn Answer>, Refusal> {
        let table = read(text)?;
        let searched = Searched::to(&self.margin, &self.how, text, &table)?;
        Ok(Box::new(searched))
    }

    fn given(&self, refusal: &Refusal, table: &Table) -> String {
        match &self.how {
            How::Within(budget) if refusal.number == BAD_BUDGET => {
                format!("{} was given", budget.word)
            }
            _ => given(&self.margin, table),
        }
    }
}

/// What to say of a margin that is refused.
pub fn given(margin: &Margin, table: &Table) -> String {
    let (word, grains) = (&margin.word, margin.grains(table.per_point));
    match grains.abs() {
        // The end of the numbers: it was more than this.
        i64::MAX => format!("{word} was given"),
        _ => format!("{word} is {grains}g"),
    }
}

/// What a search found, and what it is shown with.
pub struct Searched {
    pub margin: i64,
    /// How many leaves it was to read at most, if that was said.
    budget: Option<i64>,
    /// The lowest and the highest utility, where the index was used.
    utilities: Option<(i64, i64)>,
    pub found: Found,
    played: Played,
    /// The table's leaves.
    leaves: usize,
}

impl Searched {
    /// Searches a table to this margin.
    pub fn to(margin: &Margin, how: &How, text: &[u8], table: &Table) -> Result<Searched, Refusal> {
        let margin = margin.grains(table.per_point);
        let (mut budget, mut utilities) = (None, None);
        let found = match how {
            How::Plain => search(text, margin)?,
            How::Within(most) => {
                budget = Some(most.value);
                search_within(text, margin, most.value)?
            }
            How::Indexed => {
                let index = index(text)?;
                // A leaf has no entry.
                let lone = table.nodes[0].utility.map(|utility| (utility, utility));
                utilities = lone.or(Some((index.lows[0], index.highs[0])));
                search_indexed(text, margin, &index)?
            }
        };
        let mut played = Played::of(found.play, table, "none: a budget of 0 reads no leaf");
        if let Play::Child { node, .. } = found.play {
            let under = node..table.nodes[node].stop;
            if !found.leaves.iter().any(|leaf| under.contains(leaf)) {
                // A play that is entered with a read left has a leaf of it read.
                played.note = ", not looked into";
            }
        }
        Ok(Searched {
            margin,
            budget,
            utilities,
            played,
            found,
            leaves: table.leaves,
        })
    }

    fn amount(&self, grains: i64) -> Amount {
        Amount::of(grains, self.found.per_point)
    }

    /// The bounds, the play and how much was read.
    pub fn head(&self, page: &mut Page) {
        page.amount("margin", self.amount(self.margin));
        if let Some(budget) = self.budget {
            let leaves = if budget == 1 { "leaf" } else { "leaves" };
            let spent = if self.found.spent {
                "spent"
            } else {
                "not spent"
            };
            page.named("budget", format_args!("{budget} {leaves}, {spent}"));
        }
        if let Some((lowest, highest)) = self.utilities {
            page.named("index", format_args!("utilities {lowest} to {highest}"));
        }
        page.amount("low", self.amount(self.found.low));
        page.amount("high", self.amount(self.found.high));
        if self.budget.is_some() {
            page.amount("apart", self.amount(self.found.difference));
        }
        self.played.people(page);
        page.leaves(self.found.leaves.len(), self.leaves);
    }

    /// The bounds and the play.
    pub fn head_tsv(&self, sheet: &mut Sheet) {
        sheet.amount("margin", self.amount(self.margin));
        if let Some(budget) = self.budget {
            sheet.row("budget", &[&budget, &u8::from(self.found.spent)]);
        }
        if let Some((lowest, highest)) = &self.utilities {
            sheet.row("index", &[lowest, highest]);
        }
        sheet.amount("low", self.amount(self.found.low));
        sheet.amount("high", self.amount(self.found.high));
        if self.budget.is_some() {
            sheet.amount("apart", self.amount(self.found.difference));
        }
        self.played.tsv(sheet);
    }
}

impl Answer for Searched {
    fn people(&self, page: &mut Page) {
        self.head(page);
        page.list("leaf", &self.found.leaves);
        page.grain(self.found.per_point);
    }

    fn tsv(&self, sheet: &mut Sheet) {
        self.head_tsv(sheet);
        sheet.leaves(self.leaves, &self.found.leaves);
        sheet.row("grain", &[&self.found.per_point]);
    }
}
