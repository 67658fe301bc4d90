//! `worth`: the exact worth.

use margin_engine::{Refusal, Worth, exact_worth};

use super::{Answer, Question, Verb};
use crate::input::TABLE;
use crate::output::{Amount, Page, Sheet};

pub const VERB: Verb = Verb {
    name: "worth",
    arguments: "",
    options: &[],
    files: &TABLE,
    does: "tells the exact worth of a table",
    more: &[],
    ask: |words| words.about_table(Asked),
};

struct Asked;

impl Question for Asked {
    fn answer(&self, text: &[u8]) -> Result<Box<dyn Answer>, Refusal> {
        Ok(Box::new(exact_worth(text)?))
    }
}

impl Answer for Worth {
    fn people(&self, page: &mut Page) {
        page.amount("worth", Amount::of(self.grains, self.per_point));
        page.grain(self.per_point);
    }

    fn tsv(&self, sheet: &mut Sheet) {
        sheet.amount("worth", Amount::of(self.grains, self.per_point));
        sheet.row("grain", &[&self.per_point]);
    }
}
