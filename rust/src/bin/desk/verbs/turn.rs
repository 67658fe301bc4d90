//! `turn`: the table from the other side.

use margin_engine::{Refusal, turn};

use super::{Answer, Question, Verb, Written};
use crate::input::TABLE;

pub const VERB: Verb = Verb {
    name: "turn",
    arguments: "",
    options: &[],
    files: &TABLE,
    does: "prints the table from the other side",
    more: &["\
M and N change places, utilities get the other sign, and the two ends are negated
and exchanged. All else is kept, both totals too. Numbers are written with blanks
before them, whatever zeros stood there.
"],
    ask: |words| words.about_table(Asked),
};

struct Asked;

impl Question for Asked {
    fn answer(&self, text: &[u8]) -> Result<Box<dyn Answer>, Refusal> {
        Ok(Box::new(Written(turn(text)?.text)))
    }
}
