//! `judge NUMBER`: what a play loses.

use margin_engine::{Judgement, Play, Refusal, Table, judge, read};

use super::{Answer, Played, Question, Verb};
use crate::input::TABLE;
use crate::margin::Number;
use crate::output::{Amount, Page, Sheet};

pub const VERB: Verb = Verb {
    name: "judge",
    arguments: "NUMBER",
    options: &[],
    files: &TABLE,
    does: "tells what a play loses",
    more: &["\
NUMBER counts the root's children from 1, in the order of their lines. Told are
the play's loss against the best one, and how many plays are level with the best:
those that lose nothing, to the grain. A single play is forced: it is no decision,
whatever the NUMBER.
"],
    ask: |mut words| {
        let number = words.number("NUMBER")?;
        words.about_table(Asked { number })
    },
};

struct Asked {
    number: Number,
}

impl Question for Asked {
    fn answer(&self, text: &[u8]) -> Result<Box<dyn Answer>, Refusal> {
        let number = self.number.value;
        let judgement = judge(text, number)?;
        let table = read(text)?;
        let plays: Vec<usize> = table.children(0).collect();
        let play = match judgement {
            // Where there is a choice the engine refuses a number that no child has.
            Judgement::Loss { .. } => Play::Child {
                number,
                node: plays[number as usize - 1],
            },
            Judgement::NoDecision => Play::None,
        };
        Ok(Box::new(Judged {
            judgement,
            played: Played::of(play, &table, "no decision: node 1 is the only play"),
            plays: plays.len(),
            per_point: table.per_point,
        }))
    }

    fn given(&self, _: &Refusal, table: &Table) -> String {
        given(&self.number.word, table)
    }
}

/// What to say of a number that no child has.
pub fn given(number: &str, table: &Table) -> String {
    let children = table.children(0).count();
    format!("{number} was given, and there are {children}")
}

struct Judged {
    judgement: Judgement,
    played: Played,
    /// How many there are.
    plays: usize,
    per_point: i64,
}

impl Answer for Judged {
    fn people(&self, page: &mut Page) {
        self.played.people(page);
        if let Judgement::Loss { grains, level } = self.judgement {
            page.amount("loss", Amount::of(grains, self.per_point));
            page.named("level", format_args!("{level} of {} plays", self.plays));
        }
        page.grain(self.per_point);
    }

    fn tsv(&self, sheet: &mut Sheet) {
        self.played.tsv(sheet);
        if let Judgement::Loss { grains, level } = self.judgement {
            sheet.amount("loss", Amount::of(grains, self.per_point));
            sheet.row("level", &[&level]);
            sheet.row("plays", &[&self.plays]);
        }
        sheet.row("grain", &[&self.per_point]);
    }
}
