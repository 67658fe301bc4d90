//! Questions, and the second engine's answers.

use super::{run, Ran, Refused};
use crate::hold;
use crate::hold::tally::Tally;
use crate::second::desk::{self, Form, FORMS};
use crate::second::{self, Refusal};
use Question::{
    Index, Judge, Rollout, Search, SearchIndexed, SearchWithin, Show, ShowTo, Turn, Worth,
};

/// A verb and what it is given; margins and budgets as they are written.
#[derive(Clone, Debug)]
pub enum Question {
    Show,
    ShowTo(String),
    Worth,
    Judge(i64),
    Search(String),
    /// A margin and a budget.
    SearchWithin(String, String),
    /// With the table's index.
    SearchIndexed(String),
    Index,
    Turn,
    Rollout(Vec<u8>),
}

/// Words of a command.
pub fn words(words: &[&str]) -> Vec<String> {
    words.iter().map(|word| word.to_string()).collect()
}

impl Question {
    pub fn words(&self) -> Vec<String> {
        match self {
            Show => words(&["show"]),
            ShowTo(margin) => words(&["show", "--margin", margin]),
            Worth => words(&["worth"]),
            Judge(number) => words(&["judge", &number.to_string()]),
            Search(margin) => words(&["search", margin]),
            SearchWithin(margin, budget) => words(&["search", "--budget", budget, margin]),
            SearchIndexed(margin) => words(&["search", "--index", margin]),
            Index => words(&["index"]),
            Turn => words(&["turn"]),
            Rollout(policy) if policy.is_empty() => words(&["rollout"]),
            Rollout(policy) => {
                let numbers: Vec<String> = policy.iter().map(u8::to_string).collect();
                words(&["rollout", &numbers.join(",")])
            }
        }
    }

    pub fn answer(&self, text: &[u8], form: Form) -> Result<String, Refusal> {
        let table = &second::read(text)?;
        let grains = |margin: &str| grains_of(margin, table.grains);
        match self {
            Show => desk::show(table, None, form),
            ShowTo(margin) => desk::show(table, Some(grains(margin)), form),
            Worth => Ok(desk::worth(table, form)),
            Judge(number) => desk::judge(table, *number, form),
            Search(margin) => desk::search(table, grains(margin), None, form),
            SearchWithin(margin, budget) => {
                let budget = whole_number(budget);
                desk::search(table, grains(margin), Some(budget), form)
            }
            SearchIndexed(margin) => desk::search_indexed(table, grains(margin), form),
            Index => Ok(desk::index(table, form)),
            Turn => desk::turn(text, form),
            Rollout(policy) => desk::rollout(table, policy, form),
        }
    }
}

/// The grains of a margin as it is written, points rounded down; the nearest
/// number there is where they are too many for an i64. It is multiplied digit by
/// digit, as it may have any number of them.
pub fn grains_of(written: &str, grain: i64) -> i64 {
    let (digits, factor) = match written.strip_suffix('g') {
        Some(digits) => (digits, 1),
        None => (written, grain),
    };
    let (negative, digits) = match digits.strip_prefix('-') {
        Some(digits) => (true, digits),
        None => (false, digits),
    };
    let (whole, places) = digits.split_once('.').unwrap_or((digits, ""));

    // The product's digits, the last first.
    let mut product = Vec::new();
    let mut carry = 0;
    for digit in whole.chars().chain(places.chars()).rev() {
        carry += i64::from(digit.to_digit(10).expect("a digit")) * factor;
        product.push(carry % 10);
        carry /= 10;
    }
    while carry > 0 {
        product.push(carry % 10);
        carry /= 10;
    }

    let (dropped, kept) = product.split_at(places.len());
    let digits = kept.iter().rev();
    let grains = digits.fold(0, |value: i64, digit| {
        value.saturating_mul(10).saturating_add(*digit)
    });
    let part = dropped.iter().any(|&digit| digit > 0);
    match negative {
        true => -grains - i64::from(part),
        false => grains,
    }
}

/// A whole number as it is written; the nearest there is where it is too great for an
/// i64.
fn whole_number(written: &str) -> i64 {
    grains_of(&format!("{written}g"), 1)
}

/// Where the table comes from.
#[derive(Clone, Copy, Debug)]
pub enum Way<'a> {
    /// From the file of this name.
    File(&'a str),
    /// From standard input, where no file is named.
    Input,
    /// From standard input, as `-`.
    Dash,
}

impl Way<'_> {
    /// What a refusal calls it.
    pub fn name(&self) -> &str {
        match self {
            Way::File(name) => name,
            Way::Input | Way::Dash => "standard input",
        }
    }
}

/// Runs the program on a question. Options stand before all else after the verb
/// or at the end, by turns.
pub fn ask(mut words: Vec<String>, text: &[u8], form: Form, way: Way, turn: u64) -> Ran {
    let input = match way {
        Way::File(name) => {
            words.push(name.to_string());
            &[]
        }
        Way::Input => text,
        Way::Dash => {
            words.push("-".to_string());
            text
        }
    };
    if form == Form::Tsv {
        let at = if turn.is_multiple_of(2) {
            1
        } else {
            words.len()
        };
        words.insert(at, "--tsv".to_string());
    }
    run(&words, input)
}

/// Compares the program and the second engine on questions.
pub struct Comparison {
    pub tally: Tally,
}

impl Comparison {
    pub fn new(name: &'static str) -> Comparison {
        Comparison {
            tally: Tally::new(name),
        }
    }

    /// Asks both about an accepted table, and returns the answer or the refusal.
    pub fn hold(
        &mut self,
        question: &Question,
        text: &[u8],
        form: Form,
        way: Way,
    ) -> Result<String, Refusal> {
        let ran = ask(question.words(), text, form, way, self.tally.cases);
        let expected = question.answer(text, form);
        match &expected {
            Ok(answer) => ran.answers(answer),
            Err(refusal) => {
                let place = self.tally.place();
                Refused::of(text, *refusal).hold(&ran, form, way.name(), &place);
            }
        }
        self.tally.add(&[hold::code(&expected)]);
        expected
    }

    /// The same in both forms, where there must be an answer.
    pub fn answered(&mut self, question: &Question, text: &[u8], way: Way) {
        for form in FORMS {
            let answer = self.hold(question, text, form, way);
            assert!(answer.is_ok(), "{question:?}: {answer:?}");
        }
    }

    /// Counts for the record, and fails where less was compared than this.
    pub fn demand(&self, least: u64) {
        self.tally.report();
        assert!(self.tally.cases >= least, "only {} runs", self.tally.cases);
    }
}
