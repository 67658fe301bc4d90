//! `recipe SEED BRANCHING DEPTH`: a table to test with.

use std::process::ExitCode;

use margin_engine::{BRANCHINGS, GREATEST_DEPTH, GREATEST_SEED, Recipe, recipe};

use super::{Verb, Written, formed};
use crate::input::NO_FILE;
use crate::margin::Number;
use crate::output::{complain, grouped, print};
use crate::refused::Refused;
use crate::{ANSWERED, REFUSED};

/// The option that asks for dice.
const DICE: &str = "--dice";

pub const VERB: Verb = Verb {
    name: "recipe",
    arguments: "SEED BRANCHING DEPTH",
    options: &[(DICE, "")],
    files: &NO_FILE,
    does: "prints a table to test with, from a few numbers",
    more: &[
        "\
The same numbers print the same table, everywhere. SEED is 0 to 2147483647,
BRANCHING 2 to 5, DEPTH 0 to 9 plays; the table has at most 1,024 nodes. `desk
recipe 7 4 2 --dice | desk search 8` searches one.
",
        "\
M and N play by turns, M at the root; each has BRANCHING plays, and DEPTH plays
lead to a leaf, whose utility, 0 to 100, is drawn from SEED. With --dice each play
is a C of as many children: the one of the play's own number comes four times in
five, the others share the rest.
",
    ],
    ask: |mut words| {
        let seed = words.number("SEED")?;
        let branching = words.number("BRANCHING")?;
        let depth = words.number("DEPTH")?;
        let dice = words.has(DICE);
        words.about_recipe(Asked {
            seed,
            branching,
            depth,
            dice,
        })
    },
};

/// A recipe as it was written.
pub struct Asked {
    seed: Number,
    branching: Number,
    depth: Number,
    dice: bool,
}

/// Prints the table of a recipe.
pub fn run(asked: &Asked, tsv: bool) -> ExitCode {
    match recipe(&asked.recipe()) {
        Ok(made) => print(&formed(&Written(made.text), tsv), ANSWERED),
        Err(refusal) => {
            let refused = Refused::given(refusal, asked.given());
            if tsv {
                return print(refused.tsv().as_bytes(), REFUSED);
            }
            complain(&refused.people(None));
            ExitCode::from(REFUSED)
        }
    }
}

impl Asked {
    fn recipe(&self) -> Recipe {
        Recipe {
            seed: self.seed.value,
            branching: self.branching.value,
            depth: self.depth.value,
            dice: self.dice,
        }
    }

    /// What to say of a recipe that is refused: each number that is out of its range, or
    /// how many nodes there would be.
    fn given(&self) -> String {
        let (fewest, most) = BRANCHINGS;
        let numbers = [
            (&self.seed, 0..=GREATEST_SEED, "the seed"),
            (&self.branching, fewest..=most, "the branching number"),
            (&self.depth, 0..=GREATEST_DEPTH, "the depth"),
        ];
        let out = numbers
            .iter()
            .filter(|(number, range, _)| !range.contains(&number.value));
        let out = out.map(|(number, _, name)| format!("{name} is {}", number.word));
        let out: Vec<String> = out.collect();
        match out.is_empty() {
            true => format!("it would have {} nodes", grouped(self.nodes())),
            false => out.join(", "),
        }
    }

    /// How many nodes the table would have, where the numbers are in range: one, and under
    /// it BRANCHING times as many as with a level less. A play with dice has two levels.
    fn nodes(&self) -> i64 {
        let plays = self.depth.value;
        let levels = if self.dice { 2 * plays } else { plays };
        (0..levels).fold(1, |nodes, _| 1 + self.branching.value * nodes)
    }
}
