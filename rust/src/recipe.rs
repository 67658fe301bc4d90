//! Tables by recipe.

use crate::refusal::{Refusal, answered};
use crate::{MOST_BYTES, raw};

/// What a table to test with is made from. Equal recipes make equal tables, on every
/// machine.
#[derive(Clone, Copy, Debug, PartialEq, Eq, Hash)]
pub struct Recipe {
    /// What the utilities are drawn from: 0 to 2,147,483,647.
    pub seed: i64,
    /// How many children each line but a leaf has: 2 to 5.
    pub branching: i64,
    /// How many plays lead to a leaf: 0 to 9.
    pub depth: i64,
    /// Whether a roll follows each play.
    pub dice: bool,
}

/// A table that was made.
#[derive(Clone, Debug, PartialEq, Eq)]
#[non_exhaustive]
pub struct Made {
    /// Its text.
    pub text: Vec<u8>,
}

/// Makes the table of a recipe. M and N play by turns, M at the root, and after `depth`
/// plays comes a leaf; with a depth of 0 that is all. Each line but a leaf has `branching`
/// children. With dice each play is a C, under which the play's own child, that of the
/// same number, comes four times in five and the others share the rest. Leaves are worth
/// 0 to 100, the two ends. Refuses 19 where one of the numbers is out of its range, or the
/// table would have more than 1,024 nodes.
///
/// ```
/// use margin_engine::{Recipe, recipe, search};
///
/// let mut asked = Recipe { seed: 7, branching: 2, depth: 2, dice: true };
/// let made = recipe(&asked)?;
/// assert_eq!(made.text, std::fs::read("../examples/recipe-7-2-2-dice.txt")?);
/// assert!(search(&made.text, 0).is_ok());
///
/// asked.depth = 5;
/// assert_eq!(recipe(&asked).unwrap_err().number, 19); // 2,047 nodes
/// # Ok::<(), Box<dyn std::error::Error>>(())
/// ```
pub fn recipe(recipe: &Recipe) -> Result<Made, Refusal> {
    let Recipe {
        seed,
        branching,
        depth,
        dice,
    } = *recipe;
    let mut text = vec![0; MOST_BYTES];
    let mut numbers = [0];
    answered(raw::recipe(
        seed,
        branching,
        depth,
        i64::from(dice),
        &mut text,
        &mut numbers,
    ))?;
    let [written] = numbers;
    text.truncate(written as usize);
    Ok(Made { text })
}
