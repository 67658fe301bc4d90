//! The verb `recipe`: what it prints, and what is said of a recipe that is refused.

use super::details::in_threes;
use super::{written, Form};
use crate::second::{self, Recipe, Refusal, LINE, MOST_NODES};

pub fn recipe(recipe: Recipe, form: Form) -> Result<String, Refusal> {
    let mut text = vec![0; LINE * (1 + MOST_NODES)];
    let length = second::recipe(recipe, &mut text)?;
    text.truncate(length);
    written(text, form)
}

/// What the reason of 19 says after its colon, where the seed, the branching number and the
/// depth were written as these words.
pub fn recipe_detail(recipe: Recipe, [seed, branching, depth]: [&str; 3]) -> String {
    let mut out = Vec::new();
    if recipe.seed < 0 || recipe.seed > 2_147_483_647 {
        out.push(format!("the seed is {seed}"));
    }
    if recipe.branching < 2 || recipe.branching > 5 {
        out.push(format!("the branching number is {branching}"));
    }
    if recipe.depth < 0 || recipe.depth > 9 {
        out.push(format!("the depth is {depth}"));
    }
    if out.is_empty() {
        out.push(format!("it would have {} nodes", in_threes(recipe.nodes())));
    }
    out.join(", ")
}
