//! Holds the desk's verb `recipe` to the second engine, in both forms, and to its
//! description, docs/DESK.md.
//!
//! SEED sets the seed of the random recipes.

use compare::hold::desk::*;
use compare::hold::seen::Seen;
use compare::hold::tally::Tally;
use compare::hold::{code, recipe};
use compare::random::Random;
use compare::second::desk::{self, Form, FORMS};
use compare::second::{self, Recipe, LINE};

/// A recipe as it is written; its dice are 0 or 1.
struct Written {
    recipe: Recipe,
    /// The words for its seed, its branching number and its depth.
    words: [String; 3],
}

impl Written {
    fn new(recipe: Recipe) -> Written {
        let Recipe {
            seed,
            branching,
            depth,
            ..
        } = recipe;
        let words = [seed, branching, depth].map(|number| number.to_string());
        Written { recipe, words }
    }

    /// The words of a command, with `--dice` in its place among them by turns.
    fn command(&self, form: Form, turn: usize) -> Vec<String> {
        let mut command = vec!["recipe".to_string()];
        command.extend(self.words.clone());
        if self.recipe.dice == 1 {
            command.insert(1 + turn % 4, "--dice".to_string());
        }
        if form == Form::Tsv {
            let places = command.len();
            command.insert(1 + turn % places, "--tsv".to_string());
        }
        command
    }

    /// Fails the test unless the program prints what the second engine says.
    fn hold(&self, tally: &mut Tally, form: Form) {
        let turn = tally.cases as usize;
        // It reads no input; one is there, so that it shows if it were read.
        let ran = run(&self.command(form, turn), b"no table");
        let expected = desk::recipe(self.recipe, form);
        match &expected {
            Ok(answer) => ran.answers(answer),
            Err(refusal) => {
                let words = self.words.each_ref().map(|word| &word[..]);
                let detail = desk::recipe_detail(self.recipe, words);
                Refused::of_recipe(*refusal, detail).hold(&ran, form, "", &tally.place());
            }
        }
        tally.add(&[code(&expected)]);
    }
}

/// Every branching number and depth, with dice and without, in both forms.
#[test]
fn every_shape() {
    let mut tally = Tally::new("desk on every recipe but for the seed");
    for dice in 0..=1 {
        for branching in 2..=5 {
            for depth in 0..=9 {
                let seed = 1_000_003 * (branching + 7 * depth);
                let written = Written::new(Recipe::new([seed, branching, depth, dice]));
                for form in FORMS {
                    written.hold(&mut tally, form);
                }
            }
        }
    }
    tally.report();
    assert_eq!((tally.counts[0], tally.counts[19]), (80, 80));
}

/// Numbers in range and out of it, several at once too.
#[test]
fn random_recipes() {
    let mut tally = Tally::new("desk on random recipes");
    let mut seen = Seen::default();
    for number in 0..300 {
        let random = &mut Random::of_case(tally.seed, number);
        let any = |random: &mut Random, most: i64| match random.below(5) {
            0 => random.pick(&[-1, most + 1, 258, i64::MIN + 1, i64::MAX]),
            _ => random.between(0, most),
        };
        let recipe = Recipe::new([
            any(random, 2_147_483_647),
            any(random, 5),
            any(random, 9),
            random.between(0, 1),
        ]);
        let form = random.pick(&FORMS);
        Written::new(recipe).hold(&mut tally, form);
        let out = recipe::out_of_range(recipe).len();
        for one in FORMS {
            let here = form == one;
            let is_table = recipe.table().is_ok();
            seen.count(&format!("a table for {one:?}"), here && is_table);
            let nodes = out == 0 && !is_table;
            seen.count(&format!("too many nodes for {one:?}"), here && nodes);
            seen.count(&format!("out of range for {one:?}"), here && out == 1);
            seen.count(&format!("two out of range for {one:?}"), here && out == 2);
        }
        seen.count("three out of range", out == 3);
    }
    tally.report();
    seen.demand(3);
}

/// Numbers of any length are numbers, and those past every range are refused; zeros before
/// one change nothing.
#[test]
fn numbers_of_any_length() {
    let mut tally = Tally::new("desk on recipes with numbers of any length");
    let long = "123456789012345678901234567890123456789012345678901234567890";
    let minus = format!("-{long}");
    let zeros = "0".repeat(60) + "3";
    let value = |word: &str| grains_of(&format!("{word}g"), 1);
    for place in 0..3 {
        for word in [long, &minus, "9223372036854775808", "-1", "-0", &zeros] {
            let mut words = ["4", "4", "4"];
            words[place] = word;
            let [seed, branching, depth] = words.map(value);
            let written = Written {
                recipe: Recipe::new([seed, branching, depth, 0]),
                words: words.map(str::to_string),
            };
            for form in FORMS {
                written.hold(&mut tally, form);
            }
        }
    }
    tally.report();
    // In both forms: a seed and a depth of -0, and zeros before a 3 in each place.
    assert_eq!(tally.counts[0], 10);
}

/// What is printed is read by the other verbs.
#[test]
fn printed_and_searched() {
    for numbers in [[7, 4, 2, 1], [7, 2, 2, 1], [1, 2, 9, 0], [3, 5, 0, 1]] {
        let written = Written::new(Recipe::new(numbers));
        let printed = run(&written.command(Form::People, 0), &[]);
        let table = written.recipe.table().expect("a table");
        assert_eq!(second::read(printed.out.as_bytes()), Ok(table.clone()));
        assert_eq!(printed.out.len(), LINE * (1 + table.nodes.len()));
        let searched = desk::search(&table, 8 * table.grains, None, Form::People);
        let ran = run(&["search", "8"], printed.out.as_bytes());
        ran.answers(&searched.expect("an answer"));
    }
}

/// Options stand anywhere after the verb.
#[test]
fn options_anywhere() {
    let with = desk::recipe(Recipe::new([7, 2, 2, 1]), Form::People).expect("a table");
    let fields = desk::recipe(Recipe::new([7, 2, 2, 1]), Form::Tsv).expect("a table");
    let without = desk::recipe(Recipe::new([7, 2, 2, 0]), Form::People).expect("a table");
    for (line, expected) in [
        ("recipe 7 2 2", &without),
        ("recipe -- 7 2 2", &without),
        ("recipe 7 2 2 --dice", &with),
        ("recipe --dice 7 2 2", &with),
        ("recipe 7 --dice 2 2", &with),
        ("recipe --dice -- 7 2 2", &with),
        ("recipe --dice 7 2 2 --dice", &with),
        ("recipe --tsv 7 2 --dice 2", &fields),
        ("recipe 7 2 2 --dice --tsv", &fields),
    ] {
        let words: Vec<&str> = line.split(' ').collect();
        run(&words, &[]).answers(expected);
    }
}

// ---------------------------------------------------------------------------
// The description
// ---------------------------------------------------------------------------

/// The table in the description, whose lines have words beside them.
#[test]
fn the_table_in_the_description() {
    let described = block("docs/DESK.md", "`desk recipe 7 2 1 --dice`");
    let ran = run(&["recipe", "7", "2", "1", "--dice"], &[]);
    let expected = desk::recipe(Recipe::new([7, 2, 1, 1]), Form::People);
    ran.answers(&expected.expect("a table"));
    assert_eq!(described.lines().count(), ran.out.lines().count());
    for (described, line) in described.lines().zip(ran.out.lines()) {
        assert_eq!(described.get(..24), Some(line), "{described}");
        let words = described.get(24..).unwrap_or_default().trim();
        assert!(!words.is_empty(), "{described}");
    }
}

/// The table that is searched in the description is the example.
#[test]
fn the_search_in_the_description() {
    let described = block("docs/DESK.md", "`desk recipe 7 2 2 --dice | desk search 8`");
    let table = Recipe::new([7, 2, 2, 1]).table().expect("a table");
    let searched = desk::search(&table, 8 * table.grains, None, Form::People);
    assert_eq!(searched, Ok(described.clone()));
    let printed = run(&["recipe", "7", "2", "2", "--dice"], &[]);
    run(&["search", "8"], printed.out.as_bytes()).answers(&described);
    for (name, words) in [
        ("recipe-7-2-2-dice", &["7", "2", "2", "--dice"][..]),
        ("recipe-7-2-3", &["7", "2", "3"]),
        ("recipe-1-4-2-dice", &["1", "4", "2", "--dice"]),
    ] {
        let (_, text) = example(name);
        let text = String::from_utf8(text).expect("ASCII");
        run(&[&["recipe"], words].concat(), &[]).answers(&text);
    }
}

/// The refused recipe in the description.
#[test]
fn the_refusal_in_the_description() {
    let described = block("docs/DESK.md", "recipe is refused; the reason names each");
    assert!(described.starts_with("desk: refused 19\n"));
    let ran = run(&["recipe", "7", "3", "6"], &[]);
    assert_eq!((ran.status, &*ran.out), (Some(1), ""));
    assert_eq!(ran.err, described);
    let ran = run(&["recipe", "-1", "3", "11"], &[]);
    assert!(ran.err.contains(": the seed is -1, the depth is 11\n"));
}
