//! Holds the README's figures and examples to what both engines answer.

use compare::hold::budget::{self, Asked};
use compare::hold::desk::{block, root, run};
use compare::hold::leaves::{self, FROM_PLAY};
use compare::hold::numbers::ROOM;
use compare::hold::searching::Expected;
use compare::hold::tally::Tally;
use compare::second::desk::{self, Form, Reported, USUAL_SCALE};
use compare::second::{self, Recipe, Table};

/// Margins in points: at the ends that the examples have, at narrow ones, and with an
/// index.
const README_MARGINS: [i64; 4] = [0, 20, 50, 100];

/// The text with its ends drawn to the lowest and the highest utility.
fn narrowed(text: &[u8], table: &Table) -> Vec<u8> {
    let utilities = || table.nodes.iter().filter_map(|node| node.utility);
    let (lowest, highest) = (utilities().min(), utilities().max());
    let mut narrow = text.to_vec();
    narrow[8..24].copy_from_slice(
        format!(
            "{:8}{:8}",
            lowest.expect("a leaf"),
            highest.expect("a leaf")
        )
        .as_bytes(),
    );
    narrow
}

/// The leaves that both engines read at a margin in points.
fn leaves_read(text: &[u8], points: i64) -> usize {
    let table = second::read(text).expect("an example is accepted");
    leaves::read(text, points * table.grains)
}

/// The same with the table's index.
fn leaves_read_indexed(text: &[u8], points: i64) -> usize {
    let table = second::read(text).expect("an example is accepted");
    leaves::read_indexed(text, points * table.grains)
}

/// Counts as a row of a table writes them.
fn row(counts: [usize; 4]) -> String {
    counts.map(in_threes).join(", ")
}

/// A number below a million, with a comma before its last three digits.
fn in_threes(number: usize) -> String {
    match number {
        0..1_000 => number.to_string(),
        _ => format!("{},{:03}", number / 1_000, number % 1_000),
    }
}

/// The README's words, a blank between two.
fn words() -> String {
    readme().split_whitespace().collect::<Vec<_>>().join(" ")
}

fn readme() -> String {
    std::fs::read_to_string(root().join("README.md")).expect("README.md")
}

fn example(file: &str) -> Vec<u8> {
    std::fs::read(root().join(file)).expect("an example")
}

/// The first answers in the README are what the second engine and the programs
/// print. (The margin program is held to the second engine in tests of its own.)
#[test]
fn first_answers() {
    let table = second::read(&example("examples/b.txt")).expect("accepted");
    let shown = desk::show(&table, Some(12), Form::People).expect("an answer");
    let file = "examples/marks.txt";
    let reported = Reported::of(file, &example(file), USUAL_SCALE).expect("accepted");
    let reported = desk::report(&reported, false, Form::People);
    for (command, answer) in [
        ("show --margin 3 examples/b.txt", shown),
        ("report examples/marks.txt", reported),
    ] {
        assert_eq!(block("README.md", &format!("    ./desk {command}")), answer);
        let words: Vec<&str> = command.split(' ').collect();
        run(&words, &[]).answers(&answer);
    }

    let searched = second::output(&example("examples/b-12.txt"));
    let printed = block("README.md", "    ./margin examples/b-12.txt");
    assert_eq!(printed, searched);
}

/// The lines and the figures of a first roll, whose table has two totals.
#[test]
fn first_roll() {
    let file = "examples/first-roll.txt";
    let text = example(file);
    let table = second::read(&text).expect("accepted");
    assert_eq!((table.total, table.second), (36, Some(15)));
    let lines = String::from_utf8(text.clone()).expect("ASCII");
    let described = block("README.md", "second total, and the weights under each C");
    for (line, described) in lines.lines().zip(described.lines()) {
        assert_eq!(described.get(..24), Some(line), "{described}");
    }
    assert_eq!(described.lines().count(), 5, "{described}");

    let read = leaves_read(&text, 0);
    let worth = second::worth(&table) as f64 / table.grains as f64;
    let said = format!(
        "A point has 15 × 36 = {} grains there, the first roll is worth {worth:.3} points, and \
         {read} of the {} leaves are read to tell that.",
        table.grains, table.leaves
    );
    assert!(words().contains(&said), "{said}");
}

/// The sentence on the leaves read of all rolls at two margins.
#[test]
fn all_rolls() {
    let input = example("examples/rolls-720.txt");
    let (margin, text) = input.split_at(15);
    assert_eq!(margin, b"           720\n");
    let table = second::read(text).expect("accepted");
    assert_eq!((table.total, table.grains), (36, 36));
    let sentence = format!(
        "at margin 0 {} of its {} leaves are read, at 36000 grains {}.",
        leaves_read(text, 0),
        table.leaves,
        leaves_read(text, 1_000)
    );
    assert!(words().contains(&sentence), "{sentence}");
}

/// The README's rows of leaves read are what the engines read of the examples.
#[test]
fn readme_rows() {
    let readme = readme();
    let (mut all, mut sums) = (0, [[0; 4]; 3]);
    for name in FROM_PLAY {
        let file = format!("examples/{name}.txt");
        let text = example(&file);
        let table = second::read(&text).expect("accepted");
        let narrow = narrowed(&text, &table);
        let read = [
            README_MARGINS.map(|points| leaves_read(&text, points)),
            README_MARGINS.map(|points| leaves_read(&narrow, points)),
            README_MARGINS.map(|points| leaves_read_indexed(&text, points)),
        ];
        let [wide, closer, indexed] = read.map(row);
        let leaves = table.leaves;
        let row = format!("({file}) | {leaves} | {wide} | {closer} | {indexed} |");
        assert!(readme.contains(&row), "README.md has no row with {row}");

        let few = read[2].iter().all(|read| 10 * read <= 4 * leaves);
        assert!(few, "{name}: more than four in ten with an index");
        if name == "replies" {
            assert_eq!(read[1][2], read[1][0] + 4, "50 points and 0");
        }
        all += leaves;
        for (sums, read) in sums.iter_mut().zip(read) {
            for (sum, read) in sums.iter_mut().zip(read) {
                *sum += read;
            }
        }
    }
    let [wide, closer, indexed] = sums.map(row);
    let row = format!(
        "| all seven | {} | {wide} | {closer} | {indexed} |",
        in_threes(all)
    );
    assert!(readme.contains(&row), "README.md has no row with {row}");
    // More than nine in ten at every margin; one in six, to the nearest, at margin 0.
    assert!(sums[0].iter().all(|read| 10 * read > 9 * all));
    assert_eq!((2 * all + sums[2][0]) / (2 * sums[2][0]), 6);
}

/// The table by recipe that the README makes and searches, and the files that it names.
#[test]
fn by_recipe() {
    let command = "./desk recipe 7 4 2 --dice | ./desk search 8";
    assert_eq!(
        block("README.md", "### Tables to test with"),
        format!("{command}\n")
    );
    let table = Recipe::new([7, 4, 2, 1]).table().expect("a table");
    let made = run(&["recipe", "7", "4", "2", "--dice"], &[]);
    assert_eq!(second::read(made.out.as_bytes()), Ok(table.clone()));
    let searched = desk::search(&table, 8 * table.grains, None, Form::People);
    run(&["search", "8"], made.out.as_bytes()).answers(&searched.expect("an answer"));
    for (name, numbers) in [
        ("7-2-3", [7, 2, 3, 0]),
        ("7-2-2-dice", [7, 2, 2, 1]),
        ("1-4-2-dice", [1, 4, 2, 1]),
    ] {
        let file = format!("examples/recipe-{name}.txt");
        assert!(words().contains(&file), "{file}");
        assert_eq!(second::read(&example(&file)), Recipe::new(numbers).table());
    }
}

/// The search within a budget that the README speaks of, and the one with a leaf more.
#[test]
fn within_a_budget() {
    let file = "examples/opening.txt";
    let text = example(file);
    let table = second::read(&text).expect("accepted");
    let tally = Tally::new("the README's budget");
    let points = |grains: i64| format!("{:.3}", grains as f64 / table.grains as f64);
    let answer = |budget: i64| {
        let asked = Asked { margin: 0, budget };
        let expected = Expected::by(Ok(&table), asked.terms(), table.leaves);
        budget::hold_to(&tally, &text, asked, (table.leaves, ROOM), &expected);
        expected.answer.expect("an answer").0
    };
    let spent = answer(340);
    let exact = answer(341);
    assert!(spent.spent && !exact.spent && exact.low == exact.high);
    let (low, high, worth) = (points(spent.low), points(spent.high), points(exact.low));
    let said = format!(
        "`./desk search --budget 340 0 {file}` reads all but one of the 341 leaves that margin 0 \
         needs there, and has the worth from {low} to {high} points; with one leaf more it is \
         exactly {worth}."
    );
    assert!(words().contains(&said), "{said}");
}
