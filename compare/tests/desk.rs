//! Holds the answers of the desk's command to the second engine, in both forms, and
//! to its description, docs/DESK.md.
//!
//! SEED sets the seed of the random tables.

use std::io::Write;
use std::thread;
use std::time::Duration;

use compare::hold;
use compare::hold::desk::Question::{
    Index, Judge, Rollout, Search, SearchIndexed, SearchWithin, Show, ShowTo, Turn, Worth,
};
use compare::hold::desk::*;
use compare::hold::rolling::policies;
use compare::hold::seen::{Seen, ROOTS, SIDES};
use compare::hold::totals::uses;
use compare::random::Random;
use compare::second::desk::{self, Form, FORMS};
use compare::second::{self, root_children, Refusal, Table, GREATEST_BUDGET};
use compare::texts;
use compare::texts::examples::*;
use compare::texts::knobs::{Kinds, Knobs};
use compare::texts::padding::{self, blanked, filled};

const EXAMPLES: [&str; 14] = [
    "a",
    "b",
    "level",
    "opening",
    "bar",
    "bear-off",
    "decided",
    "race",
    "replies",
    "holding",
    "first-roll",
    "recipe-7-2-3",
    "recipe-7-2-2-dice",
    "recipe-1-4-2-dice",
];

// ---------------------------------------------------------------------------
// Answers
// ---------------------------------------------------------------------------

/// Margins in points and in grains.
const MARGINS: [&str; 10] = [
    "0", "3", "0.05", "50", "12.345", "300.0", "0g", "12g", "1800g", "1000001g",
];

/// Budgets in leaves.
const BUDGETS: [&str; 6] = ["0", "1", "2", "3", "40", "1024"];

fn within(margin: &str, budget: &str) -> Question {
    SearchWithin(margin.to_string(), budget.to_string())
}

/// Every verb in both forms: the plays one after another, several margins and several
/// budgets.
#[test]
fn every_verb_on_the_examples() {
    let mut comparison = Comparison::new("desk on the examples");
    for name in EXAMPLES {
        let (file, text) = example(name);
        let table = second::read(&text).expect("accepted");
        let children = root_children(&table) as i64;
        assert!(children >= 2, "{name}: one child");
        let mut questions = vec![Show, Worth, Index, Turn];
        questions.extend((1..=children).map(Judge));
        for margin in MARGINS {
            questions.push(Search(margin.to_string()));
            questions.push(SearchIndexed(margin.to_string()));
            questions.push(ShowTo(margin.to_string()));
        }
        questions.extend(BUDGETS.map(|budget| within("0.05", budget)));
        if table.chances == 0 {
            let policies = [&[][..], &[0], &[1, 1], &[255, 3], &[2, 0, 1]];
            questions.extend(policies.map(|policy| Rollout(policy.to_vec())));
        }
        for (number, question) in questions.iter().enumerate() {
            let way = match number % 5 {
                3 => Way::Input,
                4 => Way::Dash,
                _ => Way::File(&file),
            };
            comparison.answered(question, &text, way);
        }
    }
    comparison.demand(500);
    let rollouts = EXAMPLES.map(|name| second::read(&example(name).1).expect("accepted").chances);
    assert!(rollouts.contains(&0), "no example was rolled out");
}

/// The example that a spreadsheet padded with zeros (document 02, Item 9): every verb
/// prints of it what it prints of the one with blanks, `turn` too.
#[test]
fn the_example_of_zeros() {
    let mut comparison = Comparison::new("desk on the example of zeros");
    let (file, text) = example("bar-zeros");
    let (blank_file, blank) = example("bar");
    assert!(text.starts_with(b"00670036-000300000003000\n0000 M"));
    assert_eq!(escaped(&filled(&blank)), escaped(&text));
    assert_eq!(escaped(&blanked(&text)), escaped(&blank));
    let mut questions = vec![Show, Worth, Index, Turn, Judge(1), Judge(2), Judge(4)];
    for margin in MARGINS {
        questions.push(Search(margin.to_string()));
        questions.push(SearchIndexed(margin.to_string()));
        questions.push(ShowTo(margin.to_string()));
        questions.push(within(margin, "40"));
    }
    // A C is refused, and a number that no child has.
    questions.extend([Rollout(Vec::new()), Judge(77)]);
    for question in &questions {
        for form in FORMS {
            let answer = comparison.hold(question, &text, form, Way::File(&file));
            let same = comparison.hold(question, &blank, form, Way::File(&blank_file));
            assert_eq!(answer, same, "{question:?}");
        }
    }
    comparison.demand(4 * questions.len() as u64);

    let ran = ask(words(&["turn"]), &text, Form::People, Way::File(&file), 0);
    let twice = run(&["turn"], ran.out.as_bytes());
    assert_eq!(twice.out.as_bytes(), blank, "turned twice");
}

/// Each verb with the table from a file, from standard input and as `-`.
#[test]
fn every_verb_by_every_way() {
    let mut comparison = Comparison::new("desk by every way");
    let (file, text) = example("a");
    let questions = [
        Show,
        ShowTo("0.5".to_string()),
        Worth,
        Judge(2),
        Search("1".to_string()),
        within("1", "2"),
        SearchIndexed("1".to_string()),
        Index,
        Turn,
        Rollout(Vec::new()),
        Rollout(vec![2, 0, 1]),
    ];
    for question in &questions {
        for way in [Way::File(&file), Way::Input, Way::Dash] {
            comparison.answered(question, &text, way);
        }
    }
    comparison.demand(66);
}

const FORCED_JUDGED: &str = "\
play    no decision: node 1 is the only play
grain   4g to the point
";

const FORCED_SEARCHED: &str = "\
margin  0.000 points (0g)
low     3.500 points (14g)
high    3.500 points (14g)
play    1, node 1
leaves  2 of 2 read
leaf    2 3
grain   4g to the point
";

const FORCED_SHOWN: &str = "\
table   4 nodes, 2 leaves, T 4, ends 0 and 8, K 1
margin  0.000 points (0g)
low     3.500 points (14g)
high    3.500 points (14g)
play    1, node 1
leaves  2 of 2 read
grain   4g to the point

tree               worth
0 M                3.500 (14g)
└── 1 C            3.500 (14g)
    ├── 3/4 2 L 2  2.000 (8g)   read
    └── 1/4 3 L 8  8.000 (32g)  read

number  node  worth        loss        standing
     1     1  3.500 (14g)  0.000 (0g)  play, best, within the margin
";

/// The example of a forced play by the words that are printed; the other verbs and
/// the other form too.
#[test]
fn the_example_of_a_forced_play() {
    let (file, text) = example("forced");
    let printed = [
        (Judge(3), FORCED_JUDGED),
        (Judge(1), FORCED_JUDGED),
        (Judge(0), FORCED_JUDGED),
        (Judge(2), FORCED_JUDGED),
        (Judge(-1), FORCED_JUDGED),
        (Search("0".to_string()), FORCED_SEARCHED),
        (ShowTo("0".to_string()), FORCED_SHOWN),
    ];
    let mut comparison = Comparison::new("desk on the example of a forced play");
    for (question, words) in printed {
        let answer = question.answer(&text, Form::People).expect("an answer");
        assert_eq!(answer, words, "{question:?}");
        comparison.answered(&question, &text, Way::File(&file));
    }
    let in_fields = Judge(3).answer(&text, Form::Tsv).expect("an answer");
    assert_eq!(in_fields, "play\t0\t0\ngrain\t4\n");
    for question in [Show, Worth, Turn] {
        comparison.answered(&question, &text, Way::File(&file));
    }
    comparison.demand(20);
}

const TWO_TOTALS_SHOWN: &str = "\
table   9 nodes, 5 leaves, T 4 and 3, ends 0 and 8, K 2
margin  1.000 points (12g)
low     4.667 points (56g)
high    4.667 points (56g)
play    2, node 4
leaves  5 of 5 read
grain   12g to the point

tree                   worth
0 M                    4.667 (56g)
├── 1 C                3.500 (42g)
│   ├── 3/4 2 L 2      2.000 (24g)  read
│   └── 1/4 3 L 8      8.000 (96g)  read
└── 4 C                4.667 (56g)
    ├── 1/3 5 L 6      6.000 (72g)  read
    └── 2/3 6 C        4.000 (48g)
        ├── 3/4 7 L 3  3.000 (36g)  read
        └── 1/4 8 L 7  7.000 (84g)  read

number  node  worth        loss         standing
     1     1  3.500 (42g)  1.167 (14g)  past the margin
     2     4  4.667 (56g)  0.000 (0g)   play, best, within the margin
";

const TWO_TOTALS_IN_FIELDS: &str = "\
nodes\t9
leaves\t5
total\t4
second\t3
lowest\t0
highest\t8
chances\t2
grain\t12
node\t0\t\tM\t\t\t56\t4.667
node\t1\t0\tC\t\t\t42\t3.500
node\t2\t1\tL\t3\t2\t24\t2.000
node\t3\t1\tL\t1\t8\t96\t8.000
node\t4\t0\tC\t\t\t56\t4.667
node\t5\t4\tL\t1\t6\t72\t6.000
node\t6\t4\tC\t2\t\t48\t4.000
node\t7\t6\tL\t3\t3\t36\t3.000
node\t8\t6\tL\t1\t7\t84\t7.000
";

const TWO_TOTALS_TURNED: &str = "\
...9.3.4......-8.......0
...0.N..................
...1.C....0.............
...2.L....1....3......-2
...3.L....1....1......-8
...4.C....0.............
...5.L....4....1......-6
...6.C....4....2........
...7.L....6....3......-3
...8.L....6....1......-7
";

const TWO_TOTALS_TURNED_IN_FIELDS: &str = "\
nodes\t9
total\t4
second\t3
lowest\t-8
highest\t0
node\t0\t\tN\t\t
node\t1\t0\tC\t\t
node\t2\t1\tL\t3\t-2
node\t3\t1\tL\t1\t-8
node\t4\t0\tC\t\t
node\t5\t4\tL\t1\t-6
node\t6\t4\tC\t2\t
node\t7\t6\tL\t3\t-3
node\t8\t6\tL\t1\t-7
";

const TWO_TOTALS_WORTH: &str = "\
worth   4.667 points (56g)
grain   12g to the point
";

const TWO_TOTALS_JUDGED: &str = "\
play    1, node 1
loss    1.167 points (14g)
level   1 of 2 plays
grain   12g to the point
";

const TWO_TOTALS_SEARCHED: &str = "\
margin  0.000 points (0g)
low     4.667 points (56g)
high    4.667 points (56g)
play    2, node 4
leaves  5 of 5 read
leaf    2 3 5 7 8
grain   12g to the point
";

const TWO_TOTALS_INDEX: &str = "\
ends    0 and 8

node  kind  lowest  highest
   0  M          2        8
   1  C          2        8
   4  C          3        7
   6  C          3        7
";

const TWO_TOTALS_SEARCHED_INDEXED: &str = "\
margin  1.000 points (12g)
index   utilities 2 to 8
low     4.000 points (48g)
high    4.667 points (56g)
play    2, node 4
leaves  4 of 5 read
leaf    2 3 5 7
grain   12g to the point
";

/// A table with two totals, by the words and the fields that are printed: every verb.
#[test]
fn two_totals_by_the_words_printed() {
    let text = dotted(TWO_TOTALS);
    let file = written("desk-two-totals.txt", &text);
    let turned = TWO_TOTALS_TURNED.replace('.', " ");
    let printed = [
        (ShowTo("1".to_string()), Form::People, TWO_TOTALS_SHOWN),
        (Show, Form::Tsv, TWO_TOTALS_IN_FIELDS),
        (Turn, Form::People, &turned),
        (Turn, Form::Tsv, TWO_TOTALS_TURNED_IN_FIELDS),
        (Worth, Form::People, TWO_TOTALS_WORTH),
        (Judge(1), Form::People, TWO_TOTALS_JUDGED),
        (Search("0".to_string()), Form::People, TWO_TOTALS_SEARCHED),
        (Index, Form::People, TWO_TOTALS_INDEX),
        (
            SearchIndexed("1".to_string()),
            Form::People,
            TWO_TOTALS_SEARCHED_INDEXED,
        ),
    ];
    for (question, form, words) in printed {
        let answer = question.answer(&text, form).expect("an answer");
        assert_eq!(answer, words, "{question:?}");
        ask(question.words(), &text, form, Way::File(&file), 0).answers(words);
    }

    let mut comparison = Comparison::new("desk on two totals");
    for text in [text, dotted(TWO_TOTALS_TURNED)] {
        let mut questions = vec![Show, Worth, Index, Turn, Judge(1), Judge(2)];
        questions.extend(MARGINS.map(|margin| Search(margin.to_string())));
        questions.extend(MARGINS.map(|margin| SearchIndexed(margin.to_string())));
        questions.extend(MARGINS.map(|margin| ShowTo(margin.to_string())));
        questions.extend(BUDGETS.map(|budget| within("0", budget)));
        for question in &questions {
            comparison.answered(question, &text, Way::Input);
        }
        // A table with a C is not rolled out, whatever its totals.
        for form in FORMS {
            let refused = comparison.hold(&Rollout(vec![]), &text, form, Way::Input);
            assert_eq!(refused.map_err(|refusal| refusal.number), Err(13));
        }
    }
    comparison.demand(160);
}

/// A random margin as it may be written, for a table of this span.
fn random_margin(table: &Table, random: &mut Random) -> String {
    let span = hold::span(table);
    match random.below(5) {
        0 => "0".to_string(),
        1 => format!("{}g", random.between(0, span)),
        2 => format!("{}g", random.between(0, span / 20)),
        3 => format!("0.{:06}", random.between(0, 999_999)),
        _ => {
            let points = random.between(0, table.highest - table.lowest);
            format!("{points}.{:03}", random.between(0, 999))
        }
    }
}

/// A policy no longer than a word of a command may be.
fn as_a_word(mut policy: Vec<u8>) -> Vec<u8> {
    policy.truncate(30_000);
    policy
}

/// A play number: most often that of a child of the root where there is one.
fn random_number(table: &Table, random: &mut Random) -> i64 {
    let children = root_children(table) as i64;
    match random.below(3) {
        0 => random.pick(&[0, -1, children + 1, 1_024, i64::MAX, i64::MIN]),
        _ => random.between(1, children.max(1)),
    }
}

/// A budget for a table as it may be written, rarely one that is refused.
fn random_budget(table: &Table, random: &mut Random) -> String {
    let budget = match random.below(8) {
        0 => random.pick(&[0, 1, GREATEST_BUDGET]),
        1 => random.pick(&[-1, GREATEST_BUDGET + 1, i64::MIN, i64::MAX]),
        _ => random.between(0, table.leaves as i64),
    };
    budget.to_string()
}

fn random_question(table: &Table, random: &mut Random) -> Question {
    match random.below(11) {
        8 => {
            let margin = random_margin(table, random);
            SearchWithin(margin, random_budget(table, random))
        }
        9 => SearchIndexed(random_margin(table, random)),
        10 => Index,
        0 => Worth,
        1 => Judge(random_number(table, random)),
        2 => Search(random_margin(table, random)),
        3 => Turn,
        4 => {
            let mut policies = policies(random);
            let policy = policies.swap_remove(random.below(policies.len()));
            Rollout(as_a_word(policy))
        }
        5 => Show,
        6 => ShowTo(random_margin(table, random)),
        _ => match random.below(5) {
            0 => Judge(random.pick(&[0, -1, 1_024, i64::MAX, i64::MIN])),
            1 => Search("-1g".to_string()),
            4 => SearchIndexed("-1g".to_string()),
            2 => Search("40000000000000g".to_string()),
            _ => ShowTo(format!("{}g", random.between(-2, 2))),
        },
    }
}

/// Tables of every sort, by turns; some with zeros before their numbers (document 02, Item
/// 9).
fn random_text(number: u64, random: &mut Random) -> Vec<u8> {
    let knobs = match number % 12 {
        0 => Knobs::close(random),
        1 => Knobs::narrow(random),
        2 => Knobs::ties(random),
        3 => Knobs::forced(random),
        4 => Knobs::dice(random),
        5 => Knobs::plain(random),
        6 => Knobs::largest(random),
        7 => Knobs::largest_flat(b"MN", random),
        8 => Knobs::largest_chains(random),
        9 => Knobs {
            nodes: 1,
            ..Knobs::any(random)
        },
        10 => Knobs {
            root: Kinds::either(1),
            ..Knobs::any(random)
        },
        _ => Knobs::any(random),
    };
    let text = knobs.text(random);
    match random.one_in(3) {
        true => padding::padded(&text, random),
        false => text,
    }
}

/// Tables of every sort, a question each. It also fails where the tables or the
/// answers were too much alike to mean anything.
#[test]
fn random_tables() {
    let mut comparison = Comparison::new("desk on random tables");
    let mut seen = Seen::default();
    for number in 0..720 {
        let random = &mut Random::of_case(comparison.tally.seed, number);
        let text = random_text(number, random);
        let table = second::read(&text).expect("valid");
        let question = random_question(&table, random);
        let form = random.pick(&FORMS);
        let file = written("desk-random.txt", &text);
        let way = [Way::File(&file), Way::Input, Way::Dash][random.below(3)];
        let answer = comparison.hold(&question, &text, form, way);

        seen.count_table(&table);
        seen.count_root(&ROOTS, &table);
        seen.count_chances(&table);
        let both_used = uses(&table).iter().all(|uses| *uses > 0);
        for verb in OF_A_TABLE {
            let is_one = question.words()[0] == verb[0];
            for one in FORMS {
                let sort = format!("{} for {one:?}", verb[0]);
                seen.count(&sort, is_one && form == one);
            }
            let sort = format!("{} of two totals, both used", verb[0]);
            seen.count(&sort, is_one && both_used);
            let zeros = !padding::padded_fields(&text).is_empty();
            let sort = format!("{} of a padded table", verb[0]);
            seen.count(&sort, is_one && zeros);
        }
        let refused = answer.as_ref().err().map(|refusal| refusal.number);
        seen.count("an answer", answer.is_ok());
        for number in [12, 13, 14, 17] {
            seen.count(&format!("refused {number}"), refused == Some(number));
        }
        let answer = answer.unwrap_or_default();
        for (sort, part) in [
            ("spent", " leaves, spent\n"),
            ("not spent", " leaves, not spent\n"),
        ] {
            let here = |part| answer.contains(part);
            seen.count(&format!("a budget {sort} for People"), here(part));
            let fields = answer.lines().find(|line| line.starts_with("budget\t"));
            let bit = if sort == "spent" { "\t1" } else { "\t0" };
            let in_fields = fields.is_some_and(|line| line.ends_with(bit));
            seen.count(&format!("a budget {sort} for Tsv"), in_fields);
        }
        let has = |part| answer.contains(part);
        seen.count("leaves read in several lines", has("\n        "));
        seen.count("a play past the margin", has("past the margin"));
        seen.count("below zero", has(" -") || has("\t-"));
    }
    comparison.demand(720);
    seen.demand(2);
}

/// What `judge` prints of a forced play, whatever its number.
fn forced_and_judged(table: &Table, form: Form) -> String {
    let grains = table.grains;
    match form {
        Form::People => FORCED_JUDGED.replace("4g", &format!("{grains}g")),
        Form::Tsv => format!("play\t0\t0\ngrain\t{grains}\n"),
    }
}

/// The tables of every sort where the play is forced: `judge` prints no decision,
/// whatever the number; `search` and `show --margin` name the only play. It also
/// fails where one of these was asked too seldom at an M or at an N.
#[test]
fn random_forced_plays() {
    let mut comparison = Comparison::new("desk on random forced plays");
    let mut seen = Seen::default();
    for number in 0..360 {
        let random = &mut Random::of_case(comparison.tally.seed, number);
        let text = random_text(number, random);
        let table = second::read(&text).expect("valid");
        let root = table.nodes[0].kind;
        if !SIDES.contains(&root) || root_children(&table) > 1 {
            continue;
        }
        let below = random.pick(&[-1, -2, -1_024, i64::MIN]);
        let far = random.pick(&[3, 1_023, 1_024, i64::MAX]);
        let questions = [
            ("the child's number", Judge(1)),
            ("number 0", Judge(0)),
            ("number 2", Judge(2)),
            ("a number below zero", Judge(below)),
            ("a greater number", Judge(far)),
            ("searched", Search(random_margin(&table, random))),
            ("shown", ShowTo(random_margin(&table, random))),
        ];
        let file = written("desk-forced.txt", &text);
        for (sort, question) in questions {
            for form in FORMS {
                let way = [Way::File(&file), Way::Input, Way::Dash][random.below(3)];
                let answer = comparison.hold(&question, &text, form, way);
                let answer = answer.expect("an answer");
                if matches!(question, Judge(_)) {
                    assert_eq!(answer, forced_and_judged(&table, form), "{question:?}");
                } else {
                    let named = match form {
                        Form::People => "\nplay    1, node 1\n",
                        Form::Tsv => "\nplay\t1\t1\n",
                    };
                    assert!(answer.contains(named), "{question:?}: {answer}");
                }
                for kind in SIDES {
                    let sort = format!("forced at {kind:?}, {sort} for {form:?}");
                    seen.count(&sort, root == kind);
                }
            }
        }
    }
    comparison.demand(600);
    seen.demand(10);
}

// ---------------------------------------------------------------------------
// A leaf budget
// ---------------------------------------------------------------------------

const SPENT: &str = "\
margin  0.000 points (0g)
budget  1 leaf, spent
low     5.000 points (20g)
high    8.000 points (32g)
apart   3.000 points (12g)
play    1, node 1
leaves  1 of 3 read
leaf    1
grain   4g to the point
";

const SPENT_IN_FIELDS: &str = "\
margin\t0\t0.000
budget\t1\t1
low\t20\t5.000
high\t32\t8.000
apart\t12\t3.000
play\t1\t1
leaves\t3
read\t1
leaf\t1
grain\t4
";

const NOT_SPENT: &str = "\
margin  3.000 points (12g)
budget  1024 leaves, not spent
low     5.000 points (20g)
high    8.000 points (32g)
apart   3.000 points (12g)
play    1, node 1
leaves  1 of 3 read
leaf    1
grain   4g to the point
";

const NOT_SPENT_IN_FIELDS: &str = "\
margin\t12\t3.000
budget\t1024\t0
low\t20\t5.000
high\t32\t8.000
apart\t12\t3.000
play\t1\t1
leaves\t3
read\t1
leaf\t1
grain\t4
";

const NO_LEAF: &str = "\
margin  0.000 points (0g)
budget  0 leaves, spent
low     0.000 points (0g)
high    8.000 points (32g)
apart   8.000 points (32g)
play    none: a budget of 0 reads no leaf
leaves  0 of 3 read
grain   4g to the point
";

const NO_LEAF_IN_FIELDS: &str = "\
margin\t0\t0.000
budget\t0\t1
low\t0\t0.000
high\t32\t8.000
apart\t32\t8.000
play\t0\t0
leaves\t3
read\t0
grain\t4
";

/// Table A, where the first play is 0 to 3 and the second, met unread, 0 to 10 (document
/// 02, Item 6).
const UNREAD_PLAY: &str = "\
margin  0.000 points (0g)
budget  1 leaf, spent
low     0.000 points (0g)
high    10.000 points (10g)
apart   10.000 points (10g)
play    2, node 4, not looked into
leaves  1 of 4 read
leaf    2
grain   1g to the point
";

const UNREAD_PLAY_IN_FIELDS: &str = "\
margin\t0\t0.000
budget\t1\t1
low\t0\t0.000
high\t10\t10.000
apart\t10\t10.000
play\t2\t4
leaves\t4
read\t1
leaf\t2
grain\t1
";

/// Searches within a budget, by the words and the fields that are printed.
#[test]
fn budgets_by_the_words_printed() {
    for (name, question, words, fields) in [
        ("b", within("0", "1"), SPENT, SPENT_IN_FIELDS),
        ("b", within("3", "1024"), NOT_SPENT, NOT_SPENT_IN_FIELDS),
        ("b", within("0g", "0"), NO_LEAF, NO_LEAF_IN_FIELDS),
        ("a", within("0", "1"), UNREAD_PLAY, UNREAD_PLAY_IN_FIELDS),
    ] {
        let (file, text) = example(name);
        for (form, printed) in [(Form::People, words), (Form::Tsv, fields)] {
            let answer = question.answer(&text, form).expect("an answer");
            assert_eq!(answer, printed, "{question:?}");
            ask(question.words(), &text, form, Way::File(&file), 0).answers(printed);
        }
    }
    // Where nobody chooses, that is why there is no play.
    for (text, root) in [
        (table_b_under_chance(), "a C root"),
        (dotted(LONE_LEAF), "an L root"),
    ] {
        let question = within("0", "0");
        let ran = ask(question.words(), &text, Form::People, Way::Input, 0);
        let none = format!("\nplay    none: nobody chooses at {root}\n");
        assert!(ran.out.contains(&none), "{}", ran.out);
        let answer = question.answer(&text, Form::People).expect("an answer");
        ran.answers(&answer);
    }
}

/// Tables of every sort, searched within a budget. It also fails where the answers
/// were too much alike to mean anything.
#[test]
fn random_budgets() {
    let mut comparison = Comparison::new("desk on random budgets");
    let mut seen = Seen::default();
    for number in 0..420 {
        let random = &mut Random::of_case(comparison.tally.seed, number);
        // The last tables are for plays that are not looked into.
        let is_tied = number >= 360;
        let text = match is_tied {
            true => texts::ties::alike(random),
            false => random_text(number, random),
        };
        let table = second::read(&text).expect("valid");
        let margin = match random.below(12) {
            0 => "-1".to_string(),
            _ => random_margin(&table, random),
        };
        let budget = match is_tied {
            true => random.between(1, 2).to_string(),
            false => random_budget(&table, random),
        };
        let question = SearchWithin(margin, budget);
        let form = random.pick(&FORMS);
        let answer = comparison.hold(&question, &text, form, Way::Input);
        let refused = answer.as_ref().err().map(|refusal| refusal.number);
        let answer = answer.unwrap_or_default();
        let has = |part: &str| answer.contains(part);
        for one in FORMS {
            let mut count = |sort: &str, is_one: bool| {
                let here = form == one && is_one;
                seen.count(&format!("{sort} for {one:?}"), here);
            };
            count(
                "spent",
                has(", spent\n") || spent_field(&answer) == Some("1"),
            );
            let not = has(", not spent\n") || spent_field(&answer) == Some("0");
            count("not spent", not);
            count("no leaf", has("leaves  0 of") || has("\nread\t0\n"));
            count("refused 12", refused == Some(12));
            count("refused 17", refused == Some(17));
        }
        seen.count("a budget of one leaf", has("budget  1 leaf, "));
        seen.count("no play of 0 leaves", has("none: a budget of 0"));
        seen.count("a play not looked into", has(", not looked into\n"));
        let looked_into = has(", spent\n") && !has(", not looked into\n") && !has("none: ");
        seen.count("a play looked into, the budget spent", looked_into);
        seen.count("no play at a C or L", has("none: nobody"));
    }
    comparison.demand(420);
    seen.demand(2);
}

/// The last field of the line `budget`.
fn spent_field(answer: &str) -> Option<&str> {
    let mut lines = answer.lines();
    let fields = lines.find_map(|line| line.strip_prefix("budget\t"))?;
    fields.split('\t').nth(1)
}

// ---------------------------------------------------------------------------
// The index of ends
// ---------------------------------------------------------------------------

const INDEX_IN_FIELDS: &str = "\
lowest\t0
highest\t10
entry\t0\tM\t2\t9
entry\t1\tN\t3\t5
entry\t4\tN\t2\t9
";

const INDEXED_IN_FIELDS: &str = "\
margin\t0\t0.000
index\t2\t9
low\t3\t3.000
high\t3\t3.000
play\t1\t1
leaves\t4
read\t2
leaf\t2
leaf\t5
grain\t1
";

const LONE_LEAF_INDEXED: &str = "\
margin  0.000 points (0g)
index   utilities 7 to 7
low     7.000 points (7g)
high    7.000 points (7g)
play    none: nobody chooses at an L root
leaves  1 of 1 read
leaf    0
grain   1g to the point
";

/// The index, and searches with it, by the words and the fields that are printed; those of
/// table A for people stand in the description.
#[test]
fn index_by_the_words_printed() {
    let (_, a) = example("a");
    let leaf = dotted(LONE_LEAF);
    let indexed = || SearchIndexed("0".to_string());
    let printed = [
        (&a, Index, Form::Tsv, INDEX_IN_FIELDS),
        (&a, indexed(), Form::Tsv, INDEXED_IN_FIELDS),
        (&leaf, Index, Form::People, "ends    7 and 7\n"),
        (&leaf, Index, Form::Tsv, "lowest\t7\nhighest\t7\n"),
        (&leaf, indexed(), Form::People, LONE_LEAF_INDEXED),
    ];
    for (text, question, form, words) in printed {
        let answer = question.answer(text, form).expect("an answer");
        assert_eq!(answer, words, "{question:?}");
        ask(question.words(), text, form, Way::Input, 0).answers(words);
    }
}

/// Tables of every sort, searched with their index. It also fails where the answers were
/// too much alike to mean anything.
#[test]
fn random_indexes() {
    let mut comparison = Comparison::new("desk on random indexes");
    let mut seen = Seen::default();
    for number in 0..360 {
        let random = &mut Random::of_case(comparison.tally.seed, number);
        let text = random_text(number, random);
        let table = second::read(&text).expect("valid");
        let margin = match random.below(12) {
            0 => "-1".to_string(),
            _ => random_margin(&table, random),
        };
        for form in FORMS {
            let listed = comparison.hold(&Index, &text, form, Way::Input);
            let listed = listed.expect("an answer");
            let entries = match form {
                Form::People => listed.lines().count().saturating_sub(3),
                Form::Tsv => listed.lines().count() - 2,
            };
            assert_eq!(entries, table.nodes.len() - table.leaves);
            seen.count("no entry", entries == 0);
            seen.count("some entries", entries > 1);

            let question = SearchIndexed(margin.clone());
            let answer = comparison.hold(&question, &text, form, Way::Input);
            let plain = Search(margin.clone()).answer(&text, form);
            let refused = answer.as_ref().err().map(|refusal| refusal.number);
            seen.count(&format!("refused 12 for {form:?}"), refused == Some(12));
            let read = |answer: &str| {
                let start = match form {
                    Form::People => "leaves  ",
                    Form::Tsv => "read\t",
                };
                let line = answer.lines().find_map(|line| line.strip_prefix(start));
                let count = line.and_then(|line| line.split(' ').next());
                count.and_then(|count| count.parse::<usize>().ok())
            };
            if let (Ok(answer), Ok(plain)) = (&answer, &plain) {
                let (with, without) = (read(answer), read(plain));
                seen.count(&format!("fewer leaves for {form:?}"), with < without);
                seen.count("no play at a C or L", answer.contains("none: nobody"));
                seen.count("a play", answer.contains("\nplay    1, node 1\n"));
            }
        }
        seen.count_root(&ROOTS, &table);
    }
    comparison.demand(1_440);
    seen.demand(5);
}

/// Rollouts of random tables without C, by several policies.
#[test]
fn rollouts() {
    let mut comparison = Comparison::new("desk on rollouts");
    let mut seen = Seen::default();
    for number in 0..24 {
        let random = &mut Random::of_case(comparison.tally.seed, number);
        let knobs = match number % 4 {
            0 => Knobs::largest_plain(random),
            // Between equal ends no leaf is read.
            1 => Knobs {
                ends: (-5, -5),
                ..Knobs::plain(random)
            },
            _ => Knobs::plain(random),
        };
        let text = knobs.text(random);
        for policy in policies(random) {
            let form = random.pick(&FORMS);
            let question = Rollout(as_a_word(policy));
            let answer = comparison.hold(&question, &text, form, Way::Input);
            let answer = answer.expect("a table without C");
            seen.count("no leaf read", answer.contains("leaves  0 of"));
            seen.count("some leaf read", answer.contains("\nleaf    "));
            seen.count("no leaf, in fields", answer.contains("\nread\t0\n"));
            seen.count("some leaf, in fields", answer.contains("\nleaf\t"));
        }
    }
    comparison.demand(48);
    seen.demand(2);
}

/// A table that comes in pieces is read to its end.
#[test]
fn input_in_pieces() {
    let (_, text) = example("replies");
    let table = second::read(&text).expect("accepted");
    let mut child = start(command(&["worth"]));
    let mut stdin = child.stdin.take().expect("a pipe");
    for piece in text.chunks(5_000) {
        stdin.write_all(piece).expect("the program reads");
        thread::sleep(Duration::from_millis(5));
    }
    drop(stdin);
    let output = child.wait_with_output().expect("the program ends");
    let ran = Ran::new("desk worth, in pieces".to_string(), output);
    ran.answers(&desk::worth(&table, Form::People));
}

/// A chain of C with T 20, whose last has a leaf of this utility with this
/// weight; all its other leaves are at 0.
fn in_eight_thousandths(weight: i64, utility: i64) -> Vec<u8> {
    let last = 20 - weight;
    format!(
        "   7  20      -1       1\n\
         \x20  0 C                  \n\
         \x20  1 L    0   19       0\n\
         \x20  2 C    0    1        \n\
         \x20  3 L    2   19       0\n\
         \x20  4 C    2    1        \n\
         \x20  5 L    4{weight:>5}{utility:>8}\n\
         \x20  6 L    4{last:>5}       0\n"
    )
    .into_bytes()
}

/// To the nearest thousandth, halves away from zero, and no minus before zero.
#[test]
fn points_are_rounded() {
    let known = [
        (3, 1, "0.000 points (3g)"),
        (3, -1, "0.000 points (-3g)"),
        (4, 1, "0.001 points (4g)"),
        (4, -1, "-0.001 points (-4g)"),
        (5, 1, "0.001 points (5g)"),
        (11, -1, "-0.001 points (-11g)"),
        (12, 1, "0.002 points (12g)"),
        (12, -1, "-0.002 points (-12g)"),
    ];
    for (weight, utility, amount) in known {
        let text = in_eight_thousandths(weight, utility);
        let table = second::read(&text).expect("accepted");
        let answer = desk::worth(&table, Form::People);
        let expected = format!("worth   {amount}\ngrain   8000g to the point\n");
        assert_eq!(answer, expected);
        run(&["worth"], &text).answers(&expected);
    }
}

// ---------------------------------------------------------------------------
// Margins as they are written
// ---------------------------------------------------------------------------

const THIRD: &str = "0.333333333333333333333333333333333333333333";
const SHORT_OF_ONE: &str = "0.999999999999999999999999999999999999999999";
const SIXTY_DIGITS: &str = "123456789012345678901234567890123456789012345678901234567890";

/// Margins, with their grains where a point is 1 grain, 4 and 1,679,616; what is
/// too great for an i64 stands as the greatest.
const WRITTEN: [(&str, [i64; 3]); 20] = [
    ("0", [0, 0, 0]),
    ("3", [3, 12, 5_038_848]),
    ("0.05", [0, 0, 83_980]),
    ("0.25", [0, 1, 419_904]),
    ("0.249999999999999999999999999999", [0, 0, 419_903]),
    ("12.345", [12, 49, 20_734_859]),
    ("1.000", [1, 4, 1_679_616]),
    (THIRD, [0, 1, 559_871]),
    (SHORT_OF_ONE, [0, 3, 1_679_615]),
    ("0g", [0, 0, 0]),
    ("12g", [12, 12, 12]),
    ("40000000000000g", [40_000_000_000_000; 3]),
    ("40000000000001g", [40_000_000_000_001; 3]),
    ("-1", [-1, -4, -1_679_616]),
    ("-0.5", [-1, -2, -839_808]),
    ("-0.00001", [-1, -1, -17]),
    ("-3g", [-3, -3, -3]),
    (
        "10000000000000.249999",
        [10_000_000_000_000, 40_000_000_000_000, i64::MAX],
    ),
    (
        "10000000000000.25",
        [10_000_000_000_000, 40_000_000_000_001, i64::MAX],
    ),
    (SIXTY_DIGITS, [i64::MAX; 3]),
];

/// Points are multiplied exactly and rounded down to grains, which are printed;
/// what is no margin is refused with 12.
#[test]
fn margins_as_written() {
    let mut comparison = Comparison::new("desk on margins as written");
    for (at, name) in ["a", "b", "bear-off"].into_iter().enumerate() {
        let (file, text) = example(name);
        let table = second::read(&text).expect("accepted");
        assert_eq!(table.grains, [1, 4, 1_679_616][at], "{name}: G");
        for (written, grains) in WRITTEN {
            let grains = grains[at];
            assert_eq!(grains_of(written, table.grains), grains, "{written}");
            for question in [Search(written.to_string()), ShowTo(written.to_string())] {
                for form in FORMS {
                    let answer = comparison.hold(&question, &text, form, Way::File(&file));
                    hold_margin(&answer, grains, form);
                }
            }
        }
    }
    assert!(comparison.tally.counts[12] >= 20, "too few were refused");
    comparison.demand(200);
}

/// Fails the test unless the answer says that the margin is so many grains, or
/// they are no margin and refused.
fn hold_margin(answer: &Result<String, Refusal>, grains: i64, form: Form) {
    match answer {
        Ok(answer) => {
            let named = answer.lines().find(|line| line.starts_with("margin"));
            let printed = match form {
                Form::People => format!(" points ({grains}g)"),
                Form::Tsv => format!("margin\t{grains}\t"),
            };
            assert!(named.is_some_and(|line| line.contains(&printed)));
        }
        Err(refusal) => {
            assert_eq!((refusal.number, refusal.line), (12, 0));
            let margins = 0..=second::GREATEST_MARGIN;
            assert!(!margins.contains(&grains), "{grains} grains are a margin");
        }
    }
}

/// Numbers of any length are numbers, and refused where there is no such margin
/// or play; where the play is forced every number will do.
#[test]
fn numbers_of_any_length() {
    let mut comparison = Comparison::new("desk on numbers of any length");
    let (file, text) = example("b");
    for places in [
        SIXTY_DIGITS,
        "0000000000000000000000000000000000000000000001",
    ] {
        let question = Search(format!("0.{places}"));
        comparison.answered(&question, &text, Way::File(&file));
    }

    let minus = format!("-{SIXTY_DIGITS}");
    let grains = format!("{SIXTY_DIGITS}g");
    let (_, forced) = example("forced");
    let table = second::read(&forced).expect("accepted");
    let mut refused = 0;
    for number in [SIXTY_DIGITS, &minus, &grains] {
        for words in [&["search", number][..], &["show", "--margin", number]] {
            refused += hold_number(words, &file, &text, 12);
        }
    }
    for number in ["-1", "1025", "9223372036854775808", SIXTY_DIGITS, &minus] {
        let words = ["search", "--budget", number, "0"];
        refused += hold_number(&words, &file, &text, 17);
        // 12 comes first.
        let words = ["search", "--budget", number, "-1"];
        refused += hold_number(&words, &file, &text, 12);
    }
    for number in ["0", "3", "-1", "9223372036854775808", SIXTY_DIGITS, &minus] {
        refused += hold_number(&["judge", number], &file, &text, 14);
        for form in FORMS {
            let ran = ask(words(&["judge", number]), &forced, form, Way::Input, 0);
            ran.answers(&forced_and_judged(&table, form));
        }
    }
    assert_eq!(refused, 44);
}

/// Holds both forms to this refusal of a number, and counts the runs.
fn hold_number(words: &[&str], file: &str, text: &[u8], number: u8) -> usize {
    let refusal = Refusal { number, line: 0 };
    for form in FORMS {
        let ran = ask(self::words(words), text, form, Way::File(file), 0);
        Refused::of(text, refusal).hold(&ran, form, file, "a number of any length");
    }
    FORMS.len()
}

// ---------------------------------------------------------------------------
// The description
// ---------------------------------------------------------------------------

/// The examples in the description are what the second engine and the program
/// answer.
#[test]
fn examples_in_the_description() {
    let examples = [
        ("b", Worth, "worth"),
        ("b", Judge(2), "judge 2"),
        ("level", Judge(2), "judge 2"),
        ("forced", Judge(3), "judge 3"),
        ("b", Search("3".to_string()), "search 3"),
        ("ties", Search("3".to_string()), "search 3"),
        ("a", within("0", "2"), "search --budget 2 0"),
        ("a", within("0", "1"), "search --budget 1 0"),
        ("a", SearchIndexed("0".to_string()), "search --index 0"),
        ("a", Index, "index"),
        ("a", Rollout(Vec::new()), "rollout"),
        ("b", Show, "show"),
        ("b", ShowTo("3".to_string()), "show --margin 3"),
    ];
    for (name, question, words) in examples {
        let (file, text) = example(name);
        assert_eq!(question.words().join(" "), words);
        let answer = question.answer(&text, Form::People).expect("an answer");
        let described = block("docs/DESK.md", &format!("`desk {words} {file}`"));
        assert_eq!(described, answer, "docs/DESK.md on {words} {file}");
        ask(question.words(), &text, Form::People, Way::File(&file), 0).answers(&described);
    }
}

/// The tree with two totals that the description begins.
#[test]
fn two_totals_in_the_description() {
    let described = block("docs/DESK.md", "Where a table has a second total");
    let (file, text) = example("first-roll");
    let answer = Show.answer(&text, Form::People).expect("an answer");
    assert!(answer.starts_with(&described), "{described}");
    assert!(described.lines().count() > 6, "{described}");
    ask(Show.words(), &text, Form::People, Way::File(&file), 0).answers(&answer);
}

/// The refused grain count in the description is what the program prints.
#[test]
fn refused_grains_in_the_description() {
    let described = block("docs/DESK.md", "With a second total the reason of 9");
    assert!(described.starts_with("desk: grains.txt: refused 18\n"));
    written("grains.txt", &too_many_grains());
    let mut command = command(&["search", "0", "grains.txt"]);
    command.current_dir(folder());
    let ran = finish(command, &[]);
    assert_eq!((ran.status, &*ran.out), (Some(1), ""));
    assert_eq!(ran.err, described);
}

/// The refused budget in the description is what the program prints.
#[test]
fn refused_budget_in_the_description() {
    let described = block("docs/DESK.md", "Another budget is refused where the table");
    assert!(described.starts_with("desk: examples/a.txt: refused 17\n"));
    let words = ["search", "--budget", "2000", "0", "examples/a.txt"];
    let ran = run(&words, &[]);
    assert_eq!((ran.status, &*ran.out), (Some(1), ""));
    assert_eq!(ran.err, described);
}

/// The refusal in the description is what the program prints.
#[test]
fn refusal_in_the_description() {
    let described = block("docs/DESK.md", "A refusal is printed on standard error");
    assert!(described.starts_with("desk: light.txt: refused 9 at line 3 "));
    let light = table_b_with(4, "...3.L....2....2.......2");
    written("light.txt", &light);
    let mut command = command(&["worth", "light.txt"]);
    command.current_dir(folder());
    let ran = finish(command, &[]);
    assert_eq!((ran.status, &*ran.out), (Some(1), ""));
    assert_eq!(ran.err, described);
}
