//! Benchmark of reading, the exact worth, judging, the search, the index of ends, turning,
//! rollouts, the report and recipes, and of the search alone: both engines on the same texts
//! or recipes in the same run. Before the times stand the leaves read of the examples.
//!
//! `./bench` makes both archives and runs it, in release mode and with the feature
//! `timed`.

use std::hint::black_box;
use std::time::{Duration, Instant};

use compare::engine::{self, Lent, Record};
use compare::hold::desk::example;
use compare::hold::leaves::{self, FROM_PLAY};
use compare::hold::{kind_number, mark_number, reporting, searching};
use compare::random::{seed, Random};
use compare::second::{
    self, root_children, Bounds, Judgement, Recipe, Table, Terms, LINE, MOST_NODES,
};
use compare::texts::bench::{bushy, bushy_plain, deep, flat, replies, rerolls, Shape};
use compare::texts::knobs::Knobs;
use compare::texts::matches::{self, Position};
use margin_engine::raw;

/// Node lines of the tables.
const SIZES: [usize; 3] = [64, 256, 1_024];

/// Texts of one shape and size, which differ in their utilities.
const TEXTS: usize = 8;

/// The best of so many rounds counts, as others may use the machine too.
const ROUNDS: usize = 60;

/// The length of the longest text.
const LONGEST: usize = LINE * (1 + MOST_NODES);

/// What a store holds before the first call.
const NO_RECORD: Record = Record { low: 0, high: 0 };
const NO_BOUNDS: Bounds = Bounds { low: 0, high: 0 };

/// The least time that an engine works on one shape and size in a round.
const SPELL: Duration = Duration::from_millis(3);

/// The texts of one shape and size.
struct Sort {
    shape: &'static str,
    size: usize,
    texts: Vec<Vec<u8>>,
    /// From the lowest end to the highest, in grains.
    span: i64,
    /// The number of the root child to judge: the second. The only child of a root
    /// has 1, and is not judged.
    played: i64,
}

/// The times that one sort of texts took.
struct Case<'a> {
    sort: &'a Sort,
    /// How often all texts are gone through in a round.
    turns: usize,
    /// The best nanoseconds per call so far.
    proved: f64,
    second: f64,
}

fn main() {
    let seed = seed();
    println!("The proved engine and the second engine (Rust) on the same texts.");
    println!("Seed {seed}; {TEXTS} texts each; best of {ROUNDS} rounds, the engines by turns.");
    println!("Growth is the time per line over that of the same shape with 64 lines; of these");
    println!("the deep one is a single path of 64 nodes.");
    examples();

    let sorts = sorts(
        seed,
        &SIZES,
        [("flat", flat), ("deep", deep), ("bushy", bushy)],
    );
    check(&sorts);
    reading(&sorts);
    worth(&sorts);
    judging(&sorts);
    search(&sorts);
    budgets(&sorts);
    indexes(&sorts);
    turning(&sorts);

    let rolled = self::sorts(
        seed,
        &SIZES_ALONE,
        [("bushy", bushy), ("replies", replies), ("rerolls", rerolls)],
    );
    check(&rolled);
    search_alone(&rolled);

    let plain = self::sorts(
        seed,
        &SIZES,
        [("flat", flat), ("deep", deep), ("bushy", bushy_plain)],
    );
    check_rollouts(&plain);
    rollouts(&plain);

    reports(seed, [("flat", flat), ("deep", deep), ("bushy", bushy)]);

    recipes(seed);
}

fn reading(sorts: &[Sort]) {
    println!();
    println!("Reading a table. The proved engine's arrays are allocated once, outside of the");
    println!("timing, and are not cleared between calls; the second engine allocates its table");
    println!("in each call.");
    println!();
    let mut lent = Box::new(Lent::PATTERN);
    measure(
        sorts,
        |_, text| {
            black_box(engine::call(black_box(text), black_box(&mut lent)));
        },
        |_, text| {
            let _ = black_box(second::read(black_box(text)));
        },
    );
}

fn worth(sorts: &[Sort]) {
    println!();
    println!("The exact worth from the text. The second engine reads the table, then takes the");
    println!("worth of it.");
    println!();
    let mut numbers = [0; 2];
    measure(
        sorts,
        |_, text| {
            black_box(engine::worth(black_box(text), black_box(&mut numbers)));
        },
        |_, text| {
            let _ = black_box(second_worth(black_box(text)));
        },
    );
}

fn judging(sorts: &[Sort]) {
    println!();
    println!("Judging from the text, where the second child of the root is played. The second");
    println!("engine reads the table, then judges. The deep table of 64 lines is one path, a");
    println!("forced play: it is left out, and growth on deep tables is over that with 256.");
    println!();
    let mut numbers = [0; 3];
    measure(
        sorts.iter().filter(|sort| sort.played == 2),
        |sort, text| {
            let numbers = black_box(&mut numbers);
            black_box(raw::judge(black_box(text), sort.played, numbers));
        },
        |sort, text| {
            let _ = black_box(second_judgement(black_box(text), sort.played));
        },
    );
}

fn search(sorts: &[Sort]) {
    println!();
    println!("The search from the text. The second engine reads the table, then searches it.");
    println!("The leaf lists are allocated once, outside of the timing.");
    let mut leaves = Box::new([0; MOST_NODES]);
    let mut second_leaves = Box::new([0; MOST_NODES]);
    let mut numbers = [0; 7];
    for (name, margin) in MARGINS {
        println!();
        println!("Margin {name}:");
        println!();
        measure(
            sorts,
            |sort, text| {
                let (leaves, numbers) = (black_box(&mut *leaves), black_box(&mut numbers));
                black_box(engine::search(
                    black_box(text),
                    margin(sort),
                    leaves,
                    numbers,
                ));
            },
            |sort, text| {
                let leaves = black_box(&mut *second_leaves);
                let terms = Terms::of(margin(sort));
                let _ = black_box(second_search(black_box(text), terms, leaves));
            },
        );
    }
}

/// Budgets of a search, in leaves.
const BUDGETS: [i64; 4] = [0, 16, 256, 1_024];

fn budgets(sorts: &[Sort]) {
    println!();
    println!(
        "The search within a leaf budget, margin 0, of the tables with {MOST_NODES} lines. The"
    );
    println!("leaves read are those of all {TEXTS} texts.");
    println!();
    let mut leaves = Box::new([0; MOST_NODES]);
    let mut second_leaves = Box::new([0; MOST_NODES]);
    let mut numbers = [0; 7];
    let mut proved = |budget, text: &[u8]| {
        let (leaves, numbers) = (black_box(&mut *leaves), black_box(&mut numbers));
        let text = black_box(text);
        black_box(engine::search_within(text, 0, budget, leaves, numbers));
    };
    let mut second = |budget, text: &[u8]| {
        let leaves = black_box(&mut *second_leaves);
        let terms = Terms::within(0, budget);
        let _ = black_box(second_search(black_box(text), terms, leaves));
    };
    let largest = || sorts.iter().filter(|sort| sort.size == MOST_NODES);
    let mut cases = Vec::new();
    for (sort, budget) in largest().flat_map(|sort| BUDGETS.map(|budget| (sort, budget))) {
        let case = Case::new(sort, &mut |_, text| proved(budget, text), &mut |_, text| {
            second(budget, text)
        });
        cases.push((budget, case));
    }
    for _ in 0..ROUNDS {
        for (budget, case) in &mut cases {
            case.round(&mut |_, text| proved(*budget, text), &mut |_, text| {
                second(*budget, text)
            });
        }
    }
    println!(
        "{:<8}{:>8}{:>8}  {:>10}{:>10}  {:>8}",
        "", "", "leaves", "proved", "second", "proved/"
    );
    println!(
        "{:<8}{:>8}{:>8}  {:>10}{:>10}  {:>8}",
        "shape", "budget", "read", "ns/call", "ns/call", "second"
    );
    for (budget, case) in cases {
        println!(
            "{:<8}{budget:>8}{:>8}  {:>10.0}{:>10.0}  {:>8.2}",
            case.sort.shape,
            leaves_read(
                case.sort,
                Terms::within(0, budget),
                |text, leaves, numbers| { engine::search_within(text, 0, budget, leaves, numbers) }
            ),
            case.proved,
            case.second,
            case.proved / case.second,
        );
    }
}

/// The leaves that both engines read of all texts, the proved one in this call and the
/// second on these terms. They must agree.
fn leaves_read(
    sort: &Sort,
    terms: Terms,
    proved: impl Fn(&[u8], &mut [u16], &mut [i64]) -> u64,
) -> i64 {
    let mut read = 0;
    for text in &sort.texts {
        let mut numbers = [0; 7];
        let mut lists = [[0; MOST_NODES]; 2];
        let [list, second_list] = &mut lists;
        assert_eq!(proved(text, list, &mut numbers), 0, "a valid table");
        let found = second_search(text, terms, second_list);
        assert_eq!(Ok(numbers), found, "{terms:?}");
        assert_eq!(list, second_list, "{terms:?}");
        read += numbers[3];
    }
    read
}

fn turning(sorts: &[Sort]) {
    println!();
    println!("Turning. The second engine reads the table, then writes it. The buffers are");
    println!("allocated once, outside of the timing.");
    println!();
    let mut buffer = Box::new([0; LONGEST]);
    let mut second_buffer = Box::new([0; LONGEST]);
    measure(
        sorts,
        |_, text| {
            let buffer = black_box(&mut *buffer);
            black_box(engine::turn(black_box(text), buffer));
        },
        |_, text| {
            let buffer = black_box(&mut *second_buffer);
            let _ = black_box(second::turn(black_box(text), buffer));
        },
    );
}

fn rollouts(sorts: &[Sort]) {
    println!();
    println!("Rollouts from the text with an empty policy, on tables without C; the plays of the");
    println!("bushy ones are N with 21 leaves. The second engine reads the table, then rolls it");
    println!("out. The stores and leaf lists are allocated once, outside of the timing. A walk");
    println!("costs the children of the nodes on its path, and each leaf read is one walk: on a");
    println!("root and its leaves the time grows with the square of the lines.");
    println!();
    let mut leaves = Box::new([0; MOST_NODES]);
    let mut second_leaves = Box::new([0; MOST_NODES]);
    let mut store = Box::new([NO_RECORD; MOST_NODES]);
    let mut second_store = Box::new([NO_BOUNDS; MOST_NODES]);
    let mut numbers = [0; 2];
    measure(
        sorts,
        |_, text| {
            let (leaves, numbers) = (black_box(&mut *leaves), black_box(&mut numbers));
            let store = black_box(&mut *store);
            black_box(engine::rollout(
                black_box(text),
                &[],
                store,
                leaves,
                numbers,
            ));
        },
        |_, text| {
            let leaves = black_box(&mut *second_leaves);
            let store = black_box(&mut *second_store);
            let _ = black_box(second_rollout(black_box(text), store, leaves));
        },
    );
}

/// Tables of these shapes in these sizes.
fn sorts(seed: u64, sizes: &[usize], shapes: [(&'static str, Shape); 3]) -> Vec<Sort> {
    let mut sorts = Vec::new();
    for (shape, knobs) in shapes {
        for &size in sizes {
            let mut random = Random::new(seed);
            let knobs = knobs(size);
            let texts: Vec<Vec<u8>> = (0..TEXTS).map(|_| knobs.text(&mut random)).collect();
            let table = second::read(&texts[0]).expect("a valid table");
            let span = (table.highest - table.lowest) * table.grains;
            let children = root_children(&table);
            sorts.push(Sort {
                shape,
                size,
                texts,
                span,
                played: children.min(2) as i64,
            });
        }
    }
    sorts
}

/// The margin of a search, by name, from the table's span.
type Margin = fn(&Sort) -> i64;

/// None; one by which some leaves stay unread; and one by which all but the
/// first do.
const MARGINS: [(&str, Margin); 3] = [
    ("0", |_| 0),
    ("a tenth of the span", |sort| sort.span / 10),
    ("the span", |sort| sort.span),
];

/// The second engine's worth and G.
fn second_worth(text: &[u8]) -> Result<[i64; 2], second::Refusal> {
    let table = second::read(text)?;
    Ok([second::worth(&table), table.grains])
}

/// The second engine's judgement, as the proved engine writes it.
fn second_judgement(text: &[u8], number: i64) -> Result<[i64; 3], second::Refusal> {
    let table = second::read(text)?;
    Ok(match second::judge(&table, number)? {
        Judgement::Loss { grains, level } => [1, grains, level as i64],
        Judgement::NoDecision => [0; 3],
    })
}

/// The worth and the number of leaves read, by the second engine's rollouts with
/// an empty policy.
fn second_rollout(
    text: &[u8],
    store: &mut [Bounds],
    leaves: &mut [u16],
) -> Result<[i64; 2], second::Refusal> {
    let table = second::read(text)?;
    let rolled = second::rollout(&table, &[], store, leaves)?;
    Ok([rolled.worth, rolled.read as i64])
}

/// What the second engine's search finds, as the proved engine writes it.
fn second_search(
    text: &[u8],
    terms: Terms,
    leaves: &mut [u16],
) -> Result<[i64; 7], second::Refusal> {
    let table = second::read(text)?;
    let found = second::search_watched(&table, terms, leaves, |_| {})?;
    Ok(searching::numbers(found, table.grains))
}

/// All texts are valid tables of the size that they should have, and the
/// engines agree on them.
fn check(sorts: &[Sort]) {
    let mut lent = Box::new(Lent::PATTERN);
    for sort in sorts {
        for text in &sort.texts {
            let table = second::read(text).expect("a valid table");
            assert_eq!(table.nodes.len(), sort.size);
            assert_eq!(engine::call(text, &mut lent), 0, "a valid table");
            assert_eq!(lent.numbers[0], sort.size as i64);

            let mut numbers = [0; 2];
            assert_eq!(engine::worth(text, &mut numbers), 0, "a valid table");
            assert_eq!(Ok(numbers), second_worth(text));

            let mut numbers = [0; 3];
            let returned = engine::judge(text, sort.played, &mut numbers);
            assert_eq!(returned, 0, "a valid table");
            assert_eq!(Ok(numbers), second_judgement(text, sort.played));

            let mut buffers = [vec![0; LONGEST], vec![0; LONGEST]];
            let [buffer, second_buffer] = &mut buffers;
            assert_eq!(engine::turn(text, buffer), 0, "a valid table");
            assert_eq!(second::turn(text, second_buffer), Ok(()));
            assert_eq!(buffer, second_buffer);

            for (name, margin) in MARGINS {
                let mut numbers = [0; 7];
                let mut lists = [[0; MOST_NODES]; 2];
                let [list, second_list] = &mut lists;
                let returned = engine::search(text, margin(sort), list, &mut numbers);
                assert_eq!(returned, 0, "a valid table");
                let found = second_search(text, Terms::of(margin(sort)), second_list);
                assert_eq!(Ok(numbers), found, "margin {name}");
                assert_eq!(list, second_list, "margin {name}");
            }
        }
    }
}

/// The engines agree on the rollouts.
fn check_rollouts(sorts: &[Sort]) {
    for sort in sorts {
        for text in &sort.texts {
            let mut numbers = [0; 2];
            let mut lists = [[0; MOST_NODES]; 2];
            let [list, second_list] = &mut lists;
            let mut store = [NO_RECORD; MOST_NODES];
            let mut second_store = [NO_BOUNDS; MOST_NODES];
            let returned = engine::rollout(text, &[], &mut store, list, &mut numbers);
            assert_eq!(returned, 0, "a valid table without C");
            let rolled = second_rollout(text, &mut second_store, second_list);
            assert_eq!(Ok(numbers), rolled);
            assert_eq!(list, second_list);
            let second_store = second_store.map(|Bounds { low, high }| Record { low, high });
            assert_eq!(store, second_store);
        }
    }
}

/// Times a call of each engine on all texts, and prints the times.
fn measure<'a>(
    sorts: impl IntoIterator<Item = &'a Sort>,
    mut proved: impl FnMut(&Sort, &[u8]),
    mut second: impl FnMut(&Sort, &[u8]),
) {
    let mut cases: Vec<Case> = sorts
        .into_iter()
        .map(|sort| Case::new(sort, &mut proved, &mut second))
        .collect();

    // Every round goes through all cases, so that a time in which the machine is
    // slow spoils one round of each and not all rounds of one.
    for _ in 0..ROUNDS {
        for case in &mut cases {
            case.round(&mut proved, &mut second);
        }
    }
    print(&cases);
}

impl<'a> Case<'a> {
    fn new(
        sort: &'a Sort,
        proved: &mut impl FnMut(&Sort, &[u8]),
        second: &mut impl FnMut(&Sort, &[u8]),
    ) -> Case<'a> {
        let mut case = Case {
            sort,
            turns: 1,
            proved: f64::INFINITY,
            second: f64::INFINITY,
        };
        let spell = SPELL.as_nanos() as f64;
        while case.time(proved).min(case.time(second)) < spell {
            case.turns *= 2;
        }
        case
    }

    fn round(
        &mut self,
        proved: &mut impl FnMut(&Sort, &[u8]),
        second: &mut impl FnMut(&Sort, &[u8]),
    ) {
        let calls = (self.turns * self.sort.texts.len()) as f64;
        self.proved = self.proved.min(self.time(proved) / calls);
        self.second = self.second.min(self.time(second) / calls);
    }

    /// The nanoseconds that all turns take.
    fn time(&self, call: &mut impl FnMut(&Sort, &[u8])) -> f64 {
        let began = Instant::now();
        for _ in 0..self.turns {
            for text in &self.sort.texts {
                call(self.sort, text);
            }
        }
        began.elapsed().as_nanos() as f64
    }
}

fn print(cases: &[Case]) {
    println!(
        "{:<8}{:>6}  {:>10}{:>10}  {:>9}{:>9}  {:>8}  {:>8}{:>8}",
        "", "", "proved", "second", "proved", "second", "proved/", "proved", "second"
    );
    println!(
        "{:<8}{:>6}  {:>10}{:>10}  {:>9}{:>9}  {:>8}  {:>8}{:>8}",
        "shape", "lines", "ns/call", "ns/call", "ns/line", "ns/line", "second", "growth", "growth"
    );
    for sizes in cases.chunk_by(|one, next| one.sort.shape == next.sort.shape) {
        let per_line = |case: &Case| {
            let lines = case.sort.size as f64;
            (case.proved / lines, case.second / lines)
        };
        let least = per_line(&sizes[0]);
        for case in sizes {
            let (proved, second) = per_line(case);
            println!(
                "{:<8}{:>6}  {:>10.0}{:>10.0}  {:>9.2}{:>9.2}  {:>8.2}  {:>8.2}{:>8.2}",
                case.sort.shape,
                case.sort.size,
                case.proved,
                case.second,
                proved,
                second,
                proved / second,
                proved / least.0,
                second / least.1,
            );
        }
    }
}

// ---------------------------------------------------------------------------
// The index of ends
// ---------------------------------------------------------------------------

/// Margins in thousandths of a point.
const THOUSANDTHS: [i64; 4] = [0, 20, 50, 100];

/// The examples that are made up, and the thousandths of a point in one unit of utility. In
/// A and B a unit is a point.
const MADE_UP: [(&str, i64); 7] = [
    ("a", 1_000),
    ("b", 1_000),
    ("forced", 1_000),
    ("level", 1_000),
    ("ties", 1_000),
    ("rolls-720", 1),
    ("first-roll", 1),
];

/// The text of an example's table. Before one of them stands a margin line.
fn table_of(name: &str) -> Vec<u8> {
    let (_, text) = example(name);
    match name {
        "rolls-720" => text[15..].to_vec(),
        _ => text,
    }
}

fn examples() {
    println!();
    println!("The leaves that the search reads of the examples, without an index and with it, at");
    println!("margins of 0, 20, 50 and 100 thousandths of a point. A unit of utility is one of");
    println!("these in the tables from real play, which come first, and in the last two; in the");
    println!("others it is a point, and all four margins are less than a grain.");
    println!();
    println!(
        "{:<12}{:>6}{:>8}{:>24}{:>24}",
        "table", "lines", "leaves", "read without", "read with an index"
    );
    let from_play = FROM_PLAY.map(|name| (name, 1));
    for (name, unit) in from_play.into_iter().chain(MADE_UP) {
        let text = table_of(name);
        let table = second::read(&text).expect("an example is accepted");
        let margins = THOUSANDTHS.map(|thousandths| thousandths * table.grains / unit);
        let [without, with] = [leaves::read, leaves::read_indexed].map(|read| {
            let counts = margins.map(|margin| read(&text, margin).to_string());
            counts.join(", ")
        });
        println!(
            "{name:<12}{:>6}{:>8}{without:>24}{with:>24}",
            table.nodes.len(),
            table.leaves
        );
    }
}

/// The times that one sort of texts took, in calls of the proved engine and of the second.
struct Ends<'a> {
    sort: &'a Sort,
    /// The two lists of each text's index.
    indexes: Vec<[Vec<i64>; 2]>,
    /// How often all texts are gone through in a round.
    turns: usize,
    /// The best nanoseconds per call so far, by `CALLS`.
    times: [f64; 6],
}

/// A call on a text with its index, in these areas.
type Call = fn(&[u8], &[Vec<i64>; 2], &mut Areas);

/// What is lent to a call, allocated once.
struct Areas {
    lent: Box<Lent>,
    lows: Vec<i64>,
    highs: Vec<i64>,
    leaves: Vec<u16>,
    numbers: [i64; 7],
}

/// Reading, building the index, the search and the search with the index by the proved
/// engine; building and that search by the second.
const CALLS: [Call; 6] = [
    |text, _, areas| {
        black_box(engine::call(text, &mut areas.lent));
    },
    |text, _, Areas { lows, highs, .. }| {
        black_box(engine::index(text, lows, highs));
    },
    |text, _, areas| {
        let (leaves, numbers) = (&mut areas.leaves, &mut areas.numbers);
        black_box(engine::search(text, 0, leaves, numbers));
    },
    |text, [lows, highs], areas| {
        let (leaves, numbers) = (&mut areas.leaves, &mut areas.numbers);
        let code = engine::search_indexed(text, 0, lows, highs, leaves, numbers);
        black_box(code);
    },
    |text, _, Areas { lows, highs, .. }| {
        let table = second::read(text).expect("a valid table");
        let _ = black_box(second::index(&table, lows, highs));
    },
    |text, [lows, highs], areas| {
        let table = second::read(text).expect("a valid table");
        let found = second::search_indexed(&table, 0, (lows, highs), &mut areas.leaves);
        let _ = black_box(found);
    },
];

fn indexes(sorts: &[Sort]) {
    let from_play = FROM_PLAY.map(|name| {
        let text = table_of(name);
        let table = second::read(&text).expect("an example is accepted");
        Sort {
            shape: name,
            size: table.nodes.len(),
            span: (table.highest - table.lowest) * table.grains,
            played: 1,
            texts: vec![text],
        }
    });
    let mut areas = Areas {
        lent: Box::new(Lent::PATTERN),
        lows: vec![0; MOST_NODES],
        highs: vec![0; MOST_NODES],
        leaves: vec![0; MOST_NODES],
        numbers: [0; 7],
    };
    let sorts = sorts.iter().chain(&from_play);
    let mut cases: Vec<Ends> = sorts.map(|sort| Ends::new(sort, &mut areas)).collect();
    for round in 0..ROUNDS {
        for case in &mut cases {
            case.round(round, &mut areas);
        }
    }

    println!();
    println!("Building the index of ends from the text, also of the examples from real play. What");
    println!("it takes beyond reading is given as a part of reading. The second engine reads the");
    println!("table, then builds.");
    println!();
    println!(
        "{:<12}{:>6}  {:>10}{:>10}{:>10}  {:>10}{:>10}",
        "", "", "reading", "index", "second", "building/", "proved/"
    );
    println!(
        "{:<12}{:>6}  {:>10}{:>10}{:>10}  {:>10}{:>10}",
        "table", "lines", "ns/call", "ns/call", "ns/call", "reading", "second"
    );
    for Ends { sort, times, .. } in &cases {
        let [reading, index, _, _, second, _] = times;
        println!(
            "{:<12}{:>6}  {reading:>10.0}{index:>10.0}{second:>10.0}  {:>10.3}{:>10.2}",
            sort.shape,
            sort.size,
            (index - reading) / reading,
            index / second,
        );
    }

    println!();
    println!("The search at margin 0 from the text, without an index and with it; the call builds");
    println!(
        "the index once more and compares. The leaves are those of all texts, {TEXTS} of each"
    );
    println!("shape and size and one of each example.");
    println!();
    println!(
        "{:<12}{:>6}  {:>8}{:>8}{:>8}  {:>10}{:>10}{:>10}  {:>8}{:>8}",
        "", "", "", "read", "read", "without", "with", "second", "with/", "proved/"
    );
    println!(
        "{:<12}{:>6}  {:>8}{:>8}{:>8}  {:>10}{:>10}{:>10}  {:>8}{:>8}",
        "table",
        "lines",
        "leaves",
        "without",
        "with",
        "ns/call",
        "ns/call",
        "ns/call",
        "without",
        "second"
    );
    for Ends { sort, times, .. } in &cases {
        let [_, _, without, with, _, second] = times;
        let sum = |count: fn(&[u8]) -> usize| -> usize {
            sort.texts.iter().map(|text| count(text)).sum()
        };
        let leaves = |text: &[u8]| second::read(text).expect("a valid table").leaves;
        println!(
            "{:<12}{:>6}  {:>8}{:>8}{:>8}  {without:>10.0}{with:>10.0}{second:>10.0}  {:>8.2}{:>8.2}",
            sort.shape,
            sort.size,
            sum(leaves),
            sum(|text| leaves::read(text, 0)),
            sum(|text| leaves::read_indexed(text, 0)),
            with / without,
            with / second,
        );
    }
}

impl<'a> Ends<'a> {
    fn new(sort: &'a Sort, areas: &mut Areas) -> Ends<'a> {
        let indexes = sort.texts.iter().map(|text| leaves::index(text));
        let mut case = Ends {
            sort,
            indexes: indexes.collect(),
            turns: 1,
            times: [f64::INFINITY; 6],
        };
        let spell = SPELL.as_nanos() as f64;
        while CALLS.iter().any(|call| case.time(*call, areas) < spell) {
            case.turns *= 2;
        }
        case
    }

    /// Times all calls, each of them first in its turn.
    fn round(&mut self, round: usize, areas: &mut Areas) {
        let calls = (self.turns * self.sort.texts.len()) as f64;
        for turn in 0..CALLS.len() {
            let which = (round + turn) % CALLS.len();
            let time = self.time(CALLS[which], areas) / calls;
            self.times[which] = self.times[which].min(time);
        }
    }

    /// The nanoseconds that all turns take.
    fn time(&self, call: Call, areas: &mut Areas) -> f64 {
        time(|| {
            for _ in 0..self.turns {
                for (text, index) in self.sort.texts.iter().zip(&self.indexes) {
                    call(black_box(text), black_box(index), black_box(areas));
                }
            }
        })
    }
}

// ---------------------------------------------------------------------------
// The search alone
// ---------------------------------------------------------------------------

/// Node lines of the tables; with 64 there would be no play with replies.
const SIZES_ALONE: [usize; 2] = [256, 1_024];

/// The times that searches of one sort of texts took at one margin, and no reading.
struct Alone<'a> {
    sort: &'a Sort,
    name: &'static str,
    margin: i64,
    /// The texts as the second engine reads them.
    tables: Vec<Table>,
    /// How often each table is searched in a round.
    turns: u64,
    /// The best nanoseconds so far: of the proved engine's calls with no turns and
    /// with all, and of the second engine's searches.
    none: f64,
    proved: f64,
    second: f64,
}

fn search_alone(sorts: &[Sort]) {
    println!();
    println!("The search alone: a table is read once and searched many times. Every C has all");
    println!(
        "21 rolls. After each is a leaf (bushy) or an N over three leaves (replies), or after"
    );
    println!("ten an N over a leaf and a C with the rolls again (rerolls). The leaves read are");
    println!("those of all {TEXTS} texts.");
    println!();
    let mut cases: Vec<Alone> = MARGINS
        .iter()
        .flat_map(|(name, margin)| {
            sorts
                .iter()
                .map(|sort| Alone::new(sort, name, margin(sort)))
        })
        .collect();
    for _ in 0..ROUNDS {
        for case in &mut cases {
            case.round();
        }
    }
    println!(
        "{:<8}{:>6}  {:<20}{:>7}  {:>10}{:>10}  {:>8}",
        "", "", "", "leaves", "proved", "second", "proved/"
    );
    println!(
        "{:<8}{:>6}  {:<20}{:>7}  {:>10}{:>10}  {:>8}",
        "shape", "lines", "margin", "read", "ns/search", "ns/search", "second"
    );
    for case in cases {
        let Alone { sort, margin, .. } = case;
        let (proved, second) = case.per_search();
        let read = leaves_read(sort, Terms::of(margin), |text, leaves, numbers| {
            raw::search_times(text, margin, 2, leaves, numbers)
        });
        println!(
            "{:<8}{:>6}  {:<20}{read:>7}  {proved:>10.1}{second:>10.1}  {:>8.2}",
            sort.shape,
            sort.size,
            case.name,
            proved / second,
        );
    }
}

impl<'a> Alone<'a> {
    fn new(sort: &'a Sort, name: &'static str, margin: i64) -> Alone<'a> {
        let read = |text: &Vec<u8>| second::read(text).expect("a valid table");
        let mut case = Alone {
            sort,
            name,
            margin,
            tables: sort.texts.iter().map(read).collect(),
            turns: 1,
            none: f64::INFINITY,
            proved: f64::INFINITY,
            second: f64::INFINITY,
        };
        let spell = SPELL.as_nanos() as f64;
        loop {
            // Three rounds, as one that others held up would seem long enough.
            for _ in 0..3 {
                case.round();
            }
            if (case.proved - case.none).min(case.second) >= spell {
                return case;
            }
            // Had the compiler left the searches out of the library, this would not end.
            assert!(case.turns < 1 << 24, "searches that take no time");
            case.turns *= 2;
            (case.proved, case.second) = (f64::INFINITY, f64::INFINITY);
        }
    }

    fn round(&mut self) {
        self.none = self.none.min(self.time_proved(0));
        self.proved = self.proved.min(self.time_proved(self.turns));
        self.second = self.second.min(self.time_second());
    }

    /// The nanoseconds of a search by each engine. A call of the proved engine also
    /// reads the text twice and searches it once more, which is what it takes with no
    /// turns: the difference is that of the turns.
    fn per_search(&self) -> (f64, f64) {
        let searches = self.turns as f64 * self.tables.len() as f64;
        ((self.proved - self.none) / searches, self.second / searches)
    }

    fn time_proved(&self, turns: u64) -> f64 {
        let (mut leaves, mut numbers) = ([0; MOST_NODES], [0; 7]);
        time(|| {
            for text in &self.sort.texts {
                let (leaves, numbers) = (black_box(&mut leaves), black_box(&mut numbers));
                let text = black_box(text);
                black_box(raw::search_times(text, self.margin, turns, leaves, numbers));
            }
        })
    }

    fn time_second(&self) -> f64 {
        let mut leaves = [0; MOST_NODES];
        let terms = Terms::of(self.margin);
        time(|| {
            for table in &self.tables {
                for _ in 0..self.turns {
                    let (table, leaves) = (black_box(table), black_box(&mut leaves));
                    let _ = black_box(second::search_watched(table, terms, leaves, |_| {}));
                }
            }
        })
    }
}

// ---------------------------------------------------------------------------
// The report
// ---------------------------------------------------------------------------

/// Positions of a match, and node lines of each.
const POSITIONS: usize = 200;
const MATCH_LINES: usize = 400;

/// The marking scale of new books.
const SCALE: i64 = 2;

/// A match whose tables have one shape.
struct Match {
    shape: &'static str,
    file: Vec<u8>,
    /// The best nanoseconds so far: the report, the judging of all positions,
    /// and the second engine's report.
    times: [f64; 3],
}

fn reports(seed: u64, shapes: [(&'static str, Shape); 3]) {
    println!();
    println!("The report of a match of {POSITIONS} positions with {MATCH_LINES} node lines each, where the");
    println!("second child of the root is played. Judging is a call of the proved engine for");
    println!("each of its tables. The lists are allocated outside of the timing; the second");
    println!("engine allocates its tables and lists in each call.");
    println!();
    let mut matches = shapes.map(|(shape, knobs)| Match::new(shape, &knobs(MATCH_LINES), seed));
    for round in 0..ROUNDS {
        for of in &mut matches {
            of.round(round);
        }
    }
    println!(
        "{:<8}{:>9}{:>12}{:>12}{:>12}{:>12}{:>12}",
        "", "", "report", "judging", "second", "report/", "proved/"
    );
    println!(
        "{:<8}{:>9}{:>12}{:>12}{:>12}{:>12}{:>12}",
        "shape", "lines", "ns/match", "ns/match", "ns/match", "judging", "second"
    );
    for Match { shape, times, .. } in matches {
        let [report, judging, second] = times;
        println!(
            "{shape:<8}{:>9}{report:>12.0}{judging:>12.0}{second:>12.0}{:>12.3}{:>12.2}",
            POSITIONS * MATCH_LINES,
            report / judging,
            report / second,
        );
    }
}

impl Match {
    fn new(shape: &'static str, knobs: &Knobs, seed: u64) -> Match {
        let mut random = Random::new(seed);
        let positions = (0..POSITIONS).map(|_| {
            let text = knobs.text(&mut random);
            let table = second::read(&text).expect("a valid table");
            assert_eq!(table.nodes.len(), MATCH_LINES);
            assert!(root_children(&table) >= 2, "a choice");
            Position::new(2, text)
        });
        let positions: Vec<Position> = positions.collect();
        let made = Match {
            shape,
            file: matches::file(&positions),
            times: [f64::INFINITY; 3],
        };
        made.check();
        made
    }

    /// The engines agree on the report.
    fn check(&self) {
        let mut kinds = [0; POSITIONS];
        let mut losses = [0; POSITIONS];
        let mut marks = [0; POSITIONS];
        let mut numbers = [0; 5];
        let returned = engine::report(
            &self.file,
            SCALE,
            &mut kinds,
            &mut losses,
            &mut marks,
            &mut numbers,
        );
        assert_eq!(returned, 0, "a whole match");
        let report = second::report(&self.file, SCALE, POSITIONS).expect("a whole match");
        assert_eq!(numbers, reporting::numbers(&report));
        for (i, entry) in report.entries.iter().enumerate() {
            assert_eq!(kinds[i], kind_number(entry.root));
            assert_eq!(Some(losses[i]), entry.loss);
            assert_eq!(marks[i], mark_number(entry.mark));
        }
    }

    /// Times the three, each of them first in its turn: the file is nearer to the
    /// processor for those that follow.
    fn round(&mut self, round: usize) {
        for turn in 0..self.times.len() {
            let which = (round + turn) % self.times.len();
            let time = match which {
                0 => self.report(),
                1 => self.judging(),
                _ => self.second(),
            };
            self.times[which] = self.times[which].min(time);
        }
    }

    fn report(&self) -> f64 {
        let (mut kinds, mut losses) = ([0; POSITIONS], [0; POSITIONS]);
        let (mut marks, mut numbers) = ([0; POSITIONS], [0; 5]);
        time(|| {
            let file = black_box(&self.file[..]);
            let (kinds, losses) = (black_box(&mut kinds), black_box(&mut losses));
            let (marks, numbers) = (black_box(&mut marks), black_box(&mut numbers));
            black_box(engine::report(file, SCALE, kinds, losses, marks, numbers));
        })
    }

    fn judging(&self) -> f64 {
        let positions = second::positions(&self.file);
        let mut numbers = [0; 3];
        time(|| {
            for position in &positions {
                let text = black_box(position.text);
                let numbers = black_box(&mut numbers);
                black_box(raw::judge(text, position.play, numbers));
            }
        })
    }

    fn second(&self) -> f64 {
        time(|| {
            let file = black_box(&self.file[..]);
            let _ = black_box(second::report(file, SCALE, POSITIONS));
        })
    }
}

// ---------------------------------------------------------------------------
// Recipes
// ---------------------------------------------------------------------------

/// Branching numbers, depths and numbers for dice.
const RECIPES: [[i64; 3]; 8] = [
    [2, 5, 0],
    [2, 9, 0],
    [4, 4, 0],
    [5, 4, 0],
    [2, 3, 1],
    [2, 4, 1],
    [4, 2, 1],
    [5, 2, 1],
];

/// The times that recipes took which differ in their seeds.
struct ByRecipe {
    recipes: Vec<Recipe>,
    lines: usize,
    /// How often all recipes are gone through in a round.
    turns: usize,
    /// The best nanoseconds per call so far.
    proved: f64,
    second: f64,
}

fn recipes(seed: u64) {
    println!();
    println!("Tables by recipe, {TEXTS} seeds each. The second engine builds the tree of nodes in");
    println!("each call, then writes it. The buffers are allocated once, outside of the timing.");
    println!();
    let mut random = Random::new(seed);
    let mut cases: Vec<ByRecipe> = RECIPES
        .iter()
        .map(|shape| ByRecipe::new(*shape, &mut random))
        .collect();
    for _ in 0..ROUNDS {
        for case in &mut cases {
            case.round();
        }
    }
    println!(
        "{:<10}{:>6}{:>6}{:>8}  {:>10}{:>10}  {:>9}{:>9}  {:>8}",
        "", "", "", "", "proved", "second", "proved", "second", "proved/"
    );
    println!(
        "{:<10}{:>6}{:>6}{:>8}  {:>10}{:>10}  {:>9}{:>9}  {:>8}",
        "branching", "plays", "dice", "nodes", "ns/call", "ns/call", "ns/line", "ns/line", "second"
    );
    for case in cases {
        let Recipe {
            branching,
            depth,
            dice,
            ..
        } = case.recipes[0];
        let dice = if dice == 1 { "with" } else { "" };
        let per_line = |time: f64| time / case.lines as f64;
        println!(
            "{branching:<10}{depth:>6}{dice:>6}{:>8}  {:>10.0}{:>10.0}  {:>9.2}{:>9.2}  {:>8.2}",
            case.lines - 1,
            case.proved,
            case.second,
            per_line(case.proved),
            per_line(case.second),
            case.proved / case.second,
        );
    }
}

impl ByRecipe {
    fn new([branching, depth, dice]: [i64; 3], random: &mut Random) -> ByRecipe {
        let seeds = (0..TEXTS).map(|_| random.between(0, 2_147_483_647));
        let recipes: Vec<Recipe> = seeds
            .map(|seed| Recipe::new([seed, branching, depth, dice]))
            .collect();
        let mut case = ByRecipe {
            lines: 1 + recipes[0].nodes() as usize,
            recipes,
            turns: 1,
            proved: f64::INFINITY,
            second: f64::INFINITY,
        };
        case.check();
        let spell = SPELL.as_nanos() as f64;
        while case.time_proved().min(case.time_second()) < spell {
            case.turns *= 2;
        }
        case
    }

    /// The engines agree on the recipes.
    fn check(&self) {
        for &recipe in &self.recipes {
            let mut buffers = [vec![0; LONGEST], vec![0; LONGEST]];
            let [buffer, second_buffer] = &mut buffers;
            let mut numbers = [0];
            assert_eq!(engine::recipe(recipe, buffer, &mut numbers), 0);
            let written = second::recipe(recipe, second_buffer);
            assert_eq!(written, Ok(LINE * self.lines));
            assert_eq!(numbers[0], (LINE * self.lines) as i64);
            assert_eq!(buffer, second_buffer);
        }
    }

    fn round(&mut self) {
        let calls = (self.turns * self.recipes.len()) as f64;
        self.proved = self.proved.min(self.time_proved() / calls);
        self.second = self.second.min(self.time_second() / calls);
    }

    /// The nanoseconds that all turns take, and those of the second engine.
    fn time_proved(&self) -> f64 {
        let (mut buffer, mut numbers) = (vec![0; LONGEST], [0]);
        self.time(|recipe| {
            let (buffer, numbers) = (black_box(&mut buffer[..]), black_box(&mut numbers));
            black_box(engine::recipe(black_box(recipe), buffer, numbers));
        })
    }

    fn time_second(&self) -> f64 {
        let mut buffer = vec![0; LONGEST];
        self.time(|recipe| {
            let buffer = black_box(&mut buffer[..]);
            let _ = black_box(second::recipe(black_box(recipe), buffer));
        })
    }

    fn time(&self, mut call: impl FnMut(Recipe)) -> f64 {
        time(|| {
            for _ in 0..self.turns {
                for &recipe in &self.recipes {
                    call(recipe);
                }
            }
        })
    }
}

/// The nanoseconds that this takes.
fn time(call: impl FnOnce()) -> f64 {
    let began = Instant::now();
    call();
    began.elapsed().as_nanos() as f64
}
