//! What document 01 says of several calls together, held to the proved engine's
//! answers: the exact worth, the search, turning and rollouts; and the same of the search
//! with an index (document 02, Item 14).

use compare::engine::{self, Record};
use compare::hold::indexed::{self, Index};
use compare::hold::rolling::{policies, LEAF, RECORD};
use compare::hold::searching::change_unread;
use compare::hold::seen::Seen;
use compare::hold::span;
use compare::hold::tally::Tally;
use compare::hold::turning::turned;
use compare::random::Random;
use compare::second::{self, Kind, Table, GREATEST_MARGIN, LINE};
use compare::texts;
use compare::texts::examples::escaped;
use compare::texts::knobs::Knobs;

// ---------------------------------------------------------------------------
// The search of the turned table, and of one with other unread leaves
// ---------------------------------------------------------------------------

/// The proved engine's answer to a search.
#[derive(Clone, Debug, PartialEq, Eq)]
struct Answer {
    low: i64,
    high: i64,
    play: i64,
    grains: i64,
    leaves: Vec<u16>,
}

/// How the proved engine is asked to search a text, with a margin.
type Search = fn(&[u8], i64, &mut [u16], &mut [i64]) -> u64;

/// The search with the index that the proved engine builds of the text.
fn with_its_index(text: &[u8], margin: i64, leaves: &mut [u16], numbers: &mut [i64]) -> u64 {
    let Index { lows, highs } = built(text);
    engine::search_indexed(text, margin, &lows, &highs, leaves, numbers)
}

/// The proved engine's index of the table.
fn built(text: &[u8]) -> Index {
    let nodes = text.len() / LINE - 1;
    let mut index = Index::unbuilt((nodes, nodes));
    let returned = engine::index(text, &mut index.lows, &mut index.highs);
    assert_eq!(returned, 0, "a valid table");
    index
}

impl Answer {
    fn of(search: Search, text: &[u8], margin: i64, room: usize) -> Answer {
        let mut leaves = vec![0; room];
        let mut numbers = [0; 7];
        let returned = search(text, margin, &mut leaves, &mut numbers);
        assert_eq!(returned, 0, "a valid table");
        let [low, high, play, read, grains, apart, spent] = numbers;
        assert_eq!((apart, spent), (high - low, 0), "without a budget");
        leaves.truncate(read as usize);
        Answer {
            low,
            high,
            play,
            grains,
            leaves,
        }
    }

    /// What the answer must be for the turned table.
    fn turned(&self) -> Answer {
        Answer {
            low: -self.high,
            high: -self.low,
            ..self.clone()
        }
    }
}

/// The proved engine's worth of the table.
fn worth(text: &[u8]) -> i64 {
    let mut numbers = [0; 1];
    assert_eq!(engine::worth(text, &mut numbers), 0, "a valid table");
    numbers[0]
}

/// The worth of the turned table is minus the worth, and the search of it is the
/// search in a mirror: the bounds negated and exchanged, the same play, the same
/// leaves in the same sequence. The worth is within the bounds, and the play's
/// within the margin of it. With other utilities in the leaves that were not
/// read the answer is the same, and all this still true.
#[test]
fn searching_turned_tables_and_other_unread_leaves() {
    let name = "searching turned tables, and with other unread leaves";
    hold_searches(name, 15_000, engine::search, change_unread);
}

/// The same with the index of each table, where other unread leaves leave it as it was.
#[test]
fn searching_with_an_index() {
    let name = "searching turned tables, and with other unread leaves, by index";
    hold_searches(name, 8_000, with_its_index, |text, table, read, random| {
        let before = built(text);
        indexed::change_unread(text, table, read, random);
        assert_eq!(built(text), before, "{}", escaped(text));
    });
}

/// Changes the leaves of a table that were not read.
type Change = fn(&mut [u8], &Table, &[u16], &mut Random);

fn hold_searches(name: &'static str, cases: u64, search: Search, change: Change) {
    let mut tally = Tally::new(name);
    let mut seen = Seen::default();
    for number in 0..cases {
        let mut random = Random::of_case(tally.seed, number);
        let text = match number % 4 {
            0 => texts::make(Knobs::any, &mut random),
            1 => texts::make(Knobs::close, &mut random),
            2 => texts::make(Knobs::narrow, &mut random),
            _ => texts::make(Knobs::dice, &mut random),
        };
        let table = second::read(&text).expect("valid");
        let span = span(&table);
        let margins = [
            0,
            random.between(0, span),
            random.between(0, span) / 10,
            random.pick(&[1, span, span + 1, GREATEST_MARGIN]),
        ];
        let room = table.leaves + random.below(3);
        for margin in margins {
            let answer = Answer::of(search, &text, margin, room);
            let mut other = text.clone();
            change(&mut other, &table, &answer.leaves, &mut random);
            for text in [&text, &other] {
                let place = || format!("{}, margin {margin}\n{}", tally.place(), escaped(text));
                let turned = turned(text);
                assert_eq!(
                    Answer::of(search, text, margin, room),
                    answer,
                    "{}",
                    place()
                );
                assert_eq!(
                    Answer::of(search, &turned, margin, room + 1),
                    answer.turned(),
                    "{}",
                    place()
                );
                let worth = worth(text);
                assert_eq!(self::worth(&turned), -worth, "{}", place());
                let within = answer.low <= worth && worth <= answer.high;
                assert!(within && answer.high - answer.low <= margin, "{}", place());
                if answer.play > 0 {
                    let table = second::read(text).expect("valid");
                    let worths = second::worths(&table);
                    let loss = (worths[answer.play as usize] - worth).abs();
                    assert!(loss <= margin, "{}", place());
                }
                seen.count("worth at the low", worth == answer.low);
                seen.count("worth at the high", worth == answer.high);
                let between = answer.low < worth && worth < answer.high;
                seen.count("worth between the bounds", between);
            }
            seen.count("leaves unread", answer.leaves.len() < table.leaves);
            seen.count("all leaves read", answer.leaves.len() == table.leaves);
            seen.count("unread leaves changed", other != text);
            let moved = worth(&other) != worth(&text);
            seen.count("the worth changed by unread leaves", moved);
            seen.count("bounds apart", answer.low < answer.high);
            seen.count("bounds equal", answer.low == answer.high);
            seen.count("no play", answer.play == 0);
            seen.count("first child played", answer.play == 1);
            seen.count("later child played", answer.play > 1);
        }
        seen.count_root(&[Kind::Max, Kind::Min, Kind::Chance], &table);
        tally.add(&[0; 4]);
        tally.add_table(&table);
    }
    tally.report();
    tally.demand_two_totals();
    seen.demand(1_000);
}

// ---------------------------------------------------------------------------
// Rollouts next to the worth and the search
// ---------------------------------------------------------------------------

/// The proved engine's answer for a valid table without C.
fn rolled(text: &[u8], policy: &[u8], table: &Table) -> (i64, Vec<u16>, Vec<Record>) {
    let mut leaves = vec![LEAF; table.leaves];
    let mut store = vec![RECORD; table.nodes.len()];
    let mut numbers = [0; 2];
    let returned = engine::rollout(text, policy, &mut store, &mut leaves, &mut numbers);
    assert_eq!(returned, 0, "a valid table without C");
    leaves.truncate(numbers[1] as usize);
    (numbers[0], leaves, store)
}

/// The worth is the proved engine's exact worth by every policy. Zeros after the
/// end of a policy change nothing. Without a policy the leaves read are those
/// that the search at margin 0 reads, in the same sequence; but for equal ends,
/// where rollouts need no leaf and the search reads one.
#[test]
fn rollouts_worth_and_search() {
    let mut tally = Tally::new("rollouts next to the worth and the search");
    let mut seen = Seen::default();
    for number in 0..6_000 {
        let mut random = Random::of_case(tally.seed, number);
        let text = texts::make(Knobs::plain, &mut random);
        let table = second::read(&text).expect("valid");
        let mut worth = [0; 1];
        assert_eq!(engine::worth(&text, &mut worth), 0);
        for mut policy in policies(&mut random) {
            let answer = rolled(&text, &policy, &table);
            let place = || format!("{}\n{}", tally.place(), escaped(&text));
            assert_eq!(answer.0, worth[0], "{}", place());
            if policy.is_empty() {
                let mut leaves = vec![LEAF; table.leaves];
                let mut numbers = [0; 4];
                assert_eq!(engine::search(&text, 0, &mut leaves, &mut numbers), 0);
                leaves.truncate(numbers[3] as usize);
                if table.lowest == table.highest {
                    assert_eq!((answer.1.len(), leaves.len()), (0, 1), "{}", place());
                } else {
                    assert_eq!(answer.1, leaves, "{}", place());
                }
            }
            policy.resize(policy.len() + 1 + random.below(300), 0);
            assert_eq!(rolled(&text, &policy, &table), answer, "{}", place());
            let cut = !answer.1.is_empty() && answer.1.len() < table.leaves;
            seen.count("some leaves read", cut);
            seen.count("no leaf read", answer.1.is_empty());
        }
        tally.add(&[0; 4]);
        tally.add_table(&table);
    }
    tally.report();
    tally.demand_two_totals();
    seen.demand(1_000);
}
