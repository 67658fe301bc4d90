//! The benchmark's call, which searches a table many times before it answers: it answers
//! as the search does, however often that was, and refuses what the search refuses.

use compare::engine;
use compare::hold::span;
use compare::hold::tally::{Tally, OF_GRAINS, OF_TABLES};
use compare::random::Random;
use compare::second::{self, GREATEST_MARGIN};
use compare::texts;
use margin_engine::raw;

/// What the list and the numbers hold before a call.
const LEAF: u16 = 0xa5a5;
const NUMBER: i64 = -0x5a5a_5a5a;

#[test]
fn answers_as_the_search_does() {
    let mut tally = Tally::new("searching many times");
    for number in 0..24_000 {
        let mut random = Random::of_case(tally.seed, number);
        let text = texts::case(&mut random).text;
        let (leaves, span) = match second::read(&text) {
            Ok(table) => {
                tally.add_table(&table);
                (table.leaves, span(&table))
            }
            Err(_) => (3, 9),
        };
        // A list one entry short, an exact one and a long one; numbers of any length.
        let room = (leaves + random.below(3)).saturating_sub(1);
        let length = random.below(9);
        let margin = match random.below(8) {
            0 => random.pick(&[-1, GREATEST_MARGIN + 1, i64::MIN, i64::MAX]),
            _ => random.between(0, span),
        };
        let mut list = vec![LEAF; room];
        let mut numbers = vec![NUMBER; length];
        let returned = engine::search(&text, margin, &mut list, &mut numbers);
        for times in [0, 1, 5] {
            let mut again = (vec![LEAF; room], vec![NUMBER; length]);
            let code = raw::search_times(&text, margin, times, &mut again.0, &mut again.1);
            assert_eq!(code, returned, "{}, {times} times", tally.place());
            assert_eq!(again.0, list, "{}, {times} times", tally.place());
            assert_eq!(again.1, numbers, "{}, {times} times", tally.place());
        }
        tally.add(&[returned]);
    }
    tally.report();
    tally.demand_refusals(&OF_TABLES);
    tally.demand_refusals(&OF_GRAINS);
    tally.demand_two_totals();
    tally.demand_refusals(&[11, 12]);
}
