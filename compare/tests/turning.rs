//! Turning, held to the second engine and to document 01's tables.
//!
//! The environment variable SEED sets the seed of the random texts, CASES their
//! number.

use compare::hold::tally::{Tally, OF_GRAINS, OF_TABLES};
use compare::hold::turning::{hold_to, Comparison, PATTERN};
use compare::random::{number_from_environment, Random};
use compare::second::{self, Refusal, FARTHEST_END, MOST_NODES};
use compare::texts::examples::*;
use compare::texts::knobs::Knobs;
use compare::texts::small::{for_each, six_nodes};
use compare::texts::{self, largest};

// ---------------------------------------------------------------------------
// Texts
// ---------------------------------------------------------------------------

/// The main comparison. It also fails where the texts were too much alike to
/// mean anything.
#[test]
fn random_texts() {
    let mut comparison = Comparison::new("turning random texts");
    let cases = number_from_environment("CASES", 100_000);
    let mut tables = 0;
    for number in 0..cases {
        let mut random = Random::of_case(comparison.tally.seed, number);
        let text = match number % 8 {
            0 => texts::make(Knobs::narrow, &mut random),
            1 => texts::make(Knobs::dice, &mut random),
            2 | 3 => texts::make(Knobs::any, &mut random),
            _ => texts::case(&mut random).text,
        };
        tables += u64::from(comparison.hold(&text).is_ok());
    }
    comparison.tally.report();
    comparison.seen.demand(200);
    comparison.tally.demand(&OF_TABLES);
    comparison.tally.demand(&OF_GRAINS);
    comparison.tally.demand_two_totals();
    comparison.tally.demand(&[11]);
    assert!(tables >= 50_000, "only {tables} accepted tables");
}

/// Every table of up to five nodes over a few entries. Where a node line is
/// refused, none is added after it, as the refusal would stay the same.
#[test]
fn every_small_table() {
    let mut comparison = Comparison::new("turning every small table");
    for_each(
        (-2, 0),
        &six_nodes(&["-2", "0"])[..5],
        &mut |text| match comparison.hold(text) {
            Ok(_) => true,
            Err(refusal) => matches!(refusal.number, 8 | 9),
        },
    );
    comparison.tally.report();
    assert!(comparison.tally.counts[0] >= 1_000, "too few tables");
}

/// Tables of 1,024 lines with T 64 and the widest ends.
#[test]
fn largest_tables() {
    let mut comparison = Comparison::new("turning the largest tables");
    let mut texts = largest::four_chances();
    for number in 0..300 {
        let mut random = Random::of_case(comparison.tally.seed, number);
        texts.push(texts::make(Knobs::largest, &mut random));
        let flat = Knobs::largest_flat(b"MN", &mut random);
        texts.push(flat.text(&mut random));
    }
    for text in &texts {
        let table = comparison.hold(text).expect("valid");
        assert_eq!((table.nodes.len(), table.total), (MOST_NODES, 64));
    }
    comparison.tally.report();
}

/// Each number that an end or a utility can be, as the lone leaf of a table with
/// that number as both ends, next to what it must become.
#[test]
fn every_number() {
    let mut tally = Tally::new("turning every number");
    let lone = |number: i64| {
        format!("   1   1{number:>8}{number:>8}\n   0 L          {number:>8}\n").into_bytes()
    };
    for number in -FARTHEST_END..=FARTHEST_END {
        // Past 2,000 from zero and from the ends, a sample will do.
        let plain = number.abs() > 2_000 && number.abs() < FARTHEST_END - 2_000;
        if plain && number % 89 != 0 {
            continue;
        }
        let (text, turned) = (lone(number), lone(-number));
        hold_to(&tally, &text, text.len(), &Ok(&turned));
        tally.add(&[0]);
    }
    tally.report();
    assert!(tally.cases >= 20_000);
}

// ---------------------------------------------------------------------------
// Document 01's tables
// ---------------------------------------------------------------------------

/// Table A turned.
const TABLE_A_TURNED: &str = "\
...7...1.....-10.......0
...0.N..................
...1.M....0.............
...2.L....1...........-3
...3.L....1...........-5
...4.M....0.............
...5.L....4...........-2
...6.L....4...........-9
";

/// Tables with zeros and the farthest ends in all places, and the same turned.
const ENDS: [(&str, &str); 3] = [
    (
        "...4...1-1000000.1000000\n...0.M..................\n...1.L....0......1000000\n\
         ...2.L....0.....-1000000\n...3.L....0............0\n",
        "...4...1-1000000.1000000\n...0.N..................\n...1.L....0.....-1000000\n\
         ...2.L....0......1000000\n...3.L....0............0\n",
    ),
    (
        "...1...1.......0.1000000\n...0.L.................0\n",
        "...1...1-1000000.......0\n...0.L.................0\n",
    ),
    (
        "...1...1.......0.......0\n...0.L.................0\n",
        "...1...1.......0.......0\n...0.L.................0\n",
    ),
];

/// Texts, and the same turned; each also the other way.
fn known() -> Vec<(Vec<u8>, Vec<u8>)> {
    let lone = "...1...1......-7......-7\n...0.L................-7\n";
    let mut pairs = vec![
        (TABLE_A, TABLE_A_TURNED),
        (TABLE_B, TABLE_B_TURNED),
        (LONE_LEAF, lone),
    ];
    pairs.extend(ENDS);
    let written = pairs
        .iter()
        .map(|(text, turned)| (dotted(text), dotted(turned)));
    let ways = written.flat_map(|(text, turned)| [(text.clone(), turned.clone()), (turned, text)]);
    ways.collect()
}

#[test]
fn second_engine_has_the_known_texts() {
    for (text, turned) in known() {
        let mut buffer = vec![PATTERN; text.len()];
        assert_eq!(second::turn(&text, &mut buffer), Ok(()));
        assert_eq!(escaped(&buffer), escaped(&turned));
    }
}

/// The known texts and the refused examples, given to both engines; the proved
/// one must have the known texts too, whatever the second says.
#[test]
fn examples() {
    let mut comparison = Comparison::new("turning examples");
    let short = Err(Refusal {
        number: 11,
        line: 0,
    });
    for (text, turned) in known() {
        for room in 0..text.len() + 60 {
            let expected = if room < text.len() {
                short
            } else {
                Ok(&turned[..])
            };
            hold_to(&comparison.tally, &text, room, &expected);
        }
        comparison.hold(&text).expect("accepted");
    }
    // A refused text is refused for its own fault, whatever the buffer.
    for (text, number, line) in refused_examples() {
        let expected = Err(Refusal { number, line });
        for room in [0, 1, text.len(), text.len() + 25] {
            hold_to(&comparison.tally, &text, room, &expected);
        }
        comparison.hold(&text).expect_err("refused");
    }
    comparison.tally.report();
}
