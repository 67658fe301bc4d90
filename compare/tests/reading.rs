//! Reading, held to the second engine and to document 01.
//!
//! The environment variable SEED sets the seed of the random texts, CASES their
//! number.

use compare::engine::{self, Lent};
use compare::hold::reading::{expected, Comparison, NUMBERS};
use compare::hold::seen::{Seen, ROOTS};
use compare::hold::tally::{OF_GRAINS, OF_TABLES};
use compare::random::{number_from_environment, seed, Random};
use compare::second::{self, Kind, Refusal, LINE, MOST_NODES, MOST_TOTAL};
use compare::texts;
use compare::texts::broken::broken;
use compare::texts::examples::*;
use compare::texts::small::{for_each, lines, Utilities};

// ---------------------------------------------------------------------------
// Random texts
// ---------------------------------------------------------------------------

/// The main comparison. It also fails where the texts were too much alike to
/// mean anything: each refusal, and each sort of accepted table, must have come
/// often enough.
#[test]
fn random_texts() {
    let mut comparison = Comparison::new("random texts");
    let mut seen = Seen::default();
    let cases = number_from_environment("CASES", 200_000);
    for number in 0..cases {
        let mut random = Random::of_case(comparison.tally.seed, number);
        let case = texts::case(&mut random);
        let answer = comparison.hold(&case.text);
        if let (true, Err(refusal)) = (case.valid, &answer) {
            panic!(
                "seed {}, case {number}: a table made valid is refused: {refusal:?}\n{}",
                comparison.tally.seed,
                escaped(&case.text),
            );
        }
        if let Ok(table) = &answer {
            seen.count_table(table);
            seen.count("T 1", table.total == 1);
            seen.count("T 64", table.total == MOST_TOTAL);
            seen.count_chances(table);
            seen.count_root(&ROOTS, table);
        }
    }
    comparison.tally.report();
    seen.demand(100);
    comparison.tally.demand(&OF_TABLES);
    comparison.tally.demand(&OF_GRAINS);
    comparison.tally.demand_two_totals();
}

/// Tables with one fault each: both engines must name the refusal, and the line,
/// for which the table was broken.
#[test]
fn each_refusal_alone() {
    let mut comparison = Comparison::new("each refusal alone");
    for number in [1, 2, 3, 4, 5, 6, 7, 8, 9, 10, 18] {
        for case in 0..2_000 {
            let case = 10_000 * u64::from(number) + case;
            let mut random = Random::of_case(comparison.tally.seed, case);
            let (text, refusal) = broken(number, &mut random);
            let got = comparison.hold(&text).map(|_| ());
            assert_eq!(got, Err(refusal), "case {case}\n{}", escaped(&text));
        }
    }
    comparison.tally.report();
}

// ---------------------------------------------------------------------------
// All texts of some small sorts
// ---------------------------------------------------------------------------

/// Tables A and B with every byte changed to every other.
#[test]
fn every_byte() {
    let mut comparison = Comparison::new("every byte");
    for table in [TABLE_A, TABLE_B] {
        let mut text = dotted(table);
        for place in 0..text.len() {
            let kept = text[place];
            for byte in 0..=255 {
                text[place] = byte;
                let _ = comparison.hold(&text);
            }
            text[place] = kept;
        }
    }
    comparison.tally.report();
}

/// Every length up to two lines past the greatest: the beginning of a long flat
/// table, its count made right where there is room for it.
#[test]
fn every_length() {
    let mut comparison = Comparison::new("every length");
    let mut text = b"1024   1       0       0\n   0 M                  \n".to_vec();
    for leaf in 1..=MOST_NODES + 2 {
        text.extend_from_slice(format!("{leaf:>4} L    0            0\n").as_bytes());
    }
    for length in 0..=(MOST_NODES + 3) * LINE {
        let mut cut = text[..length].to_vec();
        if length >= LINE {
            let count = length / LINE - 1;
            cut[..4].copy_from_slice(format!("{count:>4}").as_bytes());
        }
        let _ = comparison.hold(&cut);
    }
    comparison.tally.report();
    // All from 2 to 1,024 nodes; a root alone is an M without a child.
    assert_eq!(comparison.tally.counts[0], 1_023);
    assert_eq!(comparison.tally.counts[8], 1);
}

/// Every table over a few entries, valid or not: up to three nodes with any of
/// them, and up to five with earlier nodes as parents and utilities on leaves.
#[test]
fn every_small_table() {
    const KINDS: &[&str] = &["M", "N", "C", "L"];
    let mut comparison = Comparison::new("every small table");
    let any = Utilities::Any(&["0"]);
    let on_leaves = Utilities::OnLeaves(&["0"]);
    let three = [
        lines(0, KINDS, &["", "0"], any),
        lines(1, KINDS, &["", "0", "1"], any),
        lines(2, KINDS, &["", "0", "1", "2"], any),
    ];
    let five = [
        vec![
            "   0 M                  \n".to_string(),
            "   0 C                  \n".to_string(),
        ],
        lines(1, &["M", "C", "L"], &["0"], on_leaves),
        lines(2, &["N", "C", "L"], &["0", "1"], on_leaves),
        lines(3, &["M", "C", "L"], &["0", "1", "2"], on_leaves),
        lines(4, &["N", "C", "L"], &["0", "1", "2", "3"], on_leaves),
    ];
    for nodes in [&three[..], &five] {
        for_each((0, 0), nodes, &mut |text| {
            let _ = comparison.hold(text);
            true
        });
    }
    comparison.tally.report();
}

/// Every content of each field over a few characters; of the wide fields a
/// random part, as all are too many.
#[test]
fn every_field() {
    const CHARACTERS: &[u8] = b" -0149+M";
    let mut comparison = Comparison::new("every field");
    let mut random = Random::new(comparison.tally.seed);
    let text = dotted(TABLE_B);
    // The fields of the header, of the leaf in line 5 (a child of the C) and of
    // the C in line 3.
    let fields = [
        (0, 0, 4),
        (0, 4, 8),
        (0, 4, 6),
        (0, 6, 8),
        (0, 8, 16),
        (0, 16, 24),
        (5, 0, 4),
        (5, 6, 11),
        (5, 11, 16),
        (5, 16, 24),
        (3, 0, 4),
        (3, 6, 11),
        (3, 11, 16),
        (3, 16, 24),
    ];
    for (line, start, end) in fields {
        let mut text = text.clone();
        let columns = LINE * line + start..LINE * line + end;
        let all = CHARACTERS.len().pow((end - start) as u32);
        let tried = all.min(50_000);
        for content in 0..tried {
            let mut left = if tried == all {
                content
            } else {
                random.below(all)
            };
            // Wide fields begin blank in most cases, as numbers do.
            let blanks = if tried == all {
                0
            } else {
                random.below(end - start)
            };
            for (column, byte) in text[columns.clone()].iter_mut().enumerate() {
                *byte = if column < blanks {
                    b' '
                } else {
                    CHARACTERS[left % CHARACTERS.len()]
                };
                left /= CHARACTERS.len();
            }
            let _ = comparison.hold(&text);
        }
    }
    comparison.tally.report();
}

// ---------------------------------------------------------------------------
// The second engine alone, against document 01
// ---------------------------------------------------------------------------

#[test]
fn second_engine_accepts_tables_a_and_b() {
    let a = second::read(&dotted(TABLE_A)).expect("table A");
    assert_eq!((a.total, a.lowest, a.highest), (1, 0, 10));
    assert_eq!((a.chances, a.grains, a.leaves), (0, 1, 4));
    let stops: Vec<usize> = a.nodes.iter().map(|node| node.stop).collect();
    assert_eq!(stops, [7, 4, 3, 4, 7, 6, 7]);
    let utilities: Vec<Option<i64>> = a.nodes.iter().map(|node| node.utility).collect();
    let leaf = Some;
    assert_eq!(
        utilities,
        [None, None, leaf(3), leaf(5), None, leaf(2), leaf(9)]
    );
    assert!(a.nodes.iter().all(|node| node.weight.is_none()));

    let b = second::read(&dotted(TABLE_B)).expect("table B");
    assert_eq!((b.total, b.lowest, b.highest), (4, 0, 8));
    assert_eq!((b.chances, b.grains, b.leaves), (1, 4, 3));
    let kinds: Vec<Kind> = b.nodes.iter().map(|node| node.kind).collect();
    use Kind::{Chance, Leaf, Max};
    assert_eq!(kinds, [Max, Leaf, Chance, Leaf, Leaf]);
    let stops: Vec<usize> = b.nodes.iter().map(|node| node.stop).collect();
    assert_eq!(stops, [5, 2, 5, 4, 5]);
    let parents: Vec<Option<usize>> = b.nodes.iter().map(|node| node.parent).collect();
    assert_eq!(parents, [None, Some(0), Some(0), Some(2), Some(2)]);
    let weights: Vec<Option<i64>> = b.nodes.iter().map(|node| node.weight).collect();
    assert_eq!(weights, [None, None, None, Some(3), Some(1)]);
}

#[test]
fn second_engine_accepts_the_limits() {
    // A lone leaf, the least table.
    let leaf = second::read(&dotted(LONE_LEAF));
    assert_eq!(leaf.expect("lone leaf").leaves, 1);

    // 64 nodes on a path.
    let deep = second::read(&chain(&[b'N'; 63], 1)).expect("64 nodes on a path");
    assert_eq!((deep.nodes.len(), deep.chances, deep.grains), (64, 0, 1));

    // Four C on a path, one under another.
    let four = second::read(&chain(b"CCCC", 1)).expect("four C on a path");
    assert_eq!((four.chances, four.grains), (4, 1));

    // The most grains: T 64, four C.
    let most = second::read(&chain(b"CCCC", 64)).expect("T 64, four C");
    assert_eq!(most.grains, 16_777_216);

    // The widest ends, and utilities at them.
    let wide = second::read(&dotted(
        "...3...1-1000000.1000000\n...0.M..................\n\
         ...1.L....0.....-1000000\n...2.L....0......1000000\n",
    ));
    let utilities: Vec<_> = wide.expect("widest ends").nodes[1..]
        .iter()
        .map(|node| node.utility)
        .collect();
    assert_eq!(utilities, [Some(-1_000_000), Some(1_000_000)]);
}

#[test]
fn second_engine_refuses_the_examples() {
    for (text, number, line) in refused_examples() {
        assert_eq!(
            second::read(&text),
            Err(Refusal { number, line }),
            "\n{}",
            escaped(&text)
        );
    }
}

/// The same examples, given to both engines.
#[test]
fn examples() {
    let mut comparison = Comparison::new("examples");
    for table in [TABLE_A, TABLE_B] {
        comparison.hold(&dotted(table)).expect("accepted");
    }
    for (text, _, _) in refused_examples() {
        comparison.hold(&text).expect_err("refused");
    }
    comparison.tally.report();
}

// ---------------------------------------------------------------------------
// Slices of any lengths
// ---------------------------------------------------------------------------

/// `entries` as a slice of `room` entries shows them, with a guard after it.
fn cut<T: Copy>(entries: &[T], room: usize, pattern: T) -> Vec<T> {
    let mut shown = vec![pattern; room + 1];
    let kept = room.min(entries.len());
    shown[..kept].copy_from_slice(&entries[..kept]);
    shown
}

/// Slices that are too short get as many entries as they have room for, and
/// nothing is written after them; a refused table writes into none.
#[test]
fn slices_of_any_length() {
    let mut texts = vec![
        dotted(TABLE_A),
        dotted(TABLE_B),
        table_b_with(4, "...3.L....2....2.......2"),
        Vec::new(),
    ];
    for number in 0..200 {
        texts.push(texts::case(&mut Random::of_case(seed(), number)).text);
    }
    let mut accepted = 0;
    for text in texts {
        let answer = second::read(&text);
        let nodes = answer.as_ref().map_or(2, |table| table.nodes.len());
        let written = if answer.is_ok() { nodes } else { 0 };
        accepted += usize::from(answer.is_ok());
        let (returned, full) = expected(&answer);
        let p = Lent::PATTERN;
        for room in [0, 1, 3, nodes - 1, nodes, nodes + 1] {
            // Each slice has its own length, so that one is not taken for another's.
            let rooms = [room, room / 2, room, room.saturating_sub(1), room / 3];
            let mut numbers = vec![p.numbers[0]; rooms[0] + 1];
            let mut kind = vec![p.kind[0]; rooms[1] + 1];
            let mut stop = vec![p.stop[0]; rooms[2] + 1];
            let mut weight = vec![p.weight[0]; rooms[3] + 1];
            let mut height = vec![p.height[0]; rooms[4] + 1];
            let got = engine::read_into(
                &text,
                &mut numbers[..rooms[0]],
                &mut kind[..rooms[1]],
                &mut stop[..rooms[2]],
                &mut weight[..rooms[3]],
                &mut height[..rooms[4]],
            );
            assert_eq!(got, returned);
            let counted = if answer.is_ok() { NUMBERS } else { 0 };
            assert_eq!(
                numbers,
                cut(&full.numbers[..counted], rooms[0], p.numbers[0])
            );
            assert_eq!(kind, cut(&full.kind[..written], rooms[1], p.kind[0]));
            assert_eq!(stop, cut(&full.stop[..written], rooms[2], p.stop[0]));
            assert_eq!(weight, cut(&full.weight[..written], rooms[3], p.weight[0]));
            assert_eq!(height, cut(&full.height[..written], rooms[4], p.height[0]));
        }
    }
    assert!(accepted >= 20, "only {accepted} accepted tables");
}
