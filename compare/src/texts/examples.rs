//! Example texts: document 01's tables, tables where the play is forced or nearly
//! so, where plays are level or nearly so or where they tie, chains, and one table or
//! more for each refusal.

use crate::second::LINE;

/// Table A of document 01; dots stand for blanks.
pub const TABLE_A: &str = "\
...7...1.......0......10
...0.M..................
...1.N....0.............
...2.L....1............3
...3.L....1............5
...4.N....0.............
...5.L....4............2
...6.L....4............9
";

/// Table B of document 01.
pub const TABLE_B: &str = "\
...5...4.......0.......8
...0.M..................
...1.L....0............5
...2.C....0.............
...3.L....2....3.......2
...4.L....2....1.......8
";

/// Table B turned.
pub const TABLE_B_TURNED: &str = "\
...5...4......-8.......0
...0.N..................
...1.L....0...........-5
...2.C....0.............
...3.L....2....3......-2
...4.L....2....1......-8
";

/// A leaf of 7, alone.
pub const LONE_LEAF: &str = "\
...1...1.......7.......7
...0.L.................7
";

/// A root M whose only child is a leaf.
pub const FORCED_LEAF: &str = "\
...2...1.......0......10
...0.M..................
...1.L....0............4
";

/// A root M whose only child is a C; three lines stand under that.
pub const FORCED_CHANCE: &str = "\
...5...4.......0.......8
...0.M..................
...1.C....0.............
...2.L....1....1.......5
...3.L....1....1.......0
...4.L....1....2.......8
";

/// A root M whose only child is an N with a choice of its own.
pub const FORCED_MIN: &str = "\
...6...1.......0......10
...0.M..................
...1.N....0.............
...2.L....1............3
...3.M....1.............
...4.L....3............9
...5.L....1............5
";

/// A root M with two leaves: the least choice.
pub const TWO_LEAVES: &str = "\
...3...1.......0......10
...0.M..................
...1.L....0............4
...2.L....0............7
";

/// The two plays of table B the other way round: the last line is all of the
/// second play.
pub const LAST_LINE: &str = "\
...5...4.......0.......8
...0.M..................
...1.C....0.............
...2.L....1....3.......2
...3.L....1....1.......8
...4.L....0............5
";

/// Three plays at a root M: a leaf of 3, a C that is worth three quarters of a
/// point less, and a C that is worth 3 as well.
pub const THREE_PLAYS: &str = "\
...8...4.......0.......8
...0.M..................
...1.L....0............3
...2.C....0.............
...3.L....2....1.......3
...4.L....2....3.......2
...5.C....0.............
...6.L....5....2.......2
...7.L....5....2.......4
";

/// The three plays turned.
pub const THREE_PLAYS_TURNED: &str = "\
...8...4......-8.......0
...0.N..................
...1.L....0...........-3
...2.C....0.............
...3.L....2....1......-3
...4.L....2....3......-2
...5.C....0.............
...6.L....5....2......-2
...7.L....5....2......-4
";

/// Three plays at a root M, an N each. At margin 3 every N is cut after its first leaf, so
/// that all have the lowest end as their low; the second and the third have the higher
/// high.
pub const CUT_PLAYS: &str = "\
..10...1.......0......10
...0.M..................
...1.N....0.............
...2.L....1............2
...3.L....1............9
...4.N....0.............
...5.L....4............3
...6.L....4............5
...7.N....0.............
...8.L....7............3
...9.L....7............4
";

/// Three plays at a root M where a point is 1,296 grains: a leaf of 5; two C one
/// below the other, which are worth one grain less; and a C that is worth 5 too.
pub const GRAIN_APART: &str = "\
..10..36.......0.......8
...0.M..................
...1.L....0............5
...2.C....0.............
...3.L....2...35.......5
...4.C....2....1........
...5.L....4...35.......5
...6.L....4....1.......4
...7.C....0.............
...8.L....7...18.......3
...9.L....7...18.......7
";

/// One of these tables with a root of this kind in place of its M.
pub fn with_root(table: &str, kind: char) -> Vec<u8> {
    dotted(&table.replacen("...0.M", &format!("...0.{kind}"), 1))
}

/// The text of a table that is written with dots.
pub fn dotted(table: &str) -> Vec<u8> {
    table.replace('.', " ").into_bytes()
}

/// Table B with one line written otherwise.
pub fn table_b_with(line: usize, written: &str) -> Vec<u8> {
    assert_eq!(written.len(), LINE - 1);
    let mut text = dotted(TABLE_B);
    text[LINE * line..LINE * line + LINE - 1].copy_from_slice(&dotted(written));
    text
}

/// Table B with a C as its root, whose children weigh 1 and 3.
pub fn table_b_under_chance() -> Vec<u8> {
    let mut text = table_b_with(1, "...0.C..................");
    text[2 * LINE + 15] = b'1';
    text[3 * LINE + 15] = b'3';
    text
}

/// A chain of inner nodes of these kinds over one leaf; every weight is T.
pub fn chain(kinds: &[u8], total: i64) -> Vec<u8> {
    let mut text = format!("{:>4}{total:>4}       0       0\n", kinds.len() + 1);
    for (node, kind) in kinds.iter().chain(b"L").enumerate() {
        let parent = node.checked_sub(1);
        let written = parent.map_or(String::new(), |parent| parent.to_string());
        let weight = match parent {
            Some(parent) if kinds[parent] == b'C' => total.to_string(),
            _ => String::new(),
        };
        let utility = if *kind == b'L' { "0" } else { "" };
        let kind = char::from(*kind);
        text += &format!("{node:>4} {kind}{written:>5}{weight:>5}{utility:>8}\n");
    }
    text.into_bytes()
}

/// Table B with two totals in its header, as they stand in columns 5-8, and with these
/// weights.
pub fn two_totals(columns: &str, weights: [i64; 2]) -> Vec<u8> {
    let mut text = dotted(TABLE_B);
    text[4..8].copy_from_slice(columns.as_bytes());
    for (line, weight) in (4..).zip(weights) {
        let columns = LINE * line + 11..LINE * line + 16;
        text[columns].copy_from_slice(format!("{weight:>5}").as_bytes());
    }
    text
}

/// A root M with two chains of C, so many of the first total and so many of the second,
/// over one leaf each; every weight is its C's total.
pub fn two_chains(totals: [i64; 2], lengths: [usize; 2]) -> Vec<u8> {
    let nodes = 1 + lengths.iter().map(|length| length + 1).sum::<usize>();
    let [first, second] = totals;
    let mut text = format!("{nodes:>4}{second:>2}{first:>2}       0       0\n");
    text += &format!("{:>4} M{:>18}\n", 0, "");
    let mut node = 0;
    for (total, length) in totals.into_iter().zip(lengths) {
        let (mut parent, mut weight) = (0, String::new());
        for _ in 0..length {
            node += 1;
            text += &format!("{node:>4} C{parent:>5}{weight:>5}{:>8}\n", "");
            (parent, weight) = (node, total.to_string());
        }
        node += 1;
        text += &format!("{node:>4} L{parent:>5}{weight:>5}{:>8}\n", 0);
    }
    text.into_bytes()
}

/// Refused tables, each with its refusal's number and line.
pub fn refused_examples() -> Vec<(Vec<u8>, u8, usize)> {
    let b = || dotted(TABLE_B);
    let long = |length: usize| vec![b' '; length];
    let mut cr = b();
    cr[2 * LINE + 24] = b'\r';
    let mut tab = b();
    tab[LINE + 4] = b'\t';
    vec![
        // 1: no text; one line; no multiple of 25; 1,026 lines.
        (Vec::new(), 1, 0),
        (b()[..25].to_vec(), 1, 0),
        (b()[..149].to_vec(), 1, 0),
        (long(25_650), 1, 0),
        // The greatest length is no refusal 1; blanks are no newline, so 2.
        (long(25_625), 2, 0),
        // 2: byte 25 of node 1's line is no newline.
        (cr, 2, 2),
        // 2: column 5 of node 0's line is no blank.
        (tab, 2, 1),
        // 2: the header's T is blank; the kind of node 2 is blank.
        (table_b_with(0, "...5...........0.......8"), 2, 0),
        (table_b_with(3, "...2......0............."), 2, 3),
        // 2: a blank after a zero; -0; a minus before zeros alone; a plus; a digit short
        // of the last column; a blank between minus and digit.
        (table_b_with(2, "...1.L....0..........0.5"), 2, 2),
        (table_b_with(2, "...1.L....0...........-0"), 2, 2),
        (table_b_with(2, "...1.L....0.....-0000000"), 2, 2),
        (table_b_with(2, "...1.L....0...........+5"), 2, 2),
        (table_b_with(2, "...1.L....0...........5."), 2, 2),
        (table_b_with(2, "...1.L....0..........-.5"), 2, 2),
        // 2 before 3 in the header: the lowest end is -0, and T is 0.
        (table_b_with(0, "...5...0......-0.......8"), 2, 0),
        // 2 before 4: the utility is -0, and the number is wrong.
        (table_b_with(4, "...4.L....2....3......-0"), 2, 4),
        // 3: T is 0; T is 65; an end too far out; the lowest above the highest.
        (table_b_with(0, "...5...0.......0.......8"), 3, 0),
        (table_b_with(0, "...5..65.......0.......8"), 3, 0),
        (table_b_with(0, "...5...4-1000001.......8"), 3, 0),
        (table_b_with(0, "...5...4.......9.......8"), 3, 0),
        // 3: a weight above T; a weight of 0, or of zeros; a utility above the highest end.
        (table_b_with(4, "...3.L....2....5.......2"), 3, 4),
        (table_b_with(4, "...3.L....2....0.......2"), 3, 4),
        (table_b_with(4, "...3.L....200000.......2"), 3, 4),
        (table_b_with(4, "...3.L....2....3.......9"), 3, 4),
        // 3 before 4 in the header: T is 0 and the count is wrong.
        (table_b_with(0, "...6...0.......0.......8"), 3, 0),
        // 4: the header counts 6 of the 5 node lines, or -5.
        (table_b_with(0, "...6...4.......0.......8"), 4, 0),
        (table_b_with(0, "..-5...4.......0.......8"), 4, 0),
        // 4: node 3's line says 4.
        (table_b_with(4, "...4.L....2....3.......2"), 4, 4),
        // 4 before 5: the number and the kind of one line are wrong.
        (table_b_with(4, "...4.X....2....3.......2"), 4, 4),
        // 5: X is no kind, nor is a small m.
        (table_b_with(1, "...0.X.................."), 5, 1),
        (table_b_with(1, "...0.m.................."), 5, 1),
        // 5 before 6: no kind, and a leaf as parent.
        (table_b_with(3, "...2.X....1............."), 5, 3),
        // 6: node 0 has a parent, 0 or zeros; node 2 has none.
        (table_b_with(1, "...0.M....0............."), 6, 1),
        (table_b_with(1, "...0.M00000............."), 6, 1),
        (table_b_with(3, "...2.C.................."), 6, 3),
        // 6: node 2's parent is a leaf; is itself; is below zero.
        (table_b_with(3, "...2.C....1............."), 6, 3),
        (table_b_with(3, "...2.C....2............."), 6, 3),
        (table_b_with(3, "...2.C...-1............."), 6, 3),
        // 6: node 6 stands under node 1, whose run ended when node 4 came.
        (dotted(&TABLE_A.replace("...6.L....4", "...6.L....1")), 6, 7),
        // 7: node 3, a child of a C, has no weight; node 1, no such child, has
        // one, or zeros; and so has the root.
        (table_b_with(4, "...3.L....2............2"), 7, 4),
        (table_b_with(2, "...1.L....0....1.......5"), 7, 2),
        (table_b_with(2, "...1.L....000000.......5"), 7, 2),
        (table_b_with(1, "...0.M.........1........"), 7, 1),
        // 7: the leaf 1 has no utility; node 2, no leaf, has one.
        (table_b_with(2, "...1.L....0............."), 7, 2),
        (table_b_with(3, "...2.C....0............5"), 7, 3),
        // 7 before 3: no weight, and a utility out of range, on one line.
        (table_b_with(4, "...3.L....2............9"), 7, 4),
        // 8: node 1 is an N, but the next line stands under node 0.
        (table_b_with(2, "...1.N....0............."), 8, 2),
        // 8: node 4 is an M and the last line.
        (table_b_with(5, "...4.M....2....1........"), 8, 5),
        // 9: the weights of node 2 are 2 and 1, and T is 4 (document 01's own
        // example).
        (table_b_with(4, "...3.L....2....2.......2"), 9, 3),
        // 9: they are 4 and 1.
        (table_b_with(4, "...3.L....2....4.......2"), 9, 3),
        // 8 before 9, although 9's line is the lower one: node 2's weights do
        // not sum to T, and node 4 has no child.
        (table_b_with(5, "...4.M....2....2........"), 8, 5),
        // 2: zeros in columns 5-6 and a blank after them, as T is then in columns 5-8.
        (table_b_with(0, "...500.4.......0.......8"), 2, 0),
        (table_b_with(0, "...5.0.4.......0.......8"), 2, 0),
        (table_b_with(0, "...500.........0.......8"), 2, 0),
        // 2: the second total is -0 or has a plus, or a blank after its digit, also a 0.
        (table_b_with(0, "...5-0.4.......0.......8"), 2, 0),
        (table_b_with(0, "...5+3.4.......0.......8"), 2, 0),
        (table_b_with(0, "...53..4.......0.......8"), 2, 0),
        (table_b_with(0, "...50.04.......0.......8"), 2, 0),
        // 2: there is a second total and no first.
        (table_b_with(0, "...5.4.........0.......8"), 2, 0),
        // 2 before 3 among the totals: the second is 65, the first -0.
        (table_b_with(0, "...565-0.......0.......8"), 2, 0),
        // 3: T is 0 in four columns; the first total is 0, in what would be a T of 100.
        (table_b_with(0, "...50000.......0.......8"), 3, 0),
        (table_b_with(0, "...5.100.......0.......8"), 3, 0),
        // 3: the second total is -1 or 65, or it is the first; the first is 65 or 0.
        (table_b_with(0, "...5-1.4.......0.......8"), 3, 0),
        (table_b_with(0, "...565.4.......0.......8"), 3, 0),
        (table_b_with(0, "...5.4.4.......0.......8"), 3, 0),
        (table_b_with(0, "...5.465.......0.......8"), 3, 0),
        (table_b_with(0, "...5.4.0.......0.......8"), 3, 0),
        // 3: a weight above the larger total, which is the first or the second.
        (two_totals(" 3 4", [5, 1]), 3, 4),
        (two_totals(" 4 3", [5, 1]), 3, 4),
        // 9: the weights sum to neither total, but to both together, to their difference
        // or to a number between them.
        (two_totals(" 3 4", [4, 3]), 9, 3),
        (two_totals("10 4", [5, 1]), 9, 3),
        (two_totals(" 2 6", [3, 1]), 9, 3),
        // 18: two grains for each of the most that are allowed, and 63 to the fourth.
        (two_chains([64, 2], [4, 1]), 18, 0),
        (two_chains([2, 64], [1, 4]), 18, 0),
        (two_chains([64, 63], [4, 4]), 18, 0),
        // 9 before 18: so many grains, and a weight that is less by two.
        (
            {
                let mut text = two_chains([64, 63], [4, 4]);
                text[6 * LINE + 15] = b'2';
                text
            },
            9,
            5,
        ),
        // 10: the leaf is the 65th node of its path, so its line is 65.
        (chain(&[b'M'; 64], 1), 10, 65),
        // 6 before 10: node 64 stands under the leaf that is the 64th node of its path.
        (
            {
                let mut text = chain(&[b'M'; 63], 1);
                text[..4].copy_from_slice(b"  65");
                text.extend_from_slice(b"  64 L   63            0\n");
                text
            },
            6,
            65,
        ),
        // 10: node 4 is the fifth C of its path.
        (chain(b"CCCCC", 1), 10, 5),
        (chain(b"CNCMCNCMC", 1), 10, 9),
        // 10 before 7: the fifth C's line also lacks its weight.
        (
            {
                let mut text = chain(b"CCCCC", 1);
                text[5 * LINE + 15] = b' ';
                text
            },
            10,
            5,
        ),
    ]
}

/// The text with every byte visible, 25 bytes to a line.
pub fn escaped(text: &[u8]) -> String {
    text.chunks(LINE)
        .map(|line| format!("\"{}\"\n", line.escape_ascii()))
        .collect()
}
