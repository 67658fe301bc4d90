//! Holds the refusals of the desk's command to the second engine: the number, the
//! line, what is shown of it and the columns marked.
//!
//! SEED sets the seed of the random texts.

use std::fs;
use std::ops::RangeInclusive;
use std::time::{Duration, Instant};

use compare::hold::desk::Question::{Judge, Rollout, Search, SearchIndexed, SearchWithin, ShowTo};
use compare::hold::desk::*;
use compare::hold::seen::Seen;
use compare::hold::tally::{Tally, OF_GRAINS, OF_TABLES};
use compare::random::Random;
use compare::second::desk::{self, Form, Stretch, FORMS};
use compare::second::{self, Refusal, LINE};
use compare::texts;
use compare::texts::broken::broken;
use compare::texts::examples::*;
use compare::texts::knobs::Knobs;
use compare::texts::{largest, padding};

/// A text that is refused: what is wrong with it, and what must be printed.
struct Bad {
    why: String,
    text: Vec<u8>,
    refused: Refused,
}

impl Bad {
    /// The second engine must have the same number, line and columns.
    fn new(number: u8, line: usize, marks: &str, why: &str, text: Vec<u8>) -> Bad {
        let refusal = Refusal { number, line };
        assert_eq!(second::read(&text), Err(refusal), "{why}");
        let refused = Refused::of(&text, refusal);
        let stretches = marks.split(',').filter(|stretch| !stretch.is_empty());
        let stretches: Vec<Stretch> = stretches.map(|s| stretch_of(s, '-')).collect();
        assert_eq!(refused.marks, stretches, "{why}");
        let why = why.to_string();
        Bad { why, text, refused }
    }
}

/// Table B with these bytes in place of some columns of a line.
fn b_spliced(line: usize, columns: RangeInclusive<usize>, bytes: &[u8]) -> Vec<u8> {
    let mut text = dotted(TABLE_B);
    let first = LINE * line + columns.start() - 1;
    let past = LINE * line + columns.end();
    text.splice(first..past, bytes.iter().copied());
    text
}

/// The table with two totals, with these bytes from a column of a line on.
fn two_totals_with(line: usize, column: usize, bytes: &[u8]) -> Vec<u8> {
    let text = dotted(TWO_TOTALS);
    overwritten(text, line, column, bytes)
}

/// The text with these bytes from a column of a line on.
fn overwritten(mut text: Vec<u8>, line: usize, column: usize, bytes: &[u8]) -> Vec<u8> {
    let first = LINE * line + column - 1;
    text[first..first + bytes.len()].copy_from_slice(bytes);
    text
}

/// The text with a carriage return before each newline.
fn carriage_returns(text: &[u8]) -> Vec<u8> {
    let lines = text.chunks(LINE).map(|line| &line[..LINE - 1]);
    lines.flat_map(|line| [line, b"\r\n"].concat()).collect()
}

/// Texts whose length is wrong.
fn wrong_lengths() -> Vec<Bad> {
    let b = dotted(TABLE_B);
    let cut = |length: usize| b[..length].to_vec();
    let joined = |one: &[u8], other: &[u8]| [one, other].concat();
    let full = largest::all_read(b'M');
    let one_more = joined(&full, b"1024 L    0            0\n");
    let long_last = joined(&full[..full.len() - LINE], &[b'x'; 60]);
    let words = b" \t some words\n";
    let one = |marked, why, text| Bad::new(1, 0, marked, why, text);
    vec![
        one("", "empty", vec![]),
        one("", "no node line", cut(LINE)),
        one("", "1,025 node lines", one_more),
        one("2-24", "1,024 node lines and a blank", joined(&full, b" ")),
        one("25-40", "a long line as the 1,024th", long_last),
        one("25", "no last newline", cut(149)),
        one("24", "no last column", cut(148)),
        one("6-24", "a line cut off", cut(130)),
        one("25", "a header cut off", cut(24)),
        one("2-24", "a byte", b"x".to_vec()),
        one("2-24", "a blank more", joined(&b, b" ")),
        one("1-24", "an empty line at the end", joined(&b, b"\n")),
        one("1-24", "an empty line at first", joined(b"\n", &b)),
        one("24", "a blank too few", b_spliced(2, 12..=12, b"")),
        one("21-24", "four too few", b_spliced(2, 12..=15, b"")),
        one("25", "a blank too many", b_spliced(3, 12..=12, b"  ")),
        one("25", "one at the end", b_spliced(3, 25..=25, b" \n")),
        one("25-26", "two too many", b_spliced(0, 24..=24, b"800")),
        one("25-37", "words after it", b_spliced(4, 25..=25, words)),
        one("25-40", "40 columns", b_spliced(4, 24..=24, &[b'8'; 17])),
        one("25-40", "41 columns", b_spliced(4, 24..=24, &[b'8'; 18])),
        one("25-40", "a newline lost", b_spliced(1, 25..=25, b"")),
        one("25", "carriage returns", carriage_returns(&b)),
    ]
}

/// A line of table B that is written otherwise and refused: the number, the
/// line, the columns marked, how it is written, and what is wrong.
const LINES_OF_B: &str = "\
2 0 1-4 .......4.......0.......8 no count
2 0 5-8 ...5...........0.......8 no T
2 0 9-16 ...5...4...............8 no lowest end
2 0 17-24 ...5...4.......0........ no highest end
2 0 1-4 0.05...4.......0.......8 a blank after a zero in the count
2 0 5-8 ...5..+4.......0.......8 a plus before T
2 0 9-16 ...5...4......-0.......8 an end of -0
2 0 17-24 ...5...4.......08....... an end left-justified
2 0 1-4,9-16 -000...4......-0.......8 two that are minus zero
2 0 1-4,5-8,9-16,17-24 0.05..+4......-0......8. every field
2 0 5-8 ...500.4.......0.......8 zeros in columns 5-6, a blank before T
2 0 5-8 ...5.0.4.......0.......8 a zero in column 6, a blank before T
2 0 5-8 ...500.........0.......8 zeros left-justified
2 0 5-8 ...500-4.......0.......8 zeros before a minus
2 0 5-6 ...50.36.......0.......8 a zero in column 5, a blank after it
2 0 5-6 ...5-004.......0.......8 minus zeros
2 0 5-6 ...5+3.4.......0.......8 a plus before a second total
2 0 5-6 ...5-0.4.......0.......8 a second total of -0
2 0 5-6 ...53..4.......0.......8 a second total left-justified
2 0 5-6 ...5.-.4.......0.......8 a minus alone for a second total
2 0 5-6 ...5.x.4.......0.......8 a letter for a second total
2 0 7-8 ...536.........0.......8 T left-justified in columns 5-8
2 0 7-8 ...5.3.........0.......8 a second total and no T
2 0 7-8 ...515-0.......0.......8 T -0 beside a second total
2 0 7-8 ...5034........0.......8 T left-justified beside a padded one
2 0 7-8 ...5154........0.......8 T left-justified beside a second total
2 0 5-6,7-8 ...5-0-0.......0.......8 minus zero twice
2 0 5-6 ...5.--4.......0.......8 a minus in column 6, -4 after it
2 0 1-4,5-6,7-8,9-16,17-24 0.05+3+4......-0......8. every field, and a second total
2 0 9-16 ...565.4......-0.......8 2 comes before 3 of a second total
2 1 1-4 .....M.................. no number
2 1 1-4 -000.M.................. minus zeros as a number
2 3 6 ...2......0............. no kind
2 3 7-11 ...2.C-0000............. minus zeros as a parent
2 3 7-11 ...2.C.0................ a parent left-justified
2 4 12-16 ...3.L....2...+3.......2 a plus before a weight
2 4 12-16 ...3.L....2...3a.......2 a letter in a weight
2 2 17-24 ...1.L....0.....000000.5 a blank after zeros in a utility
2 2 17-24 ...1.L....0.....-0000000 a utility of minus zeros
2 2 17-24 ...1.L....0...........-0 a utility of -0
2 2 17-24 ...1.L....0...........+5 a plus before a utility
2 2 17-24 ...1.L....0...........5. a blank after a utility
2 2 17-24 ...1.L....0..........-.5 a blank after its minus
2 2 17-24 ...1.L....0..........5.5 a blank inside
2 2 17-24 ...1.L....0............- a minus alone
2 2 5 ...1xL....0............5 column 5
2 2 5,6 ...1x.....0............5 column 5 and the kind
2 2 5,7-11 ...1xL...+0............5 column 5 and the parent
2 2 1-4,17-24 0.01.L....0..........0.5 the number and the utility
2 4 17-24 ...4.L....2....3......-0 2 comes before 4
3 0 5-8 ...5...0.......0.......8 T 0
3 0 5-8 ...5..65.......0.......8 T 65
3 0 5-8 ...5..-4.......0.......8 T -4
3 0 5-8 ...50000.......0.......8 T of zeros
3 0 5-8 ...5.065.......0.......8 T 65 with a zero
3 0 9-16 ...5...4-1000001.......8 the lowest end too low
3 0 17-24 ...5...4.......0.1000001 the highest end too high
3 0 9-16,17-24 ...5...4.......9.......8 the lowest end above the highest
3 0 5-8,17-24 ...5..65.......0.1000001 T and an end
3 0 9-16,17-24 ...5...4.......0-1000001 an end too low and below the other
3 0 5-8,9-16,17-24 ...5...0.......9.......8 T 0, and the lowest end above the highest
3 0 5-8 ...6...0.......0.......8 3 comes before 4
3 0 7-8 ...5.100.......0.......8 three digits in columns 5-8
3 0 5-6 ...565.4.......0.......8 a second total of 65
3 0 5-6 ...599.4.......0.......8 a second total of 99
3 0 5-6 ...5-1.4.......0.......8 a second total below zero
3 0 5-6 ...5.4.4.......0.......8 a second total that T is already
3 0 5-6 ...50404.......0.......8 the same, with zeros
3 0 5-6 ...56464.......0.......8 both the greatest
3 0 7-8 ...515.0.......0.......8 T 0 beside a second total
3 0 7-8 ...51565.......0.......8 T 65 beside a second total
3 0 7-8 ...515-4.......0.......8 T -4 beside a second total
3 0 5-6,7-8 ...565-1.......0.......8 both totals
3 0 5-6,7-8 ...56565.......0.......8 both totals, the same
3 0 5-6,7-8,9-16,17-24 ...599.0.......9.......8 both totals and both ends
3 0 5-6,17-24 ...5.4.4.......0.1000001 a second total that T is already, and an end
3 0 5-6 ...6.4.4.......0.......8 3 of a second total comes before 4
4 0 1-4 ...615.4.......0.......8 a node too many counted, with a second total
3 4 12-16 ...3.L....2....5.......2 a weight above T
3 4 12-16 ...3.L....2....0.......2 a weight of 0
3 4 12-16 ...3.L....200000.......2 a weight of zeros
3 4 12-16 ...3.L....2...-1.......2 a weight below zero
3 2 17-24 ...1.L....0............9 a utility above the ends
3 2 17-24 ...1.L....0...........-1 a utility below the ends
3 4 12-16,17-24 ...3.L....2....0.......9 a weight and a utility
4 0 1-4 ...6...4.......0.......8 a node too many counted
4 0 1-4 ..-5...4.......0.......8 a count below zero
4 4 1-4 ...4.L....2....3.......2 a number that comes later
4 4 1-4 ...4.X....2....3.......2 4 comes before 5
5 1 6 ...0.X.................. no such kind
5 2 6 ...1.l....0............5 a small letter
5 3 6 ...2.X....1............. 5 comes before 6
6 1 7-11 ...0.M....0............. a parent of the root
6 1 7-11 ...0.M00000............. zeros as a parent of the root
6 3 7-11 ...2.C.................. no parent
6 3 7-11 ...2.C....1............. a leaf as parent
6 3 7-11 ...2.C....2............. itself as parent
6 3 7-11 ...2.C...-1............. a parent below zero
6 3 7-11 ...2.C..999............. no such parent
7 4 12-16 ...3.L....2............2 no weight
7 2 12-16 ...1.L....0....1.......5 a weight too many
7 1 12-16 ...0.M.........1........ a weight of the root
7 2 12-16 ...1.L....000000.......5 a weight of zeros too many
7 3 17-24 ...2.C....0.....00000000 a utility of zeros too many
7 2 17-24 ...1.L....0............. no utility
7 3 17-24 ...2.C....0............5 a utility too many
7 4 12-16,17-24 ...3.L....2............. neither
7 3 12-16,17-24 ...2.C....0....1.......5 both
7 4 12-16 ...3.L....2............9 7 comes before 3
8 2 6 ...1.N....0............. an N without a child
8 5 6 ...4.M....2....1........ an M as the last
8 5 6 ...4.C....2....2........ 8 comes before 9
";

fn lines_of_b() -> Vec<Bad> {
    let lines = LINES_OF_B.lines().map(|case| {
        let parts: Vec<&str> = case.splitn(5, ' ').collect();
        let [number, line, marked, written, why] = parts[..] else {
            panic!("{case}");
        };
        let number = number.parse().expect("a number");
        let line = line.parse().expect("a line");
        Bad::new(number, line, marked, why, table_b_with(line, written))
    });
    lines.collect()
}

/// Bytes that no line above can have, and trees that are wrong as a whole.
fn other_texts() -> Vec<Bad> {
    // Node 1's line has a blank too few before its newline and one after it.
    let mut shifted = b_spliced(2, 12..=12, b"");
    shifted.insert(LINE * 3 - 1, b' ');
    let windows = carriage_returns(&chain(&[b'M'; 23], 1));
    let closed = dotted(&TABLE_A.replace("...6.L....4", "...6.L....1"));
    let weight = |weight| b_spliced(4, 16..=16, weight);
    let mut heavy_root = table_b_under_chance();
    heavy_root[2 * LINE + 15] = b'2';
    let mut no_weight = chain(b"CCCCC", 1);
    no_weight[5 * LINE + 15] = b' ';
    // The table with two totals, and the one with too many grains, written otherwise.
    let two = two_totals_with;
    let grains = |line, column, bytes| overwritten(too_many_grains(), line, column, bytes);
    let mut above_t = two(0, 6, b"9 3");
    above_t[3 * LINE + 15] = b'4';
    let childless = grains(8, 1, b"   7 M    6   63        ");
    let bad = Bad::new;
    vec![
        bad(9, 2, "6", "5 where 4 and 3 are", two(3, 16, b"4")),
        bad(9, 5, "6", "2 where 4 and 3 are", two(7, 16, b"1")),
        bad(9, 7, "6", "5 below another C", two(9, 16, b"2")),
        bad(9, 5, "6", "3 where 4 and 2 are", two(0, 6, b"2")),
        bad(9, 2, "6", "4 where 5 and 3 are", two(0, 8, b"5")),
        bad(9, 2, "6", "a weight above T is in range", above_t),
        bad(3, 3, "12-16", "one above both is not", two(3, 16, b"5")),
        bad(18, 0, "5-6,7-8", "grains", too_many_grains()),
        bad(18, 0, "5-6,7-8", "grains at N", grains(1, 6, b"N")),
        bad(8, 8, "6", "8 comes before 18", childless),
        bad(9, 7, "6", "9 comes before 18", grains(8, 16, b"2")),
        bad(2, 2, "5", "a tab", b_spliced(2, 5..=5, b"\t")),
        bad(2, 0, "25", "a blank for 25", b_spliced(0, 25..=25, b" ")),
        bad(2, 1, "25", "in a node line", b_spliced(1, 25..=25, b" ")),
        bad(2, 2, "25", "a return", b_spliced(2, 25..=25, b"\r")),
        bad(2, 5, "25", "a last letter", b_spliced(5, 25..=25, b"x")),
        bad(2, 0, "25", "carriage returns in 25 lines", windows),
        bad(2, 2, "17-24,25", "a newline in column 24", shifted),
        bad(6, 7, "7-11", "a parent whose run is over", closed),
        bad(9, 3, "6", "weights too small", weight(b"2")),
        bad(9, 3, "6", "weights too great", weight(b"4")),
        bad(9, 1, "6", "weights under the root", heavy_root),
        bad(10, 65, "7-11", "65 nodes", chain(&[b'M'; 64], 1)),
        bad(10, 5, "6", "a fifth C", chain(b"CCCCC", 1)),
        bad(10, 9, "6", "a fifth C", chain(b"CNCMCNCMC", 1)),
        bad(10, 5, "6", "10 comes before 7", no_weight),
    ]
}

/// Every bad table, asked about with each verb in turn: the number and the line,
/// the line shown and its marks.
#[test]
fn refused_tables() {
    let mut tally = Tally::new("desk on refused tables");
    // A table is refused before a margin, a budget or a number.
    let numbers: [&[&str]; 4] = [
        &["search", "-1"],
        &["search", "--budget", "-1", "0"],
        &["search", "--index", "-1"],
        &["judge", "0"],
    ];
    let verbs = [OF_A_TABLE, &numbers].concat();
    let lists = [wrong_lengths(), lines_of_b(), other_texts()];
    for bad in lists.iter().flatten() {
        let file = written("desk-refused.txt", &bad.text);
        for form in FORMS {
            let case = tally.cases as usize;
            let way = [Way::File(&file), Way::Input, Way::Dash][case % 3];
            let words = words(verbs[case % verbs.len()]);
            let ran = ask(words, &bad.text, form, way, tally.cases / 2);
            bad.refused.hold(&ran, form, way.name(), &bad.why);
            tally.add(&[u64::from(bad.refused.refusal.number)]);
        }
    }
    tally.report();
    for number in OF_TABLES.into_iter().chain(OF_GRAINS) {
        let count = tally.counts[number];
        assert!(count >= 4, "refusal {number} came only {count} times");
    }
}

/// Texts that are damaged at random.
#[test]
fn random_refused_texts() {
    let mut tally = Tally::new("desk on random refused texts");
    let mut seen = Seen::default();
    for case in 0..1_000 {
        let random = &mut Random::of_case(tally.seed, case);
        let (text, refusal) = match case % 20 {
            number @ 0..10 => broken(1 + number as u8, random),
            10 => broken(18, random),
            11..=13 => zeros_at_fault(random),
            _ => damaged(random),
        };
        // The same with zeros before its numbers (document 02, Item 9).
        let text = match random.one_in(2) {
            true => padding::padded(&text, random),
            false => text,
        };
        assert_eq!(second::read(&text), Err(refusal));
        let form = random.pick(&FORMS);
        let words = words(random.pick(OF_A_TABLE));
        let ran = ask(words, &text, form, Way::Input, case);
        let refused = Refused::of(&text, refusal);
        refused.hold(&ran, form, Way::Input.name(), &tally.place());
        for (number, stretch) in [
            (2, (5, 6)),
            (2, (7, 8)),
            (2, (5, 8)),
            (3, (5, 6)),
            (3, (7, 8)),
            (3, (5, 8)),
        ] {
            let is_marked = refused.marks.contains(&stretch) && refusal.number == number;
            let (first, last) = stretch;
            seen.count(&format!("{number} at columns {first}-{last}"), is_marked);
        }
        let detail = refused.detail.unwrap_or_default();
        seen.count(
            "a sum that is neither total",
            detail.contains("the totals are"),
        );
        seen.count("a sum that is not T", detail.contains("and T is"));
        tally.add(&[u64::from(refusal.number)]);
    }
    tally.report();
    seen.demand(1);
    for number in OF_TABLES.into_iter().chain(OF_GRAINS) {
        let count = tally.counts[number];
        assert!(count >= 50, "refusal {number} came only {count} times");
    }
}

/// A table that is refused for zeros in it.
fn zeros_at_fault(random: &mut Random) -> (Vec<u8>, Refusal) {
    loop {
        let mut text = texts::make(Knobs::any, random);
        let (_, put) = random.pick(&padding::FAULTS);
        put(&mut text, random);
        if let Err(refusal) = second::read(&text) {
            return (text, refusal);
        }
    }
}

/// A damaged text that is refused.
fn damaged(random: &mut Random) -> (Vec<u8>, Refusal) {
    loop {
        let text = texts::case(random).text;
        if let Err(refusal) = second::read(&text) {
            return (text, refusal);
        }
    }
}

/// What a reason must say after its colon, and words of the mend.
struct Said {
    text: Vec<u8>,
    detail: String,
    mend: &'static str,
}

impl Said {
    fn new(text: Vec<u8>, detail: &str, mend: &'static str) -> Said {
        let detail = detail.to_string();
        Said { text, detail, mend }
    }

    /// Asks with these words, and compares.
    fn hold(&self, words: &[&str]) {
        let ran = ask(self::words(words), &self.text, Form::Tsv, Way::Input, 0);
        let row = |name: &str| {
            let mut lines = ran.out.lines();
            let row = lines.find_map(|line| line.strip_prefix(name));
            row.unwrap_or_else(|| panic!("{}: no {name} in {}", ran.asked, ran.out))
        };
        let (_, detail) = row("reason\t").split_once(": ").expect("a detail");
        assert_eq!(detail, self.detail, "{}", ran.asked);
        let mend = row("mend\t");
        assert!(mend.contains(self.mend), "{}: {detail}: {mend}", ran.asked);
    }
}

/// Table B with the blanks at the ends of its lines cut off, as editors do.
fn trimmed_b() -> Vec<u8> {
    let text = String::from_utf8(dotted(TABLE_B)).expect("ASCII");
    let lines = text.lines().map(|line| format!("{}\n", line.trim_end()));
    lines.collect::<String>().into_bytes()
}

/// Causes of a wrong length that people meet, each with its own mend.
#[test]
fn causes_of_wrong_lengths() {
    let b = dotted(TABLE_B);
    let joined = |one: &[u8], other: &[u8]| [one, other].concat();
    let full = largest::all_read(b'M');
    let one_more = joined(&full, b"1024 L    0            0\n");
    let at = |line: usize, fault: &str| format!("line {line} (the header is line 0) {fault}");
    let awk = "awk '{ printf \"%-24s\\n\", $0 }'";
    let said = [
        Said::new(vec![], "it is empty", "header"),
        Said::new(b[..LINE].to_vec(), "it has no node line", "each node"),
        Said::new(one_more, "it has more than 1,024 node lines", "cut"),
        Said::new(
            joined(b"            12\n", &b),
            "the header has 14 columns, like a margin line",
            "leave out",
        ),
        Said::new(
            carriage_returns(&b),
            "the header has a carriage return before its newline",
            "newlines alone",
        ),
        Said::new(
            joined(b"\xef\xbb\xbf", &b),
            "the header begins with a byte order mark",
            "without",
        ),
        Said::new(trimmed_b(), &at(1, "ends after column 6"), awk),
        Said::new(b[..149].to_vec(), &at(5, "has no newline"), "end the last"),
        Said::new(joined(&b, b"\n"), &at(6, "is empty"), "delete"),
        Said::new(joined(&b, b"x"), &at(6, "ends after column 1"), "blanks"),
        Said::new(
            b_spliced(2, 7..=11, b"\t0"),
            &at(2, "has a tab in column 7"),
            "blanks",
        ),
        Said::new(
            b_spliced(2, 7..=7, b"\xc2\xa0"),
            &at(2, "has a character that is not ASCII in column 7"),
            "ASCII",
        ),
        Said::new(
            b_spliced(2, 25..=25, b"  \n"),
            &at(2, "ends after column 26"),
            "cut it",
        ),
        Said::new(
            vec![b'x'; 30_000],
            "the header is much longer than 24 columns",
            "cut it",
        ),
    ];
    for said in said {
        assert_eq!(second::read(&said.text).map_err(|r| r.number), Err(1));
        said.hold(&["worth"]);
    }

    // The mend for cut-off blanks gives the table back.
    let cut = written("desk-trimmed.txt", &trimmed_b());
    let program = awk.split('\'').nth(1).expect("a program in quotes");
    let filled = std::process::Command::new("awk")
        .args([program, &cut])
        .output();
    assert_eq!(filled.expect("awk").stdout, b);
}

/// What is said of a line at fault, in words that name what stands there.
const REASONS: &str = "\
0 .......4.......0.......8 the count of nodes is blank
0 ...5..+4.......0.......8 T has a plus
0 ...5...4......-0.......8 the lowest end is minus zero
0 ...5...4-0000000.......8 the lowest end is minus zero
0 ...5...4.......08....... the highest end is not right-justified
0 ...5...0.......0.......8 T is not 1 to 64
0 ...500.4.......0.......8 T has a blank within
0 ...500.........0.......8 T is not right-justified
0 ...5-004.......0.......8 the second total is minus zero
0 ...53..4.......0.......8 the second total is not right-justified
0 ...536.........0.......8 T (columns 7-8, as 5-6 are neither blank nor 0) is blank
0 ...5.100.......0.......8 T is not 1 to 64
0 ...50000.......0.......8 T is not 1 to 64
0 0006...4.......0.......8 it is 6, and there are 5
0 ...565.4.......0.......8 the second total is not 1 to 64
0 ...5.4.4.......0.......8 the second total is the same as T
0 ...515.0.......0.......8 T is not 1 to 64
0 ...599.0.......0.......8 the second total is not 1 to 64, T is not 1 to 64
0 ...615.4.......0.......8 it is 6, and there are 5
0 ...51536.......0.......8 they sum to 4, and the totals are 36 and 15
0 ...51515.......9.......8 the second total is the same as T, the lowest end is above the highest
0 ...5...4-1000001.......8 the lowest end is more than 1,000,000 from 0
0 ...5...4.......9.......8 the lowest end is above the highest
0 ...6...4.......0.......8 it is 6, and there are 5
1 ...0.M....0............. node 0 has none
1 ...0.M00000............. node 0 has none
2 ...1.L....0.....000000.5 the utility has a blank within
2 ...1.L....0.....00-00005 the utility is no number
2 ...1.L....0..........-.5 the utility has a blank after its minus
2 ...1x.....0............5 column 5 is not blank, the kind is blank
2 ...1.l....0............5 it is `l`
2 ...1.L....0............9 the utility is outside the ends 0 and 8
2 ...1.L....0............. a leaf needs a utility
2 ...1.L....0....1.......5 only the children of a C have a weight
3 ...2.C.................. it is missing
3 ...2.C....1............. node 1 is a leaf
3 ...2.C00001............. node 1 is a leaf
3 ...2.C....2............. node 2 does not come before this one
3 ...2.C...02............. node 2 does not come before this one
3 ...2.C...-1............. there is no node -1
3 ...2.C-0001............. there is no node -1
3 ...2.C....0............5 only a leaf has a utility
4 ...3.L....2...3a.......2 the weight is no number
4 ...3.L....2....5.......2 the weight is not 1 to 4
4 ...3.L....2............2 a child of a C needs a weight
4 ...4.L....2....3.......2 it is 4 and should be 3
4 0004.L....2....3.......2 it is 4 and should be 3
4 ...3.L....200005.......2 the weight is not 1 to 4
4 ...3.L....200002.......2 they sum to 3, and T is 4
4 ...3.L....2....2.......2 they sum to 3, and T is 4
";

#[test]
fn reasons_in_words() {
    let mut told = 0;
    for case in REASONS.lines() {
        let parts: Vec<&str> = case.splitn(3, ' ').collect();
        let [line, columns, detail] = parts[..] else {
            panic!("{case}");
        };
        let line = line.parse().expect("a line");
        Said::new(table_b_with(line, columns), detail, "").hold(&["show"]);
        told += 1;
    }
    assert_eq!(told, 50);

    let two = two_totals_with;
    let weight = "the weight is not 1 to 4";
    Said::new(two(3, 16, b"5"), weight, "the larger total").hold(&["show"]);
    let larger = [two(0, 5, b"16"), two(0, 5, b" 416")];
    for (text, totals) in larger.into_iter().zip(["4 and 16", "16 and 4"]) {
        let mut text = text;
        text[3 * LINE + 14..3 * LINE + 16].copy_from_slice(b"17");
        let weight = "the weight is not 1 to 16";
        Said::new(text.clone(), weight, "the larger total").hold(&["show"]);
        text[3 * LINE + 15] = b'6';
        let sum = format!("they sum to 17, and the totals are {totals}");
        Said::new(text, &sum, "weights").hold(&["show"]);
    }
    let grains = "64 is used 4 times on the path to node 4, 63 once on that to node 6, \
                  so G would be 1,056,964,608";
    Said::new(too_many_grains(), grains, "fewer C").hold(&["show"]);

    let closed = dotted(&TABLE_A.replace("...6.L....4", "...6.L....1"));
    let others = "other nodes than those under node 1 stand between";
    Said::new(closed, others, "follow it").hold(&["show"]);
    let deep = "it is the 65th node on its path";
    Said::new(chain(&[b'M'; 64], 1), deep, "64 nodes").hold(&["show"]);
    let chances = "it is the fifth C on its path";
    Said::new(chain(b"CCCCC", 1), chances, "4 C").hold(&["show"]);
    let windows = carriage_returns(&chain(&[b'M'; 23], 1));
    let returned = "a carriage return stands where the newline should";
    Said::new(windows, returned, "newline").hold(&["show"]);
    let tab = "the utility has a tab";
    Said::new(b_spliced(2, 23..=23, b"\t"), tab, "").hold(&["show"]);

    let b = || dotted(TABLE_B);
    Said::new(b(), "-0.1 is -1g", "range").hold(&["search", "-0.1"]);
    Said::new(b(), "-0.1 is -1g", "range").hold(&["search", "--index", "-0.1"]);
    let great = "99999999999999999999";
    let given = format!("{great} was given");
    Said::new(b(), &given, "range").hold(&["show", "--margin", great]);
    for budget in ["2000", "-1", "1025", "-9223372036854775808", great] {
        let given = format!("{budget} was given");
        let said = Said::new(b(), &given, "range");
        said.hold(&["search", "--budget", budget, "0"]);
        said.hold(&["search", "0", &format!("--budget={budget}")]);
    }
    Said::new(b(), "the first is node 2", "search it").hold(&["rollout"]);
    Said::new(b(), "7 was given, and there are 2", "from 1").hold(&["judge", "7"]);
}

/// Refusals of a call on an accepted table: 12, 13, 14 and 17.
#[test]
fn refused_calls() {
    let mut comparison = Comparison::new("desk on refused calls");
    let (file, b) = example("b");
    let chance = table_b_under_chance();
    let turned = dotted(TABLE_B_TURNED);
    let within = |margin: &str, budget: &str| {
        let (margin, budget) = (margin.to_string(), budget.to_string());
        SearchWithin(margin, budget)
    };
    let questions = [
        (12, &b, Search("-1".to_string())),
        (12, &b, ShowTo("-0.25".to_string())),
        (12, &chance, Search("40000000000001g".to_string())),
        (12, &b, SearchIndexed("-1".to_string())),
        (12, &turned, SearchIndexed("40000000000001g".to_string())),
        (12, &turned, ShowTo("10000000000001".to_string())),
        (13, &b, Rollout(Vec::new())),
        (13, &b, Rollout(vec![2, 0, 1])),
        (13, &chance, Rollout(Vec::new())),
        (14, &b, Judge(0)),
        (14, &b, Judge(3)),
        (14, &turned, Judge(-1)),
        (17, &b, within("0", "1025")),
        (17, &b, within("40000000000000g", "-1")),
        (17, &chance, within("0", "2000")),
        (17, &turned, within("3", "9223372036854775807")),
        (12, &b, within("-1", "2000")),
        (12, &chance, within("40000000000001g", "0")),
    ];
    for (number, text, question) in questions {
        for form in FORMS {
            let way = if *text == b {
                Way::File(&file)
            } else {
                Way::Input
            };
            let answer = comparison.hold(&question, text, form, way);
            assert_eq!(answer, Err(Refusal { number, line: 0 }));
        }
    }
    // The first C of table B is node 2, of the other table the root.
    let thirteen = Refusal {
        number: 13,
        line: 0,
    };
    for (text, number, line) in [(&b, 3, "   2 C    0"), (&chance, 1, "   0 C")] {
        let line = format!("{line:<24}");
        assert_eq!(desk::shown(text, thirteen), Some((number, line)));
    }
    // Nobody chooses at a C or L, so that no number is refused.
    for text in [chance, dotted(LONE_LEAF)] {
        for number in [0, 1, 77, -1] {
            comparison.answered(&Judge(number), &text, Way::Input);
        }
    }
    comparison.demand(52);
    for number in [12, 13, 14, 17] {
        assert!(comparison.tally.counts[number] >= 6, "refusal {number}");
    }
}

/// Bytes that cannot be printed are shown as `?`, and printed nowhere.
#[test]
fn unprintable_bytes() {
    for byte in [0x1b, 0xff, 0x00, 0x7f, b'\t', b'\r', 0x80, 0xc3, 0x9b] {
        let why = format!("byte {byte:#x}");
        let bad = |number, line, marked, text| Bad::new(number, line, marked, &why, text);
        for bad in [
            bad(2, 2, "17-24", b_spliced(2, 23..=23, &[byte])),
            bad(2, 2, "25", b_spliced(2, 25..=25, &[byte])),
            bad(5, 2, "6", b_spliced(2, 6..=6, &[byte])),
            bad(1, 0, "25", b_spliced(2, 25..=25, &[byte, b'\n'])),
        ] {
            let shown = bad.refused.shown.as_ref();
            assert!(shown.is_some_and(|(_, line)| line.contains('?')), "{why}");
            for form in FORMS {
                let ran = ask(words(&["worth"]), &bad.text, form, Way::Input, 0);
                bad.refused.hold(&ran, form, Way::Input.name(), &why);
                let printed = format!("{}{}", ran.out, ran.err);
                let plain = |c: char| c.is_ascii_graphic() || " \n\t".contains(c);
                assert!(printed.chars().all(plain), "{why}: {printed:?}");
            }
        }
    }
}

/// Inputs of megabytes are refused with 1, and soon.
#[test]
fn inputs_of_megabytes() {
    const LENGTH: usize = 10_000_000;
    let (header, lines) = (&dotted(TABLE_B)[..LINE], &dotted(TABLE_B)[LINE..]);
    let whole = [header, &lines.repeat(LENGTH / lines.len())].concat();
    for bad in [
        Bad::new(1, 0, "25-40", "blanks", vec![b' '; LENGTH]),
        Bad::new(1, 0, "25-40", "binary", vec![0xff; LENGTH]),
        Bad::new(1, 0, "1-24", "newlines", vec![b'\n'; LENGTH]),
        Bad::new(1, 0, "", "whole lines", whole),
    ] {
        let file = written("desk-megabytes.txt", &bad.text);
        for (way, form) in [
            (Way::File(&file), Form::People),
            (Way::Input, Form::People),
            (Way::Dash, Form::Tsv),
        ] {
            let began = Instant::now();
            let ran = ask(words(&["worth"]), &bad.text, form, way, 0);
            let took = began.elapsed();
            bad.refused.hold(&ran, form, way.name(), &bad.why);
            assert!(took < Duration::from_secs(2), "{}: {took:?}", bad.why);
        }
        fs::remove_file(file).expect("the file just written");
    }
}
