//! Holds the margin program to the second engine: every byte that it writes to
//! standard output, its exit status, which is 0 for an answer and for a refusal,
//! and that it writes nothing to standard error.
//!
//! The program is looked for at `../target/bin/margin`, or where the environment
//! variable MARGIN_PROGRAM says (a relative name counts from this package's
//! folder). SEED sets the seed of the random inputs, CASES their number.

use std::env;
use std::fs::{self, File};
use std::io::{ErrorKind, Write};
use std::path::{Path, PathBuf};
use std::process::{Child, Command, Output, Stdio};
use std::thread;
use std::time::Duration;

use compare::hold;
use compare::hold::seen::Seen;
use compare::hold::tally::{Tally, OF_GRAINS, OF_TABLES};
use compare::random::{number_from_environment, Random};
use compare::second::{self, LINE, MOST_NODES};
use compare::texts::broken::broken;
use compare::texts::examples::*;
use compare::texts::inputs::{damage, margin_line};
use compare::texts::knobs::Knobs;
use compare::texts::totals::too_grainy;
use compare::texts::{self, largest, padding};

// ---------------------------------------------------------------------------
// Running the program
// ---------------------------------------------------------------------------

/// How the input reaches the program.
#[derive(Clone, Copy, Debug, PartialEq, Eq)]
enum Way {
    /// Through a pipe, in one go.
    Pipe,
    /// Through a pipe, in a few pieces with a pause after each.
    Pieces,
    /// From a file.
    File,
}

fn program() -> PathBuf {
    let package = Path::new(env!("CARGO_MANIFEST_DIR"));
    let named = env::var_os("MARGIN_PROGRAM").filter(|path| !path.is_empty());
    let path = match named {
        Some(path) => package.join(path),
        None => package.join("../target/bin/margin"),
    };
    assert!(
        path.is_file(),
        "The margin program is missing: {}\n\
         Build it in the project's root, or name it in the environment variable MARGIN_PROGRAM.",
        path.display()
    );
    path
}

/// What the program does with this on its standard input.
fn run(program: &Path, input: &[u8], way: Way, name: &str) -> Output {
    let mut command = Command::new(program);
    command.stdout(Stdio::piped()).stderr(Stdio::piped());
    let start = |command: &mut Command| command.spawn().expect("the program starts");
    let finish = |child: Child| child.wait_with_output().expect("the program ends");
    if way == Way::File {
        let file = Path::new(env!("CARGO_TARGET_TMPDIR")).join(format!("{name}.txt"));
        fs::write(&file, input).expect("a file in the target folder");
        command.stdin(File::open(&file).expect("the file just written"));
        return finish(start(&mut command));
    }

    let mut child = start(command.stdin(Stdio::piped()));
    let mut stdin = child.stdin.take().expect("a pipe");
    let size = match way {
        Way::Pieces => input.len() / 4 + 1,
        _ => input.len().max(1),
    };
    thread::scope(|scope| {
        scope.spawn(move || {
            for piece in input.chunks(size) {
                match stdin.write_all(piece) {
                    Ok(()) => {}
                    // The program may stop reading where the input is too long.
                    Err(error) if error.kind() == ErrorKind::BrokenPipe => break,
                    Err(error) => panic!("{error}"),
                }
                if way == Way::Pieces {
                    thread::sleep(Duration::from_millis(1));
                }
            }
        });
        finish(child)
    })
}

/// Fails the test unless the program writes this for the input.
fn hold_to(tally: &Tally, program: &Path, input: &[u8], way: Way, expected: &str) {
    let name = tally.name.replace(' ', "-");
    let output = run(program, input, way, &name);
    if output.stdout != expected.as_bytes()
        || output.status.code() != Some(0)
        || !output.stderr.is_empty()
    {
        let shown = &input[..input.len().min(30_000)];
        panic!(
            "{}: the program differs from the second engine; input by {way:?}\n\
             expected:\n{expected}\
             got, with {}:\n{}\
             on standard error:\n{}\
             input of {} bytes:\n\"{}\"",
            tally.place(),
            output.status,
            output
                .stdout
                .escape_ascii()
                .to_string()
                .replace("\\n", "\n"),
            output.stderr.escape_ascii(),
            input.len(),
            shown.escape_ascii(),
        );
    }
}

/// Compares the program and the second engine on inputs.
struct Comparison {
    tally: Tally,
    program: PathBuf,
}

impl Comparison {
    fn new(name: &'static str) -> Comparison {
        Comparison {
            tally: Tally::new(name),
            program: program(),
        }
    }

    /// Gives an input to both, and returns what they write.
    fn hold(&mut self, input: &[u8], way: Way) -> String {
        let output = second::output(input);
        hold_to(&self.tally, &self.program, input, way, &output);
        self.tally.add(&[refusal(&output)]);
        output
    }
}

/// The number of the refusal in an output, 0 for an answer.
fn refusal(output: &str) -> u64 {
    number_after("refuse", output).unwrap_or(0) as u64
}

/// The number in the first line of an output that begins with this word.
fn number_after(word: &str, output: &str) -> Option<i64> {
    let line = output.lines().find(|line| line[..6].trim_end() == word)?;
    Some(line[6..].trim_start().parse().expect("a number"))
}

// ---------------------------------------------------------------------------
// Random inputs
// ---------------------------------------------------------------------------

/// From the lowest end to the highest in grains, of a text that is a table.
fn span(text: &[u8]) -> i64 {
    second::read(text).map_or(1_000, |table| hold::span(&table))
}

/// The main comparison. It also fails where the inputs or the answers were too
/// much alike to mean anything.
#[test]
fn random_inputs() {
    let mut comparison = Comparison::new("the program on random inputs");
    let mut seen = Seen::default();
    let cases = number_from_environment("CASES", 6_000);
    for number in 0..cases {
        let mut random = Random::of_case(comparison.tally.seed, number);
        let text = match number % 8 {
            0 => texts::make(Knobs::close, &mut random),
            1 => texts::make(Knobs::dice, &mut random),
            2 => texts::make(Knobs::any, &mut random),
            3 => texts::ties::alike(&mut random),
            7 if number % 32 == 7 => too_grainy(&mut random),
            _ => texts::case(&mut random).text,
        };
        let table = second::read(&text);
        let (well, mut input) = margin_line(&mut random, span(&text));
        input.extend_from_slice(&text);
        let damaged = random.one_in(8);
        if damaged {
            damage(&mut input, &mut random);
        }
        let way = match random.below(16) {
            0 => Way::Pieces,
            1 | 2 => Way::File,
            _ => Way::Pipe,
        };
        let output = comparison.hold(&input, way);

        let refused = refusal(&output);
        let play = number_after("play", &output);
        let read = number_after("leaves", &output);
        let leaves = table.as_ref().ok().map(|table| table.leaves as i64);
        seen.count("an answer", refused == 0);
        seen.count("input in pieces", way == Way::Pieces);
        seen.count("input from a file", way == Way::File);
        seen.count("damaged as a whole", damaged);
        seen.count("margin ill-written, refused 12", !well && refused == 12);
        seen.count("margin out of range, refused 12", well && refused == 12);
        let bad_both = !damaged && !well && table.is_err();
        seen.count("margin and table bad", bad_both);
        let of_table = refused < 11 || refused == 18;
        assert!(!bad_both || of_table, "the table is named first");
        if let Ok(table) = &table {
            comparison.tally.add_table(table);
        }
        seen.count("no play", play == Some(0));
        seen.count("first child played", play == Some(1));
        seen.count("later child played", play.is_some_and(|play| play > 1));
        seen.count("all leaves read", read.is_some() && read == leaves);
        seen.count("leaves unread", read.is_some() && read < leaves);
        let low = number_after("low", &output);
        seen.count("low below zero", low.is_some_and(|low| low < 0));
        let grains = number_after("grain", &output);
        seen.count("several grains", grains.is_some_and(|grains| grains > 1));
    }
    comparison.tally.report();
    seen.demand(100);
    assert!(comparison.tally.cases >= 2_000, "too few inputs");
    comparison.tally.demand_two_totals();
    comparison.tally.demand_refusals(&OF_GRAINS);
    for number in OF_TABLES {
        let count = comparison.tally.counts[number];
        assert!(count >= 4, "refusal {number} came only {count} times");
    }
}

/// Zeros before the margin and the numbers of the table (document 02, Item 9): the program
/// writes what it writes where blanks stand there. It fails where the program refused too
/// seldom for one of its reasons.
#[test]
fn padded_inputs() {
    const BROKEN: [u8; 11] = [1, 2, 3, 4, 5, 6, 7, 8, 9, 10, 18];
    let mut comparison = Comparison::new("the program on padded inputs");
    let mut seen = Seen::default();
    for number in 0..2_800 {
        let mut random = Random::of_case(comparison.tally.seed, number);
        let text = match number % 8 {
            0 => texts::make(Knobs::close, &mut random),
            1 => texts::make(Knobs::any, &mut random),
            _ => broken(BROKEN[number as usize / 8 % 11], &mut random).0,
        };
        let mut padded = padding::padded(&text, &mut random);
        let of_zeros = number % 8 == 1 && random.one_in(4);
        if of_zeros {
            let (_, put) = random.pick(&padding::FAULTS);
            put(&mut padded, &mut random);
        }
        let (well, line) = match random.one_in(8) {
            // No other margin that is out of range has room for a zero.
            true => {
                let below = -random.between(1, 1_000_000);
                (true, format!("{below:>14}\n").into_bytes())
            }
            false => margin_line(&mut random, span(&text)),
        };
        let padded_margin = padding::padded_line(&line, &mut random);
        let input = [&padded_margin[..], &padded].concat();
        if input == [&line[..], &text].concat() {
            continue;
        }
        let output = comparison.hold(&input, Way::Pipe);
        if !of_zeros {
            let blank = [&line[..], &text].concat();
            assert_eq!(second::output(&blank), output, "{}", input.escape_ascii());
            if number % 3 == 0 {
                let (tally, program) = (&comparison.tally, &comparison.program);
                hold_to(tally, program, &blank, Way::Pipe, &output);
            }
        }
        let refused = refusal(&output);
        let zeros = padding::is_padded_line(&padded_margin);
        let below = zeros && padded_margin.contains(&b'-');
        seen.count("a padded margin, an answer", zeros && refused == 0);
        seen.count("one below zero, refused 12", below && refused == 12);
        seen.count("an ill-written margin, refused 12", !well && refused == 12);
        let table = !padding::padded_fields(&padded).is_empty();
        seen.count("a padded table, an answer", table && refused == 0);
    }
    comparison.tally.report();
    seen.demand(20);
    comparison.tally.demand_refusals(&OF_TABLES);
    comparison.tally.demand_refusals(&OF_GRAINS);
    comparison.tally.demand_refusals(&[12]);
    assert!(comparison.tally.cases >= 2_000, "too few inputs");
}

/// The greatest tables, whose answers have the widest numbers and the most
/// lines; and inputs of megabytes.
#[test]
fn largest_inputs() {
    let mut comparison = Comparison::new("the program on the largest inputs");
    let mut seen = Seen::default();
    let mut texts = vec![largest::all_read(b'M'), largest::all_read(b'N')];
    texts.extend(largest::four_chances());
    for number in 0..40 {
        let mut random = Random::of_case(comparison.tally.seed, number);
        texts.push(texts::make(Knobs::largest, &mut random));
        let flat = Knobs::largest_flat(b"MN", &mut random);
        texts.push(flat.text(&mut random));
    }
    for text in &texts {
        assert_eq!(text.len(), LINE * (1 + MOST_NODES));
        for margin in [0, span(text) / 10] {
            let mut input = format!("{margin:>14}\n").into_bytes();
            input.extend_from_slice(text);
            for way in [Way::Pipe, Way::Pieces, Way::File] {
                let output = comparison.hold(&input, way);
                assert_eq!(refusal(&output), 0);
                let wide = output.lines().any(|line| line.as_bytes()[6] != b' ');
                seen.count("a number of 15 columns", wide);
                let most = number_after("leaves", &output) == Some(1_023);
                seen.count("1,023 leaves", most);
            }
            // One byte more, or a line, and the table is too long.
            for more in [&b"\n"[..], b" ", &text[text.len() - LINE..]] {
                let mut longer = input.clone();
                longer.extend_from_slice(more);
                assert_eq!(refusal(&comparison.hold(&longer, Way::Pipe)), 1);
            }
            input.pop();
            assert_eq!(refusal(&comparison.hold(&input, Way::Pipe)), 1);
        }
    }
    let mut random = Random::of_case(comparison.tally.seed, 1_000);
    for length in [65_535, 65_536, 65_537, 1_000_000, 5_000_000, 20_000_015] {
        for way in [Way::Pipe, Way::Pieces, Way::File] {
            let mut input = format!("{:>14}\n", 0).into_bytes();
            while input.len() < length {
                input.extend_from_slice(&texts[0]);
            }
            input.truncate(length);
            assert_eq!(refusal(&comparison.hold(&input, way)), 1);
            input.fill_with(|| random.bits() as u8);
            assert_eq!(refusal(&comparison.hold(&input, way)), 1);
        }
    }
    comparison.tally.report();
    seen.demand(6);
}

// ---------------------------------------------------------------------------
// Document 01's inputs
// ---------------------------------------------------------------------------

/// Document 01's input, table B at margin 12, and its output.
const INPUT_B: &str = "............12\n";
const OUTPUT_B: &str = "\
low................20
high...............32
grain...............4
play................1
leaves..............1
leaf................1
";

/// Table A with a leaf of 1 in node 2, where the second child is played.
const OUTPUT_SECOND: &str = "\
low.................2
high................2
grain...............1
play................2
leaves..............4
leaf................2
leaf................3
leaf................5
leaf................6
";

/// Three plays that tie, two of which have the higher high, at margin 3; and the same
/// turned (document 02, Item 6).
const OUTPUT_CUT_PLAYS: &str = "\
low.................0
high................3
grain...............1
play................2
leaves..............3
leaf................2
leaf................5
leaf................8
";

const OUTPUT_CUT_PLAYS_TURNED: &str = "\
low................-3
high................0
grain...............1
play................2
leaves..............3
leaf................2
leaf................5
leaf................8
";

const OUTPUT_LONE_LEAF: &str = "\
low.................7
high................7
grain...............1
play................0
leaves..............1
leaf................0
";

const OUTPUT_B_TURNED: &str = "\
low...............-32
high..............-20
grain...............4
play................1
leaves..............1
leaf................1
";

/// All of a dotted text with blanks.
fn blanks(dotted: &str) -> String {
    dotted.replace('.', " ")
}

fn refused(number: u8, line: usize) -> String {
    format!("refuse{number:>15}\nline  {line:>15}\n")
}

/// Inputs, and what the program writes for them.
fn known() -> Vec<(Vec<u8>, String)> {
    let b = dotted(TABLE_B);
    let with_margin = |line: &str, text: &[u8]| [line.as_bytes(), text].concat();
    let other_a = TABLE_A.replace("...2.L....1............3", "...2.L....1............1");
    let mut turned = dotted(CUT_PLAYS);
    second::turn(&dotted(CUT_PLAYS), &mut turned).expect("a valid table");
    let mut all = vec![
        (with_margin(&blanks(INPUT_B), &b), blanks(OUTPUT_B)),
        (
            with_margin(&blanks(INPUT_B), &dotted(TABLE_B_TURNED)),
            blanks(OUTPUT_B_TURNED),
        ),
        (
            with_margin("             0\n", &dotted(LONE_LEAF)),
            blanks(OUTPUT_LONE_LEAF),
        ),
        (
            with_margin("             0\n", &dotted(&other_a)),
            blanks(OUTPUT_SECOND),
        ),
        (
            with_margin("             3\n", &dotted(CUT_PLAYS)),
            blanks(OUTPUT_CUT_PLAYS),
        ),
        (
            with_margin("             3\n", &turned),
            blanks(OUTPUT_CUT_PLAYS_TURNED),
        ),
        // Zeros before the margin (document 02, Item 9).
        (with_margin("00000000000012\n", &b), blanks(OUTPUT_B)),
        (with_margin("           012\n", &b), blanks(OUTPUT_B)),
        (
            with_margin("00000000000000\n", &dotted(LONE_LEAF)),
            blanks(OUTPUT_LONE_LEAF),
        ),
        // The table is all after byte 15; there is none in these.
        (Vec::new(), refused(1, 0)),
        (b"\n".to_vec(), refused(1, 0)),
        (b"            12".to_vec(), refused(1, 0)),
        (b"            12\n".to_vec(), refused(1, 0)),
        // A table without a margin is taken for one that begins at byte 16.
        (b.clone(), refused(1, 0)),
        (
            with_margin(
                "             0\n",
                &table_b_with(4, "...3.L....2....2.......2"),
            ),
            refused(9, 3),
        ),
    ];
    let bad_margins = [
        "              \n",
        "            -0\n",
        "            -1\n",
        "            +1\n",
        "          0 12\n",
        "           1 2\n",
        "12            \n",
        "           12 \n",
        "            12 ",
        "            12\r",
        "           12\r\n",
        "          12.0\n",
        "            1x\n",
        "             \n\n",
        "40000000000001\n",
        "99999999999999\n",
        "-9999999999999\n",
        "-0000000000000\n",
        "-0000000000012\n",
        "0000000000012 \n",
    ];
    for line in bad_margins {
        assert_eq!(line.len(), 15);
        all.push((with_margin(line, &b), refused(12, 0)));
        // A bad table is named first.
        for (text, number, line_of_it) in refused_examples() {
            all.push((with_margin(line, &text), refused(number, line_of_it)));
        }
    }
    for (text, number, line) in refused_examples() {
        let input = with_margin("             0\n", &text);
        all.push((input, refused(number, line)));
    }
    all
}

#[test]
fn second_engine_has_the_known_outputs() {
    for (input, output) in known() {
        assert_eq!(second::output(&input), output, "{}", input.escape_ascii());
    }
}

/// The known outputs; the program must have them, whatever the second engine
/// says.
#[test]
fn examples() {
    let mut comparison = Comparison::new("the program on examples");
    for (number, (input, output)) in known().into_iter().enumerate() {
        let way = [Way::Pipe, Way::File][number % 2];
        hold_to(&comparison.tally, &comparison.program, &input, way, &output);
        comparison.tally.add(&[refusal(&output)]);
    }
    comparison.tally.report();
}
