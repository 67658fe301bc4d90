//! The desk's command line: options, file names, wrong usage, help, and outputs that
//! are closed or full.

use std::ffi::{OsStr, OsString};
use std::fs::{self, File};
use std::io::{BufRead, BufReader};
use std::os::unix::ffi::OsStringExt;
use std::process::Output;

use compare::hold::desk::*;
use compare::random::Random;
use compare::second::desk::{self, Form};
use compare::second::{self, MOST_NODES};
use compare::texts::knobs::Knobs;

// ---------------------------------------------------------------------------
// The command line
// ---------------------------------------------------------------------------

/// Options stand anywhere after the verb, and `--` ends them.
#[test]
fn options_anywhere() {
    let (file, text) = example("b");
    let table = second::read(&text).expect("accepted");
    let worth = desk::worth(&table, Form::Tsv);
    let search = desk::search(&table, 12, None, Form::Tsv).expect("an answer");
    let within = desk::search(&table, 0, Some(1), Form::Tsv).expect("an answer");
    let indexed = desk::search_indexed(&table, 0, Form::Tsv).expect("an answer");
    let index = desk::index(&table, Form::Tsv);
    let show = desk::show(&table, Some(12), Form::Tsv).expect("an answer");
    let lines: [(&str, &str); 34] = [
        ("worth --tsv F", &worth),
        ("worth F --tsv", &worth),
        ("worth --tsv -- F", &worth),
        ("search --tsv 3 F", &search),
        ("search 3 --tsv F", &search),
        ("search 3 F --tsv", &search),
        ("search --tsv -- 12g F", &search),
        ("search --tsv --budget 1 0 F", &within),
        ("search --budget 1 --tsv 0 F", &within),
        ("search --budget 1 0 --tsv F", &within),
        ("search 0 --budget 1 F --tsv", &within),
        ("search --tsv 0 F --budget 1", &within),
        ("search 0 F --tsv --budget 1", &within),
        ("search --tsv --budget=1 0 F", &within),
        ("search 0 F --budget=1 --tsv", &within),
        ("search --tsv --budget 1 -- 0 F", &within),
        ("search --tsv --budget 2 --budget 1 0 F", &within),
        ("search --tsv --budget 2000 0 F --budget=1", &within),
        ("search --tsv --budget=-1 0 --budget 1 F", &within),
        ("search --tsv --index 0 F", &indexed),
        ("search --index --tsv 0 F", &indexed),
        ("search 0 --index F --tsv", &indexed),
        ("search --tsv 0 F --index", &indexed),
        ("search --tsv --index -- 0 F", &indexed),
        ("search --index --tsv --index 0g F", &indexed),
        ("index --tsv F", &index),
        ("index F --tsv", &index),
        ("index --tsv -- F", &index),
        ("show --tsv --margin 3 F", &show),
        ("show --margin 3 --tsv F", &show),
        ("show --margin 12g F --tsv", &show),
        ("show F --tsv --margin 3", &show),
        ("show --tsv F --margin 3", &show),
        ("show --margin 3 --tsv -- F", &show),
    ];
    for (line, expected) in lines {
        let words: Vec<&str> = line.split(' ').collect();
        let named: Vec<&str> = words
            .iter()
            .map(|&word| if word == "F" { &file } else { word })
            .collect();
        run(&named, &[]).answers(expected);
    }
}

/// Files with names that might be taken for something else.
#[test]
fn files_of_any_name() {
    let (_, text) = example("a");
    let table = second::read(&text).expect("accepted");
    let folder = folder().join("desk-names");
    fs::create_dir_all(&folder).expect("a folder in the target folder");
    let strange = OsString::from_vec(b"not \xff UTF-8".to_vec());
    for name in ["2", "-a.txt", "--tsv", "a table", "tisch-\u{e4}"] {
        fs::write(folder.join(name), &text).expect("a file");
    }
    fs::write(folder.join(&strange), &text).expect("a file");

    let in_folder = |arguments: &[&OsStr]| {
        let mut command = command(arguments);
        command.current_dir(&folder);
        finish(command, &[])
    };
    let ask = |arguments: &[&str]| {
        let arguments: Vec<&OsStr> = arguments.iter().map(OsStr::new).collect();
        in_folder(&arguments)
    };
    let rolled = |policy: &[u8]| desk::rollout(&table, policy, Form::People).expect("no C");
    ask(&["rollout", "./2"]).answers(&rolled(&[]));
    ask(&["rollout", "1,1", "./2"]).answers(&rolled(&[1, 1]));
    let worth = desk::worth(&table, Form::People);
    ask(&["worth", "2"]).answers(&worth);
    ask(&["worth", "--", "-a.txt"]).answers(&worth);
    ask(&["worth", "./-a.txt"]).answers(&worth);
    ask(&["worth", "--", "--tsv"]).answers(&worth);
    ask(&["worth", "a table"]).answers(&worth);
    ask(&["worth", "tisch-\u{e4}"]).answers(&worth);
    in_folder(&[OsStr::new("worth"), &strange]).answers(&worth);
}

/// A file that is not there, a folder, and a standard input that is one.
#[test]
fn files_that_cannot_be_read() {
    for verb in VERBS {
        for file in ["no-such-file.txt", "examples", "examples/b.txt/c"] {
            for options in [&[][..], &["--tsv"]] {
                let ran = run(&[verb, &[file], options].concat(), &[]);
                let said = ran.fails();
                assert!(said.contains(file), "{}: {said}", ran.asked);
            }
        }
    }
    // Nor is an escape in a name printed as it is.
    run(&["worth", "no-such-\u{1b}[1mfile"], &[]).fails();
    let mut command = command(&["worth"]);
    command.stdin(File::open(root()).expect("a folder"));
    finish(command, &[]).fails();
}

#[test]
fn wrong_usage() {
    let (_, text) = example("b");
    // F is a file that can be read, E an empty word.
    let lines = [
        "",
        "nonsense",
        "nonsense F",
        "E",
        "Worth F",
        "worth --nonsense F",
        "worth -x F",
        "worth F F",
        "worth - F",
        "show F F",
        "turn F F",
        "turn 3 F",
        "judge",
        "judge F",
        "judge x F",
        "judge 1.5 F",
        "judge 1g F",
        "judge E F",
        "judge 1 2 F",
        "judge 1 F F",
        "search",
        "search F",
        "search x F",
        "search E F",
        "search g F",
        "search . F",
        "search 1.5g F",
        "search 1.2.3 F",
        "search 1e3 F",
        "search 0x10 F",
        "search 3,5 F",
        "search 3 F F",
        "search --budget",
        "search --budget 2",
        "search --budget 2 F",
        "search 3 F --budget",
        "search 3 --tsv --budget",
        "search --budget F 3",
        "search --budget x 3 F",
        "search --budget E 3 F",
        "search --budget= 3 F",
        "search --budget=x 3 F",
        "search --budget 1.5 3 F",
        "search --budget=1.5 3 F",
        "search --budget 2g 3 F",
        "search --budget 1,2 3 F",
        "search --budget 1,024 3 F",
        "search --budget 0x10 3 F",
        "search --budget 1e3 3 F",
        "search --budget - 3 F",
        "search --budget --tsv 3 F",
        "search --budget x --tsv 3 F",
        "search --budgets 2 3 F",
        "search --budget 2000 x F",
        "search --budget 2 3 F F",
        "search --index",
        "search --index F",
        "search 3 --index x F",
        "search --index= 3 F",
        "search --index=1 3 F",
        "search --index 3 F F",
        "search --indexes 3 F",
        "search --index --budget 2 3 F",
        "search --budget 2 --index 3 F",
        "search --budget=2 3 F --index",
        "search --index --budget 2000 3 F",
        "search --index --budget x 3 F",
        "search -- --index 3 F",
        "index F F",
        "index 3 F",
        "index --index F",
        "index --margin 3 F",
        "index --budget 2 F",
        "index --scale 1 F",
        "show --index F",
        "show --margin 3 --index F",
        "worth --index F",
        "judge 1 --index F",
        "turn --index F",
        "rollout --index F",
        "report --index F",
        "show --budget 2 F",
        "show --margin 3 --budget 2 F",
        "worth --budget 2 F",
        "judge 1 --budget 2 F",
        "turn --budget 2 F",
        "rollout --budget 2 F",
        "report --budget 2 F",
        "show --margin",
        "show F --margin",
        "show --margin F",
        "show --margin x F",
        "show --margin E F",
        "show --margin 1.5g F",
        "worth --margin 3 F",
        "judge 1 --margin 3 F",
        "search 3 --margin 3 F",
        "turn --margin 3 F",
        "rollout --margin 3 F",
        "rollout 256 F",
        "rollout 1,256,3 F",
        "rollout 18446744073709551616 F",
        "rollout 1,,2 F",
        "rollout 1 F F",
        "report - -",
        "report F - -",
        "report - F -",
        "report --margin 3 F",
        "report F --nonsense",
        "report --scale",
        "report F --scale",
        "report F --tsv --scale",
        "report --scale F",
        "report --scale x F",
        "report --scale E F",
        "report --scale= F",
        "report --scale=x F",
        "report --scale 1.5 F",
        "report --scale=1.5 F",
        "report --scale 1g F",
        "report --scale 1,2 F",
        "report --scale - F",
        "report --scale --tsv F",
        "report --scale x --tsv F",
        "report --scales 1 F",
        "show --scale 1 F",
        "worth --scale 1 F",
        "judge 1 --scale 1 F",
        "search 3 --scale 1 F",
        "turn --scale 1 F",
        "rollout --scale 1 F",
        "report --scale 3 F --nonsense",
        "report --scale 3 - -",
        "search --margin 3 F",
        "recipe",
        "recipe 7",
        "recipe 7 2",
        "recipe --dice 7 2",
        "recipe 7 2 --dice",
        "recipe F",
        "recipe F 2 3",
        "recipe 7 F 3",
        "recipe 7 2 F",
        "recipe x 2 3",
        "recipe 7 x 3",
        "recipe 7 2 x",
        "recipe E 2 3",
        "recipe 7 2 E",
        "recipe 1.5 2 3",
        "recipe 7 2.0 3",
        "recipe 7 2 3g",
        "recipe 1e3 2 3",
        "recipe 0x7 2 3",
        "recipe 2,147 2 3",
        "recipe +7 2 3",
        "recipe 7 2 -",
        "recipe 7 2 3 4",
        "recipe 7 2 3 F",
        "recipe 7 2 3 -",
        "recipe 7 2 3 --dice F",
        "recipe 7 2 3 --dice=1",
        "recipe 7 2 3 --dice=",
        "recipe --dice 1 7 2 3",
        "recipe 7 2 3 dice",
        "recipe 7 2 3 --dices",
        "recipe 7 2 3 --die",
        "recipe -- 7 2 3 --dice",
        "recipe 7 2 3 --margin 3",
        "recipe 7 2 3 --budget 2",
        "recipe 7 2 3 --index",
        "recipe 7 2 3 --scale 1",
        "recipe -1 2 11 F",
        "recipe -1 2 x",
        "show --dice F",
        "worth --dice F",
        "judge 1 --dice F",
        "search 3 --dice F",
        "index --dice F",
        "turn --dice F",
        "rollout --dice F",
        "report --dice F",
        "help nonsense",
        "help show show",
    ];
    for line in lines {
        let words = line.split(' ').filter(|word| !word.is_empty());
        let words: Vec<&str> = words
            .map(|word| match word {
                "F" => "examples/a.txt",
                "E" => "",
                word => word,
            })
            .collect();
        // An input is there, so that a wrong line that is taken shows.
        run(&words, &text).fails();
    }
}

/// There is no budget for the search with an index, which is said in so many words.
#[test]
fn no_budget_with_an_index() {
    for options in [["--index", "--budget=2"], ["--budget=2000", "--index"]] {
        let ran = run(
            &["search", options[0], options[1], "0", "examples/a.txt"],
            &[],
        );
        let said = ran.fails();
        let plainly = "--budget does not go with --index: the search with an index has no budget";
        assert!(said.contains(plainly), "{said}");
    }
}

#[test]
fn help() {
    let helped = |arguments: &[&str]| {
        let ran = run(arguments, &[]);
        assert_eq!(ran.status, Some(0), "{}", ran.asked);
        assert_eq!(ran.err, "", "{}", ran.asked);
        ran.out
    };
    assert!(helped(&["help", "report"]).contains("--scale"));
    assert!(helped(&["help", "recipe"]).contains("SEED BRANCHING DEPTH [--dice] [--tsv]\n"));
    for option in ["--budget N", "--index"] {
        let usage = format!("[{option}]");
        assert!(helped(&["help", "search"]).contains(&usage), "{usage}");
    }
    let all = helped(&["help"]);
    for verb in VERBS {
        assert!(all.contains(verb[0]), "desk help does not name {}", verb[0]);
        let one = helped(&["help", verb[0]]);
        assert!(one.contains(verb[0]), "desk help {}: {one}", verb[0]);
        for words in [&["--help"][..], &["--help", "--tsv"]] {
            let one = helped(&[&verb[..1], words].concat());
            assert!(one.contains(verb[0]), "desk {} --help: {one}", verb[0]);
        }
    }
}

// ---------------------------------------------------------------------------
// Outputs that are closed or full
// ---------------------------------------------------------------------------

/// A table whose tree, drawn, is several times what a pipe holds.
fn wide_table() -> Vec<u8> {
    let random = &mut Random::of_case(1, 1);
    let text = Knobs::largest_chains(random).text(random);
    let table = second::read(&text).expect("valid");
    assert_eq!(table.nodes.len(), MOST_NODES);
    let shown = desk::show(&table, None, Form::People).expect("an answer");
    assert!(shown.len() > 200_000, "only {} bytes", shown.len());
    text
}

/// A match of one position, with the first play made.
fn one_position(table: &[u8]) -> Vec<u8> {
    [b"   1\n", table].concat()
}

/// What a verb is about: the match for `report`, otherwise the table.
fn input_of<'a>(words: &[&str], table: &'a [u8], file: &'a [u8]) -> &'a [u8] {
    if words[0] == "report" {
        file
    } else {
        table
    }
}

/// An output that is closed early ends the program quietly.
#[test]
fn closed_output() {
    let text = wide_table();
    let file = one_position(&text);
    let quiet = |output: Output| {
        assert_eq!(output.status.code(), Some(0));
        assert_eq!(String::from_utf8_lossy(&output.stderr), "");
    };
    // After the first line.
    let mut child = start(command(&["show"]));
    feed(child.stdin.take().expect("a pipe"), &text);
    let mut stdout = BufReader::new(child.stdout.take().expect("a pipe"));
    let mut line = String::new();
    stdout.read_line(&mut line).expect("a line");
    assert!(line.starts_with("table   1024 nodes, "), "{line}");
    drop(stdout);
    quiet(child.wait_with_output().expect("the program ends"));

    // Before anything is written, as the table comes only then.
    for verb in VERBS {
        for options in [&[][..], &["--tsv"]] {
            let mut child = start(command(&[verb, options].concat()));
            drop(child.stdout.take());
            let input = input_of(verb, &text, &file);
            feed(child.stdin.take().expect("a pipe"), input);
            quiet(child.wait_with_output().expect("the program ends"));
        }
    }
}

/// An output that cannot be written is said on standard error.
#[test]
fn full_output() {
    let text = wide_table();
    let file = one_position(&text);
    let mut lines: Vec<Vec<&str>> = vec![vec!["help"], vec!["help", "show"]];
    for verb in VERBS {
        lines.push(verb.to_vec());
        lines.push([verb, &["--tsv"]].concat());
    }
    let full = || File::options().write(true).open("/dev/full");
    for line in &lines {
        let mut command = command(line);
        command.stdout(full().expect("/dev/full"));
        finish(command, input_of(line, &text, &file)).fails();
    }
    // A refusal that is an output too.
    let mut command = command(&["worth", "--tsv"]);
    command.stdout(full().expect("/dev/full"));
    finish(command, b"").fails();
}
