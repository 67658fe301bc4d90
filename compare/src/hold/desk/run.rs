//! Running the program, and what came of it.

use std::env;
use std::ffi::OsStr;
use std::fs;
use std::io::{ErrorKind, Write};
use std::path::{Path, PathBuf};
use std::process::{Child, ChildStdin, Command, Output, Stdio};
use std::thread;

pub fn program() -> PathBuf {
    let package = Path::new(env!("CARGO_MANIFEST_DIR"));
    let named = env::var_os("DESK_PROGRAM").filter(|path| !path.is_empty());
    let path = match named {
        Some(path) => package.join(path),
        None => package.join("../rust/target/release/desk"),
    };
    assert!(
        path.is_file(),
        "The desk program is missing: {}\n\
         Build it with ./desk help in the project's root, or name it in the environment \
         variable DESK_PROGRAM.",
        path.display()
    );
    path
}

/// The project's root, where the program runs.
pub fn root() -> PathBuf {
    Path::new(env!("CARGO_MANIFEST_DIR")).join("..")
}

/// The folder for files that a test writes.
pub fn folder() -> &'static Path {
    Path::new(concat!(env!("CARGO_MANIFEST_DIR"), "/target/tmp"))
}

/// Writes a file that no other test writes, and returns its name.
pub fn written(name: &str, text: &[u8]) -> String {
    let file = folder().join(name);
    fs::create_dir_all(folder()).expect("a folder in the target folder");
    fs::write(&file, text).expect("a file in the target folder");
    file.into_os_string()
        .into_string()
        .expect("a name in UTF-8")
}

pub fn example(name: &str) -> (String, Vec<u8>) {
    let file = format!("examples/{name}.txt");
    let text = fs::read(root().join(&file)).expect("an example");
    (file, text)
}

/// The block of a document after the line that begins with this, without its four
/// blanks.
pub fn block(document: &str, start: &str) -> String {
    let text = fs::read_to_string(root().join(document)).expect("a document");
    let mut lines = text.lines().skip_while(|line| !line.starts_with(start));
    let found = lines.next();
    assert!(found.is_some(), "{document} has no line {start}");
    let block: Vec<&str> = lines
        .skip_while(|line| !line.starts_with("    "))
        .take_while(|line| line.is_empty() || line.starts_with("    "))
        .map(|line| line.strip_prefix("    ").unwrap_or(line))
        .collect();
    let block = block.join("\n");
    assert!(!block.is_empty(), "{start}: no block");
    block.trim_end().to_string() + "\n"
}

/// What came of a run.
pub struct Ran {
    pub asked: String,
    pub status: Option<i32>,
    pub out: String,
    pub err: String,
}

/// What is left of an output, taken off line by line; a last line without a newline
/// is none.
#[derive(Clone)]
pub struct Printed<'a>(pub &'a str);

impl<'a> Iterator for Printed<'a> {
    type Item = &'a str;

    fn next(&mut self) -> Option<&'a str> {
        let (line, rest) = self.0.split_once('\n')?;
        self.0 = rest;
        Some(line)
    }
}

impl Printed<'_> {
    /// Takes this off, or fails the test.
    pub fn take_text(&mut self, expected: &str, place: &str) {
        let Some(rest) = self.0.strip_prefix(expected) else {
            let mut lines = expected.lines().zip(self.0.lines());
            let differ = lines.find(|(one, other)| one != other);
            panic!(
                "{place}\nthe first lines that differ, expected and got: {differ:#?}\n\
                 expected:\n{expected}\ngot:\n{}",
                self.0
            );
        };
        self.0 = rest;
    }
}

/// The command. Its environment has nothing against colours, so that none may be
/// printed for the sole reason that no output is a terminal.
pub fn command<A: AsRef<OsStr>>(arguments: &[A]) -> Command {
    let mut command = Command::new(program());
    command
        .args(arguments)
        .current_dir(root())
        .env("TERM", "xterm-256color")
        .env_remove("NO_COLOR")
        .stdin(Stdio::piped())
        .stdout(Stdio::piped())
        .stderr(Stdio::piped());
    command
}

pub fn start(mut command: Command) -> Child {
    command.spawn().expect("the program starts")
}

/// Gives the input to the program, which may stop reading before its end.
pub fn feed(mut stdin: ChildStdin, input: &[u8]) {
    match stdin.write_all(input) {
        Ok(()) => {}
        Err(error) if error.kind() == ErrorKind::BrokenPipe => {}
        Err(error) => panic!("{error}"),
    }
}

pub fn finish(command: Command, input: &[u8]) -> Ran {
    let asked: Vec<_> = command.get_args().map(OsStr::to_string_lossy).collect();
    let asked = format!("desk {}", asked.join(" "));
    let mut child = start(command);
    let output = match child.stdin.take() {
        None => child.wait_with_output(),
        Some(stdin) => thread::scope(|scope| {
            scope.spawn(move || feed(stdin, input));
            child.wait_with_output()
        }),
    };
    Ran::new(asked, output.expect("the program ends"))
}

/// Runs the program in the project's root with this on its standard input.
pub fn run<A: AsRef<OsStr>>(arguments: &[A], input: &[u8]) -> Ran {
    finish(command(arguments), input)
}

impl Ran {
    pub fn new(asked: String, output: Output) -> Ran {
        let text = |bytes: Vec<u8>| {
            assert!(!bytes.contains(&0x1b), "{asked}: an escape is printed");
            String::from_utf8(bytes).expect("the program writes UTF-8")
        };
        let (out, err) = (text(output.stdout), text(output.stderr));
        Ran {
            status: output.status.code(),
            out,
            err,
            asked,
        }
    }

    /// Fails the test unless the program printed this, and nothing else.
    pub fn answers(&self, expected: &str) {
        let asked = &self.asked;
        assert_eq!(self.err, "", "{asked}: standard error");
        assert_eq!(self.status, Some(0), "{asked}: exit status");
        if self.out != expected {
            let mut lines = expected.lines().zip(self.out.lines()).zip(1..);
            let differ = lines.find(|((one, other), _)| one != other);
            panic!(
                "{asked}: the program differs from the second engine\n\
                 the first lines that differ, expected and got: {differ:#?}\n\
                 expected:\n{expected}\ngot:\n{}",
                self.out
            );
        }
        let printed = expected.lines().all(|line| !line.ends_with(' '));
        let table = ["desk turn", "desk recipe"];
        let table = table.iter().any(|verb| asked.starts_with(verb));
        assert!(printed || table, "{asked}: a line ends in a blank");
    }

    /// Fails the test unless the program failed as it does where there is
    /// neither an answer nor a refusal; returns what it said.
    pub fn fails(&self) -> &str {
        let asked = &self.asked;
        assert_eq!(self.status, Some(2), "{asked}: exit status\n{}", self.err);
        assert_eq!(self.out, "", "{asked}: standard output");
        assert!(!self.err.trim().is_empty(), "{asked}: nothing is said");
        let lines = self.err.lines().count();
        assert!(lines <= 12, "{asked}: {lines} lines\n{}", self.err);
        &self.err
    }
}
