//! What is printed: pages for people, sheets for spreadsheets.

use std::env;
use std::ffi::OsString;
use std::fmt::{Display, Write as _};
use std::io::{self, ErrorKind, IsTerminal, Write};
use std::process::ExitCode;

use margin_engine::{Node, Table, points};

use crate::FAILED;

/// So many grains, of which `per_point` are a point.
#[derive(Clone, Copy)]
pub struct Amount {
    pub grains: i64,
    per_point: i64,
}

impl Amount {
    pub fn of(grains: i64, per_point: i64) -> Amount {
        Amount { grains, per_point }
    }

    pub fn points(&self) -> String {
        points(self.grains, self.per_point)
    }

    /// The grains as they stand beside the points.
    pub fn beside(&self) -> String {
        format!("({}g)", self.grains)
    }
}

/// A number that is not below zero, with a comma before every three digits.
pub fn grouped(number: i64) -> String {
    match number {
        0..1_000 => number.to_string(),
        _ => format!("{},{:03}", grouped(number / 1_000), number % 1_000),
    }
}

/// An answer for people.
pub struct Page {
    bytes: Vec<u8>,
    coloured: bool,
}

/// Columns of a line's name.
const NAME: usize = 8;

/// No line of a list goes past this column.
const WIDTH: usize = 79;

impl Page {
    pub fn new(coloured: bool) -> Page {
        Page {
            bytes: Vec::new(),
            coloured,
        }
    }

    pub fn into_bytes(self) -> Vec<u8> {
        self.bytes
    }

    /// A line with a name before it.
    pub fn named(&mut self, name: &str, line: impl Display) {
        self.dim(&format!("{name:<NAME$}"));
        self.plain(&format!("{line}\n"));
    }

    /// The same for an amount.
    pub fn amount(&mut self, name: &str, amount: Amount) {
        self.named(
            name,
            format_args!("{} points {}", amount.points(), amount.beside()),
        );
    }

    /// How many of the table's leaves were read.
    pub fn leaves(&mut self, read: usize, all: usize) {
        self.named("leaves", format_args!("{read} of {all} read"));
    }

    /// G, the last of an answer's lines.
    pub fn grain(&mut self, per_point: i64) {
        self.named("grain", format_args!("{per_point}g to the point"));
    }

    /// A list of numbers over as many lines as it needs, which may be none.
    pub fn list(&mut self, name: &str, numbers: &[usize]) {
        let mut name = name;
        let mut line = String::new();
        for number in numbers {
            let number = number.to_string();
            if NAME + line.len() + 1 + number.len() > WIDTH {
                self.named(name, &line);
                (name, line) = ("", String::new());
            }
            if !line.is_empty() {
                line.push(' ');
            }
            line += &number;
        }
        if !line.is_empty() {
            self.named(name, line);
        }
    }

    /// These bytes as they are.
    pub fn raw(&mut self, bytes: &[u8]) {
        self.bytes.extend_from_slice(bytes);
    }

    pub fn plain(&mut self, text: &str) {
        self.raw(text.as_bytes());
    }

    pub fn dim(&mut self, text: &str) {
        self.painted("\x1b[2m", text);
    }

    pub fn bold(&mut self, text: &str) {
        self.painted("\x1b[1m", text);
    }

    fn painted(&mut self, colour: &str, text: &str) {
        if self.coloured {
            self.plain(colour);
        }
        self.plain(text);
        if self.coloured {
            self.plain("\x1b[0m");
        }
    }
}

/// An answer for spreadsheets.
#[derive(Default)]
pub struct Sheet {
    text: String,
}

impl Sheet {
    pub fn into_text(self) -> String {
        self.text
    }

    /// A line: its name, then its fields.
    pub fn row(&mut self, name: &str, fields: &[&dyn Display]) {
        self.text += name;
        for field in fields {
            write!(self.text, "\t{field}").expect("a string takes all");
        }
        self.text.push('\n');
    }

    pub fn amount(&mut self, name: &str, amount: Amount) {
        self.row(name, &[&amount.grains, &amount.points()]);
    }

    /// How many leaves the table has, how many were read, and which.
    pub fn leaves(&mut self, all: usize, read: &[usize]) {
        self.row("leaves", &[&all]);
        self.row("read", &[&read.len()]);
        for leaf in read {
            self.row("leaf", &[leaf]);
        }
    }

    /// What the table's header says but for the count. A second total has a row of its
    /// own, so that a table without one has the rows that it always had.
    pub fn totals_and_ends(&mut self, table: &Table) {
        self.row("total", &[&table.total]);
        if let Some(second) = &table.second {
            self.row("second", &[second]);
        }
        self.row("lowest", &[&table.lowest]);
        self.row("highest", &[&table.highest]);
    }

    /// A node as its line in the table has it, and more fields after that.
    pub fn node(&mut self, number: usize, node: &Node, more: &[&dyn Display]) {
        let field = |value: Option<i64>| value.map_or(String::new(), |value| value.to_string());
        let parent = field(node.parent.map(|parent| parent as i64));
        let (weight, utility) = (field(node.weight), field(node.utility));
        let mut fields: Vec<&dyn Display> = vec![&number, &parent, &node.kind, &weight, &utility];
        fields.extend(more);
        self.row("node", &fields);
    }
}

/// Whether standard output gets colours.
pub fn coloured() -> bool {
    let terminal = io::stdout().is_terminal();
    wanted(terminal, env::var_os("NO_COLOR"), env::var_os("TERM"))
}

/// Colours are for a terminal that knows them, unless the user wants none.
fn wanted(terminal: bool, no_color: Option<OsString>, term: Option<OsString>) -> bool {
    let set = |value: Option<OsString>| value.filter(|value| !value.is_empty());
    terminal && set(no_color).is_none() && set(term).is_some_and(|term| term != "dumb")
}

/// Prints to standard output, as the last thing that is done.
pub fn print(bytes: &[u8], status: u8) -> ExitCode {
    let written = write(bytes).map_or_else(|stop| stop.status(status), |()| status);
    ExitCode::from(written)
}

/// Why nothing more can be written.
pub enum Stop {
    /// Whoever closed the output has seen enough, which is not our concern.
    Closed,
    /// It failed, and this was said.
    Failed,
}

impl Stop {
    /// The exit status, where it was this so far.
    pub fn status(&self, so_far: u8) -> u8 {
        match self {
            Stop::Closed => so_far,
            Stop::Failed => FAILED,
        }
    }
}

/// Writes to standard output.
pub fn write(bytes: &[u8]) -> Result<(), Stop> {
    let mut out = io::stdout().lock();
    let written = out.write_all(bytes).and_then(|()| out.flush());
    written.map_err(|error| {
        if error.kind() == ErrorKind::BrokenPipe {
            return Stop::Closed;
        }
        complain(&format!("desk: the output cannot be written: {error}\n"));
        Stop::Failed
    })
}

/// Prints to standard error; where that fails too, nobody can be told.
pub fn complain(message: &str) {
    let _ = io::stderr().lock().write_all(message.as_bytes());
}

#[cfg(test)]
mod tests {
    use super::{Page, wanted};

    #[test]
    fn colours_on_a_terminal_alone() {
        let set = |value: &str| Some(value.into());
        assert!(wanted(true, None, set("xterm")));
        assert!(wanted(true, set(""), set("xterm")));
        assert!(!wanted(false, None, set("xterm")));
        assert!(!wanted(true, set("1"), set("xterm")));
        assert!(!wanted(true, None, set("dumb")));
        assert!(!wanted(true, None, None));
    }

    /// Without its colours a page is the plain one.
    #[test]
    fn colours_add_no_text() {
        let [plain, coloured] = [false, true].map(|coloured| {
            let mut page = Page::new(coloured);
            page.named("worth", "5.000 points");
            page.bold("read");
            page.plain("\n");
            String::from_utf8(page.into_bytes()).expect("text")
        });
        assert_eq!(plain, "worth   5.000 points\nread\n");
        assert!(coloured.contains('\x1b'));
        let colours = ["\x1b[1m", "\x1b[2m", "\x1b[0m"];
        let text = colours
            .iter()
            .fold(coloured, |text, colour| text.replace(colour, ""));
        assert_eq!(text, plain);
    }
}
