//! The desk's command: questions about a table or a match, answered by the proved engine,
//! and tables to test with.
//! `docs/DESK.md` says what each verb prints.

mod args;
mod grid;
mod help;
mod input;
mod margin;
mod output;
mod progress;
mod refused;
mod spot;
mod tree;
mod under;
mod verbs;

use std::process::ExitCode;

use args::{Asked, Task};
use input::{Source, TABLE};
use output::{complain, print};
use refused::Refused;
use verbs::{Question, formed, recipe, report};

const ANSWERED: u8 = 0;

/// The exit status where the table, the question or a match is refused.
const REFUSED: u8 = 1;

/// The exit status where there is nothing to ask the engine: wrong usage, or a
/// file or an output that fails.
const FAILED: u8 = 2;

fn main() -> ExitCode {
    let asked = match args::parse(std::env::args_os().skip(1)) {
        Ok(asked) => asked,
        Err(wrong) => {
            complain(&wrong.to_string());
            return ExitCode::from(FAILED);
        }
    };
    match asked {
        Asked::Help(verb) => print(help::text(verb).as_bytes(), ANSWERED),
        Asked::Version => print(format!("desk {}\n", help::VERSION).as_bytes(), ANSWERED),
        Asked::Task(Task::Table {
            question,
            source,
            tsv,
        }) => answer(question.as_ref(), &source, tsv),
        Asked::Task(Task::Matches {
            sources,
            scale,
            tsv,
        }) => report::run(&sources, &scale, tsv),
        Asked::Task(Task::Recipe { asked, tsv }) => recipe::run(&asked, tsv),
    }
}

/// Answers a question about a table.
fn answer(question: &dyn Question, source: &Source, tsv: bool) -> ExitCode {
    let text = match source.read(&TABLE) {
        Ok(text) => text,
        Err(error) => {
            complain(&format!("desk: {source}: {error}\n"));
            return ExitCode::from(FAILED);
        }
    };
    match question.answer(&text) {
        Ok(answer) => print(&formed(answer.as_ref(), tsv), ANSWERED),
        Err(refusal) => {
            let refused = Refused::of(refusal, &text, question);
            if tsv {
                return print(refused.tsv().as_bytes(), REFUSED);
            }
            complain(&refused.people(Some(source)));
            ExitCode::from(REFUSED)
        }
    }
}
