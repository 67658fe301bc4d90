//! What `desk help` prints.

use crate::verbs::{VERBS, Verb};

/// The package's version.
pub const VERSION: &str = env!("CARGO_PKG_VERSION");

/// What a margin is, for the verbs that take one.
pub const MARGINS: &str = "\
A margin is in points, as 3 or 0.05 (rounded down to whole grains), or in grains,
as 12g. A point is one unit of utility; G grains are a point.
";

/// What the files of all verbs hold.
const FILES: &str = "\
FILE holds a table, for report a match; without one, or with -, it is read from
standard input. recipe reads none.";

/// Columns of a verb and what stands after it, in the list of all.
const CALL: usize = 18;

/// What holds for every verb.
const ALL: &str = "\
--tsv prints lines of fields with tabs between them, for spreadsheets.
The exit status is 0 for an answer, 1 for a refusal, 2 for anything else.
The engine's answers are proved; this command, which prints them, is tested.
";

/// The help page of a verb, or the list of all.
pub fn text(verb: Option<&Verb>) -> String {
    match verb {
        Some(verb) => page(verb),
        None => list(),
    }
}

fn page(verb: &Verb) -> String {
    let head = format!("{}\n{} {}.\n", verb.usage(), verb.name, verb.does);
    let last = format!("{}\n{ALL}", verb.files.help);
    [&[head.as_str()], verb.more, &[&last]].concat().join("\n")
}

fn list() -> String {
    // A call that is too long for its column has a line of its own.
    let line = |call: String, does: &str| match call.len() < CALL {
        true => format!("  {call:<CALL$}{does}\n"),
        false => format!("  {call}\n  {:<CALL$}{does}\n", ""),
    };
    let verbs = VERBS.iter().map(|verb| line(verb.call(), verb.does));
    let mut verbs: String = verbs.collect();
    verbs += &line("help VERB".to_string(), "explains a verb");
    let head = format!(
        "desk VERB [options] [FILE]\n\
         asks the proved engine about a table or a match. Version {VERSION}.\n"
    );
    let last = format!("{FILES}\n{ALL}");
    [&head, &verbs, MARGINS, &last].join("\n")
}
