//! The report of a match: the refusal with its line and position, or each entry
//! and the totals; and that all else in what was lent is left as it was.

use super::numbers::{agree, ROOM};
use super::seen::{Seen, ROOTS, SIDES};
use super::tally::Tally;
use super::{kind_number, mark_number};
use crate::engine;
use crate::random::Random;
use crate::second::{
    self, root_children, Entry, Kind, Position, Refusal, Report, Stop, LINE, MARKS, MOST_NODES,
    MOST_POSITIONS, PLAY_LINE,
};
use crate::texts::examples::escaped;
use crate::texts::padding::has_second_total;

/// No call writes these, so an entry that was written shows.
const NO_KIND: u8 = 0xa5;
const NO_LOSS: i64 = -0x5a5a_5a5a_5a5a_5a5a;
const NOT_A_MARK: u8 = 0xc3;

/// Entries kept as a guard after a list lent.
const GUARD: usize = 2;

/// The longest list that `Comparison::hold` lends.
const LONG: usize = MOST_POSITIONS + 2;

/// How many entries of each sort are lent.
#[derive(Clone, Copy, Debug)]
pub struct Lent {
    pub kinds: usize,
    pub losses: usize,
    pub marks: usize,
    pub numbers: usize,
}

impl Lent {
    /// Three lists of one length, and more numbers than are written.
    pub fn lists(length: usize) -> Lent {
        Lent {
            kinds: length,
            losses: length,
            marks: length,
            numbers: ROOM,
        }
    }

    /// The entries of the shortest list.
    pub fn room(&self) -> usize {
        self.kinds.min(self.losses).min(self.marks)
    }
}

/// What the proved engine returns for a file, and what it writes.
#[derive(Clone, Debug, Default, PartialEq, Eq)]
pub struct Answer {
    pub returned: u64,
    pub kinds: Vec<u8>,
    pub losses: Vec<i64>,
    pub marks: Vec<u8>,
    pub numbers: [i64; 5],
}

/// The proved engine's answer, where lists are lent that are long enough.
pub fn proved(file: &[u8], scale: i64) -> Answer {
    let mut answer = Answer {
        returned: 0,
        kinds: vec![NO_KIND; MOST_POSITIONS],
        losses: vec![NO_LOSS; MOST_POSITIONS],
        marks: vec![NOT_A_MARK; MOST_POSITIONS],
        numbers: [0; 5],
    };
    answer.returned = engine::report(
        file,
        scale,
        &mut answer.kinds,
        &mut answer.losses,
        &mut answer.marks,
        &mut answer.numbers,
    );
    // A refused call leaves the number of positions at 0.
    let positions = answer.numbers[0] as usize;
    answer.kinds.truncate(positions);
    answer.losses.truncate(positions);
    answer.marks.truncate(positions);
    answer
}

/// What the proved engine must return.
pub fn code(answer: &Result<Report, Stop>) -> u64 {
    match answer {
        Ok(_) => 0,
        Err(stop) => {
            let refusal: Result<(), _> = Err(stop.refusal);
            1_000_000 * stop.position as u64 + super::code(&refusal)
        }
    }
}

/// The numbers of a report, as the proved engine writes them.
pub fn numbers(report: &Report) -> [i64; 5] {
    [
        report.entries.len() as i64,
        report.max.decisions,
        report.max.sum,
        report.min.decisions,
        report.min.sum,
    ]
}

/// Holds the proved engine to this, where so much is lent.
pub fn hold_to(
    tally: &Tally,
    file: &[u8],
    scale: i64,
    lent: Lent,
    expected: &Result<Report, Stop>,
) {
    let (entries, numbers) = match expected {
        Ok(report) => (&report.entries[..], &numbers(report)[..]),
        Err(_) => (&[][..], &[][..]),
    };
    let mut kinds = vec![NO_KIND; lent.kinds + GUARD];
    let mut losses = vec![NO_LOSS; lent.losses + GUARD];
    let mut marks = vec![NOT_A_MARK; lent.marks + GUARD];
    let asked = format_args!("the report by scale {scale} with {lent:?}");
    let returned = (code(expected), numbers);
    agree(tally, file, asked, lent.numbers, returned, |numbers| {
        let (kinds, losses) = (&mut kinds[..lent.kinds], &mut losses[..lent.losses]);
        let marks = &mut marks[..lent.marks];
        engine::report(file, scale, kinds, losses, marks, numbers)
    });

    let mut expected_kinds = vec![NO_KIND; kinds.len()];
    let mut expected_losses = vec![NO_LOSS; losses.len()];
    let mut expected_marks = vec![NOT_A_MARK; marks.len()];
    for (i, entry) in entries.iter().enumerate() {
        expected_kinds[i] = kind_number(entry.root);
        expected_losses[i] = entry.loss.unwrap_or(-1);
        expected_marks[i] = mark_number(entry.mark);
    }
    if kinds != expected_kinds || losses != expected_losses || marks != expected_marks {
        panic!(
            "{}: the engines differ on {asked}\n\
             {NO_KIND}, {NO_LOSS} and {NOT_A_MARK} stand for each entry left alone\n\
             kinds: expected {expected_kinds:?}\n\
             got {kinds:?}\n\
             losses: expected {expected_losses:?}\n\
             got {losses:?}\n\
             marks: expected {expected_marks:?}\n\
             got {marks:?}\n\
             file of {} bytes:\n{}",
            tally.place(),
            file.len(),
            escaped(file),
        );
    }
}

/// Compares the two engines on files.
pub struct Comparison {
    pub tally: Tally,
    /// What the reported files and the refused ones were like.
    pub accepted: Seen,
    pub refused: Seen,
    /// The lists lent where it is their lengths that decide.
    pub lists: Seen,
    /// What was given besides a scale that is refused.
    pub scales: Seen,
    /// What the forced plays of reported files were like.
    pub forced: Seen,
    /// Files compared so far; it sets the lengths lent next.
    turn: u64,
}

impl Comparison {
    pub fn new(name: &'static str) -> Comparison {
        Comparison {
            tally: Tally::new(name),
            accepted: Seen::default(),
            refused: Seen::default(),
            lists: Seen::default(),
            scales: Seen::default(),
            forced: Seen::default(),
            turn: 0,
        }
    }

    /// Gives a file and a scale's number to both engines with lists of several
    /// lengths. Fails the test unless they agree.
    pub fn hold(&mut self, file: &[u8], scale: i64) -> Result<Report, Stop> {
        let answer = second::report(file, scale, usize::MAX);
        let no_scale = second::steps(scale).is_none();
        // What a file would be reported as by a scale that there is.
        let otherwise = match no_scale {
            true => second::report(file, 1, usize::MAX),
            false => answer.clone(),
        };
        let positions = otherwise.as_ref().ok().map(|report| report.entries.len());
        let mut codes = Vec::new();
        for lent in self.lengths(positions) {
            let expected = second::report(file, scale, lent.room());
            hold_to(&self.tally, file, scale, lent, &expected);
            codes.push(code(&expected));
            if no_scale {
                count_scale(&mut self.scales, scale, lent, positions);
            } else if let Some(positions) = positions {
                count_lists(&mut self.lists, lent, positions);
            } else {
                self.refused.count("a list of no entries", lent.room() == 0);
            }
        }
        self.tally.add(&codes);
        match &answer {
            Ok(report) => {
                for position in second::positions(file) {
                    self.tally.add_header(has_second_total(position.text));
                }
                count_report(&mut self.accepted, scale, report);
                count_forced(&mut self.forced, file, report);
            }
            Err(stop) if no_scale => assert_eq!(code(&Err(*stop)), 20),
            Err(stop) => count_stop(&mut self.refused, file, *stop),
        }
        answer
    }

    /// The lengths to lend for a file of so many positions: once lists that are
    /// long enough, once any; for a file that is refused any, once. Each length is
    /// drawn for itself, and so is the room for numbers.
    fn lengths(&mut self, positions: Option<usize>) -> Vec<Lent> {
        self.turn += 1;
        // Not the numbers that the file was made with.
        let random = &mut Random::of_case(!self.tally.seed, self.turn);
        let mut lent = |length: &dyn Fn(&mut Random) -> usize| Lent {
            kinds: length(random),
            losses: length(random),
            marks: length(random),
            numbers: random.below(ROOM + 1),
        };
        match positions {
            Some(exact) => vec![
                lent(&|random| enough(exact, random)),
                lent(&|random| match random.one_in(2) {
                    true => enough(exact, random),
                    false => random.pick(&[exact.saturating_sub(1), exact / 2, 0]),
                }),
            ],
            None => vec![lent(&|random| random.pick(&[0, 1, LONG]))],
        }
    }
}

/// The length of a list for so many positions: exact in half the cases, or longer.
fn enough(exact: usize, random: &mut Random) -> usize {
    match random.below(6) {
        0..=2 => exact,
        3 => exact + 1 + random.below(30),
        4 => MOST_POSITIONS,
        _ => LONG,
    }
}

fn count_lists(seen: &mut Seen, lent: Lent, positions: usize) {
    let lists = [
        ("kinds", lent.kinds),
        ("losses", lent.losses),
        ("marks", lent.marks),
    ];
    let short = lists.iter().filter(|(_, length)| *length < positions);
    let short = short.count();
    for (name, length) in lists {
        let mut count = |sort, is_one| seen.count(&format!("{name} {sort}"), is_one);
        count("exact", length == positions);
        count("longer", length > positions);
        count("too short by one", length + 1 == positions);
        let here = length < positions;
        count("alone too short", here && short == 1);
        count("alone long enough", !here && short == 2);
    }
    seen.count("all three too short", short == 3);
    for room in 0..=ROOM {
        let here = short == 0 && lent.numbers == room;
        seen.count(&format!("room for {room} numbers"), here);
    }
}

/// Counts what a refused scale's number was like, and what else would have been
/// refused: 20 comes before all else.
fn count_scale(seen: &mut Seen, scale: i64, lent: Lent, positions: Option<usize>) {
    let short = positions.is_some_and(|positions| lent.room() < positions);
    let nothing = positions.is_some() && !short;
    seen.count("20 and nothing else to refuse", nothing);
    seen.count("20 for a file refused otherwise", positions.is_none());
    seen.count("20 with a list too short", short);

    seen.count("scale 0", scale == 0);
    seen.count("scale 3", scale == 3);
    seen.count("scale -1", scale == -1);
    seen.count("the least number", scale == i64::MIN);
    seen.count("the greatest number", scale == i64::MAX);
    for (bits, lost) in [(8, 56), (16, 48), (32, 32)] {
        // What is left of it in a type of so many bits.
        let kept = scale << lost >> lost;
        let sort = format!("1 or 2 in {bits} bits");
        seen.count(&sort, kept == 1 || kept == 2);
    }
}

fn count_report(seen: &mut Seen, scale: i64, report: &Report) {
    let (entries, count) = (&report.entries, report.entries.len());
    seen.count("no position", count == 0);
    seen.count("one position", count == 1);
    seen.count("several positions", (2..=12).contains(&count));
    seen.count("many positions", (13..MOST_POSITIONS - 1).contains(&count));
    seen.count("499 positions", count == MOST_POSITIONS - 1);
    seen.count("500 positions", count == MOST_POSITIONS);

    let mut add = |sort: &str, is_one: &dyn Fn(&Entry) -> bool| {
        let found = entries.iter().filter(|entry| is_one(entry)).count();
        seen.add(sort, found as u64);
    };
    for kind in ROOTS {
        add(&format!("root {kind:?}"), &|entry| entry.root == kind);
    }
    add("a loss of 0 listed", &|entry| entry.loss == Some(0));
    add("less than a point lost", &|entry| {
        entry.loss.is_some_and(|loss| 0 < loss && loss < 1_000)
    });
    add("a point or more lost", &|entry| entry.loss >= Some(1_000));
    for of in [1, 2] {
        for mark in MARKS {
            add(&format!("{mark:?} by scale {of}"), &|entry| {
                scale == of && entry.mark == Some(mark)
            });
        }
    }

    let (max, min) = (report.max, report.min);
    let (at_max, at_min) = (max.decisions > 0, min.decisions > 0);
    seen.count("decisions at M alone", at_max && !at_min);
    seen.count("decisions at N alone", at_min && !at_max);
    let both = at_max && at_min;
    let numbers = both && max.decisions != min.decisions;
    seen.count("other numbers at M and N", numbers);
    seen.count("other sums at M and N", both && max.sum != min.sum);
}

/// Counts the forced plays, which are listed as "no decision" (document 02, Item
/// 2), and the reports that have some beside decisions of the same side.
fn count_forced(seen: &mut Seen, file: &[u8], report: &Report) {
    for (kind, total) in [(Kind::Max, report.max), (Kind::Min, report.min)] {
        let forced = Entry {
            root: kind,
            loss: None,
            mark: None,
        };
        let beside = total.decisions > 0 && report.entries.contains(&forced);
        let sort = format!("forced plays beside decisions at {kind:?}");
        seen.count(&sort, beside);
    }
    let positions = second::positions(file);
    for (position, entry) in positions.iter().zip(&report.entries) {
        if entry.loss.is_none() && SIDES.contains(&entry.root) {
            let table = second::read(position.text).expect("accepted");
            assert_eq!(root_children(&table), 1, "no decision");
            seen.count_forced(&table, &[position.play]);
        }
    }
}

/// Counts where a report stopped, and why.
fn count_stop(seen: &mut Seen, file: &[u8], stop: Stop) {
    let position = stop.position;
    seen.count("at the first position", position == 1);
    seen.count("at the second", position == 2);
    seen.count("at a later one", (3..MOST_POSITIONS).contains(&position));

    let positions = second::positions(file);
    let before = positions[..position - 1].iter();
    let start: usize = before.map(|before| PLAY_LINE + before.text.len()).sum();
    let rest = &file[start..];
    count_fourteen(seen, &positions, stop);
    count_header(seen, rest, stop.refusal);
    count_fifteen(seen, rest, stop.refusal.number == 15);
    count_sixteen(seen, rest, stop.refusal.number == 16);
}

/// Counts play numbers that were refused at the least choice.
fn count_fourteen(seen: &mut Seen, positions: &[Position], stop: Stop) {
    let position = positions.get(stop.position - 1);
    let refused = position.filter(|_| stop.refusal.number == 14);
    let table = refused.map(|refused| second::read(refused.text).expect("accepted"));
    for kind in SIDES {
        let is_one = table
            .as_ref()
            .is_some_and(|table| table.nodes[0].kind == kind && root_children(table) == 2);
        seen.count(&format!("14 at {kind:?} with two children"), is_one);
    }
}

/// Counts refusals of a header, or of the lines after it.
fn count_header(seen: &mut Seen, rest: &[u8], refusal: Refusal) {
    let Refusal { number, line } = refusal;
    seen.count("at a node line", line > 0);
    for of in [2, 3, 4] {
        seen.count(&format!("{of} at a header"), (number, line) == (of, 0));
    }
    let count = count(rest).filter(|_| (number, line) == (4, 0));
    seen.count("count 0", count == Some(0));
    seen.count("count below 0", count.is_some_and(|count| count < 0));
    let most = MOST_NODES as i64;
    seen.count("count 1,025", count == Some(most + 1));
    seen.count("a greater count", count > Some(most + 1));
}

fn count_fifteen(seen: &mut Seen, rest: &[u8], refused: bool) {
    seen.count("15 for one byte", refused && rest.len() == 1);
    seen.count("15 for more", refused && rest.len() > 1);
}

fn count_sixteen(seen: &mut Seen, rest: &[u8], refused: bool) {
    let length = rest.len();
    let (line, _) = rest.split_at(length.min(PLAY_LINE));
    let well = refused && second::report(&[line, LONE_LEAF].concat(), 1, 1).is_ok();
    let short = length < PLAY_LINE + LINE;
    seen.count("16, fewer than 5 bytes", refused && length < PLAY_LINE);
    seen.count("16, a good line and fewer than 30 bytes", well && short);
    let all_but_one = length + 1 == PLAY_LINE + LINE;
    seen.count("16, a good line and 29 bytes", well && all_but_one);
    seen.count("16, a bad line", refused && !well && !short);

    let missing = well && !short;
    seen.count("16, node lines missing", missing);
    let whole = missing && (length - PLAY_LINE).is_multiple_of(LINE);
    seen.count("16, whole lines missing", whole);
    let count = count(rest).filter(|_| missing);
    let needed = count.map(|count| PLAY_LINE + LINE * (1 + count as usize));
    seen.count("16, one byte missing", needed == Some(length + 1));
}

/// A table that takes every play number.
const LONE_LEAF: &[u8] = b"   1   1       0       0\n   0 L                 0\n";

/// The count in the header of the position that begins here, if it is a number.
fn count(rest: &[u8]) -> Option<i64> {
    let columns = rest.get(PLAY_LINE..PLAY_LINE + 4)?;
    let columns = std::str::from_utf8(columns).ok()?;
    columns.trim_start().parse().ok()
}
