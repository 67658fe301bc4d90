//! What is shown of a refused text: the line at fault and the columns marked.

use crate::second::read::field;
use crate::second::{Refusal, FARTHEST_END, LINE, LONGEST_PATH, MOST_CHANCES, MOST_TOTAL};

/// A stretch of columns: its first and its last.
pub type Stretch = (usize, usize);

/// The columns shown of a line that is too long.
const SHOWN: usize = 40;

// The columns of the header and of a node line.
const NUMBER: Stretch = (1, 4);
const TOTAL: Stretch = (5, 8);
const SECOND: Stretch = (5, 6);
const BESIDE_SECOND: Stretch = (7, 8);
const LOWEST: Stretch = (9, 16);
const HIGHEST: Stretch = (17, 24);
const FIFTH: Stretch = (5, 5);
const KIND: Stretch = (6, 6);
pub(super) const PARENT: Stretch = (7, 11);
pub(super) const WEIGHT: Stretch = (12, 16);
const UTILITY: Stretch = (17, 24);
const NEWLINE: Stretch = (25, 25);

/// The line that is shown with a refusal, a byte that cannot be printed as `?`, and
/// its number; none where no line is shown.
pub fn shown(text: &[u8], refusal: Refusal) -> Option<(usize, String)> {
    let (number, line) = line_at_fault(text, refusal)?;
    let columns = line.strip_suffix(b"\n").unwrap_or(line);
    Some((number, printed(columns)))
}

/// These columns as they are shown.
pub fn printed(columns: &[u8]) -> String {
    let printed = |&byte: &u8| match byte {
        b' '..=b'~' => char::from(byte),
        _ => '?',
    };
    columns.iter().take(SHOWN).map(printed).collect()
}

/// The columns marked below that line, field by field.
pub fn marks(text: &[u8], refusal: Refusal) -> Vec<Stretch> {
    let Some((_, line)) = line_at_fault(text, refusal) else {
        return Vec::new();
    };
    match refusal.number {
        1 => vec![wrong_length(line)],
        2 => ill_written(line, refusal.line == 0),
        3 if refusal.line == 0 => header_out_of_range(line),
        3 => node_out_of_range(text, line),
        4 => vec![NUMBER],
        6 => vec![PARENT],
        7 => missing_or_too_many(text, line),
        10 => path_too_long(text, line),
        18 => totals(line).to_vec(),
        _ => vec![KIND],
    }
}

/// The line's number and its bytes, the newline included.
fn line_at_fault(text: &[u8], refusal: Refusal) -> Option<(usize, &[u8])> {
    let mut lines = text.chunks(LINE).enumerate();
    match refusal.number {
        1 => {
            let lines = text.split_inclusive(|&byte| byte == b'\n');
            let mut lines = lines.enumerate();
            lines.find(|(_, line)| line.len() != LINE || !line.ends_with(b"\n"))
        }
        12 | 14 | 17 => None,
        13 => lines.skip(1).find(|(_, line)| kind(line) == b'C'),
        _ => lines.nth(refusal.line),
    }
}

/// The columns missing, or the newline where only it is, or those past 24.
fn wrong_length(line: &[u8]) -> Stretch {
    let width = line.strip_suffix(b"\n").unwrap_or(line).len();
    match width {
        24 => NEWLINE,
        0..24 => (width + 1, 24),
        _ => (25, width.min(SHOWN)),
    }
}

fn ill_written(line: &[u8], header: bool) -> Vec<Stretch> {
    let is_number = |stretch| matches!(field(columns(line, stretch)), Ok(Some(_)));
    let is_field = |stretch| field(columns(line, stretch)).is_ok();
    let is_blank = |stretch| columns(line, stretch) == b" ";
    let newline = (NEWLINE, columns(line, NEWLINE) == b"\n");
    let well = match header {
        true => {
            let fields = [&[NUMBER], totals(line), &[LOWEST, HIGHEST]].concat();
            let fields = fields.into_iter();
            fields.map(|field| (field, is_number(field))).collect()
        }
        false => vec![
            (NUMBER, is_number(NUMBER)),
            (FIFTH, is_blank(FIFTH)),
            (KIND, !is_blank(KIND)),
            (PARENT, is_field(PARENT)),
            (WEIGHT, is_field(WEIGHT)),
            (UTILITY, is_field(UTILITY)),
        ],
    };
    wrong(well.into_iter().chain([newline]))
}

fn header_out_of_range(line: &[u8]) -> Vec<Stretch> {
    let number = |stretch| value(line, stretch).expect("a number");
    let (lowest, highest) = (number(LOWEST), number(HIGHEST));
    let ends = -FARTHEST_END..=FARTHEST_END;
    let in_order = lowest <= highest;
    let is_total = |stretch| (1..=MOST_TOTAL).contains(&number(stretch));
    let totals = match *totals(line) {
        [second, total] => {
            let differ = number(second) != number(total);
            vec![
                (second, is_total(second) && differ),
                (total, is_total(total)),
            ]
        }
        _ => vec![(TOTAL, is_total(TOTAL))],
    };
    let ends = [
        (LOWEST, in_order && ends.contains(&lowest)),
        (HIGHEST, in_order && ends.contains(&highest)),
    ];
    wrong(totals.into_iter().chain(ends))
}

/// The columns of the totals, in sequence: T's are the last. Blanks and zeros in 5-6 are no
/// second total.
pub(super) fn totals(header: &[u8]) -> &'static [Stretch] {
    match columns(header, SECOND) {
        b"  " | b" 0" | b"00" => &[TOTAL],
        _ => &[SECOND, BESIDE_SECOND],
    }
}

fn node_out_of_range(text: &[u8], line: &[u8]) -> Vec<Stretch> {
    let number = |stretch| value(text, stretch).expect("a number");
    let totals = totals(text).iter().map(|&stretch| number(stretch));
    let weights = 1..=totals.max().expect("a total");
    let utilities = number(LOWEST)..=number(HIGHEST);
    let within = |stretch, range: &std::ops::RangeInclusive<i64>| {
        value(line, stretch).is_none_or(|value| range.contains(&value))
    };
    wrong([
        (WEIGHT, within(WEIGHT, &weights)),
        (UTILITY, within(UTILITY, &utilities)),
    ])
}

fn missing_or_too_many(text: &[u8], line: &[u8]) -> Vec<Stretch> {
    let under_chance = parent(text, line).is_some_and(|above| kind(above) == b'C');
    let has = |stretch| value(line, stretch).is_some();
    wrong([
        (WEIGHT, has(WEIGHT) == under_chance),
        (UTILITY, has(UTILITY) == (kind(line) == b'L')),
    ])
}

fn path_too_long(text: &[u8], line: &[u8]) -> Vec<Stretch> {
    let path: Vec<&[u8]> = std::iter::successors(Some(line), |line| parent(text, line)).collect();
    let chances = path.iter().filter(|line| kind(line) == b'C').count();
    wrong([
        (KIND, chances <= MOST_CHANCES),
        (PARENT, path.len() <= LONGEST_PATH),
    ])
}

/// The stretches that are not well.
pub fn wrong(well: impl IntoIterator<Item = (Stretch, bool)>) -> Vec<Stretch> {
    let stretches = well.into_iter();
    let wrong = stretches.filter(|(_, well)| !well);
    wrong.map(|(stretch, _)| stretch).collect()
}

/// The line of a node's parent; none for the root.
pub(super) fn parent<'a>(text: &'a [u8], line: &[u8]) -> Option<&'a [u8]> {
    let parent = value(line, PARENT)?;
    text.chunks(LINE).nth(parent as usize + 1)
}

pub(super) fn kind(line: &[u8]) -> u8 {
    line[KIND.0 - 1]
}

/// The number in a field; none where it is blank.
pub(super) fn value(line: &[u8], stretch: Stretch) -> Option<i64> {
    field(columns(line, stretch)).expect("a field that is well-written")
}

fn columns(line: &[u8], (first, last): Stretch) -> &[u8] {
    &line[first - 1..last]
}
