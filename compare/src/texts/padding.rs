//! Zeros before numbers (document 02, Item 9). A text is padded field by field, so that every
//! number stays what it is; its zeros are turned back to blanks; or zeros stand where they are
//! a fault.

use crate::random::Random;
use crate::second::{self, LINE, PLAY_LINE};

/// A field: what stands in it, and its columns, from 0.
#[derive(Clone, Copy, Debug, PartialEq, Eq)]
pub struct Field {
    pub name: &'static str,
    pub start: usize,
    pub end: usize,
}

const fn field(name: &'static str, start: usize, end: usize) -> Field {
    Field { name, start, end }
}

const COUNT: Field = field("the count", 0, 4);
const ONE_TOTAL: Field = field("T alone", 4, 8);
const SECOND: Field = field("the second total", 4, 6);
const FIRST: Field = field("T beside a second total", 6, 8);
const LOWEST: Field = field("the lowest end", 8, 16);
const HIGHEST: Field = field("the highest end", 16, 24);

const NUMBER: Field = field("the node number", 0, 4);
const PARENT: Field = field("the parent", 6, 11);
const WEIGHT: Field = field("the weight", 11, 16);
const UTILITY: Field = field("the utility", 16, 24);

const PLAY: Field = field("the play number", 0, 4);
const MARGIN: Field = field("the margin", 0, 14);

/// The fields of a table.
pub const OF_TABLES: [Field; 10] = [
    COUNT, ONE_TOTAL, SECOND, FIRST, LOWEST, HIGHEST, NUMBER, PARENT, WEIGHT, UTILITY,
];

/// Those of them that may hold a number below zero in an accepted table.
pub const SIGNED: [Field; 3] = [LOWEST, HIGHEST, UTILITY];

/// The fields of this line of a table; the header is line 0.
fn fields(number: usize, line: &[u8]) -> &'static [Field] {
    match (number, &line[4..6]) {
        (0, b"  " | b" 0" | b"00") => &[COUNT, ONE_TOTAL, LOWEST, HIGHEST],
        (0, _) => &[COUNT, SECOND, FIRST, LOWEST, HIGHEST],
        _ => &[NUMBER, PARENT, WEIGHT, UTILITY],
    }
}

/// Whether a header has a second total, by its columns 5-6.
pub fn has_second_total(header: &[u8]) -> bool {
    fields(0, header).contains(&SECOND)
}

// ---------------------------------------------------------------------------
// A number in its columns
// ---------------------------------------------------------------------------

/// A number as it is written, without the blanks before it.
struct Written<'a> {
    minus: bool,
    /// The zeros that it could do without.
    zeros: usize,
    /// At least one.
    digits: &'a [u8],
}

impl Written<'_> {
    /// None where the columns hold no number: they are blank, or ill-written.
    fn of(columns: &[u8]) -> Option<Written<'_>> {
        let unsigned = columns.trim_ascii_start();
        let blanks = columns.len() - unsigned.len();
        let (minus, digits) = match unsigned.split_first() {
            Some((b'-', digits)) => (true, digits),
            _ => (false, unsigned),
        };
        let is_number = !digits.is_empty() && digits.iter().all(u8::is_ascii_digit);
        let blank = columns[..blanks].iter().all(|byte| *byte == b' ');
        let needed = digits.iter().position(|digit| *digit != b'0');
        if !is_number || !blank || (minus && needed.is_none()) {
            return None;
        }
        let zeros = needed.unwrap_or(digits.len() - 1);
        Some(Written {
            minus,
            zeros,
            digits: &digits[zeros..],
        })
    }

    /// How many zeros there is room for in this field.
    fn room(&self, field: Field) -> usize {
        // More would put the minus in columns 5-6, where it is no part of T.
        let start = match self.minus && field == ONE_TOTAL {
            true => FIRST.start,
            false => field.start,
        };
        field.end - start - usize::from(self.minus) - self.digits.len()
    }

    /// Writes it in these columns with so many zeros.
    fn write(&self, zeros: usize, columns: &mut [u8]) {
        let length = columns.len();
        let (rest, digits) = columns.split_at_mut(length - self.digits.len());
        digits.copy_from_slice(self.digits);
        let (rest, padding) = rest.split_at_mut(rest.len() - zeros);
        padding.fill(b'0');
        rest.fill(b' ');
        if let (true, Some(last)) = (self.minus, rest.last_mut()) {
            *last = b'-';
        }
    }
}

/// Every way to write a number in so many columns, that with blanks alone first.
pub fn ways(number: i64, width: usize) -> Vec<Vec<u8>> {
    let sign = if number < 0 { "-" } else { "" };
    let digits = number.unsigned_abs().to_string();
    let longest = width - sign.len();
    let lengths = digits.len()..=longest;
    let ways = lengths.map(|length| format!("{sign}{digits:0>length$}"));
    ways.map(|way| format!("{way:>width$}").into_bytes())
        .collect()
}

// ---------------------------------------------------------------------------
// Padding, and blanks again
// ---------------------------------------------------------------------------

/// How a text is padded.
#[derive(Clone, Copy, Debug, PartialEq, Eq)]
enum Manner {
    /// Every number to its width, as a spreadsheet does.
    Full,
    /// Each number for itself: not at all, by some zeros, or to its width.
    Each,
    /// A few numbers.
    Few,
}

impl Manner {
    fn any(random: &mut Random) -> Manner {
        random.pick(&[Manner::Full, Manner::Each, Manner::Each, Manner::Few])
    }

    /// The zeros of a number that has room for so many.
    fn zeros(self, room: usize, random: &mut Random) -> usize {
        match self {
            Manner::Full => room,
            Manner::Few if !random.one_in(8) => 0,
            Manner::Each | Manner::Few => match random.below(3) {
                0 => 0,
                1 => random.below(room + 1),
                _ => room,
            },
        }
    }

    fn pad(self, field: Field, line: &mut [u8], random: &mut Random) {
        rewrite(field, line, |room| self.zeros(room, random));
    }

    fn pad_table(self, text: &mut [u8], random: &mut Random) {
        for_each_field(text, |field, line| self.pad(field, line, random));
    }
}

/// Writes the number in a field, if it is one, with as many zeros as are wanted where there
/// is room for so many.
fn rewrite(field: Field, line: &mut [u8], wanted: impl FnOnce(usize) -> usize) {
    let columns = line[field.start..field.end].to_vec();
    if let Some(written) = Written::of(&columns) {
        let zeros = wanted(written.room(field));
        written.write(zeros, &mut line[field.start..field.end]);
    }
}

/// Hands on every field of the whole lines of a table, with its line.
fn for_each_field(text: &mut [u8], mut hand_on: impl FnMut(Field, &mut [u8])) {
    for (number, line) in text.chunks_exact_mut(LINE).enumerate() {
        for field in fields(number, line) {
            hand_on(*field, line);
        }
    }
}

/// This table with zeros before its numbers. What is no number is left as it is, so that a
/// text which is no table may be given too.
pub fn padded(text: &[u8], random: &mut Random) -> Vec<u8> {
    let mut text = text.to_vec();
    Manner::any(random).pad_table(&mut text, random);
    text
}

/// This table with every number filled with zeros to its width.
pub fn filled(text: &[u8]) -> Vec<u8> {
    let mut text = text.to_vec();
    for_each_field(&mut text, |field, line| rewrite(field, line, |room| room));
    text
}

/// This table with blanks for zeros: the blank-padded text.
pub fn blanked(text: &[u8]) -> Vec<u8> {
    let mut text = text.to_vec();
    for_each_field(&mut text, |field, line| rewrite(field, line, |_| 0));
    text
}

/// A match file with zeros before its numbers, as far as its positions can be told apart.
pub fn padded_match(file: &[u8], random: &mut Random) -> Vec<u8> {
    let mut padded = file.to_vec();
    let mut rest = &mut padded[..];
    for position in second::positions(file) {
        let (line, after) = rest.split_at_mut(PLAY_LINE);
        let (table, after) = after.split_at_mut(position.text.len());
        let manner = Manner::any(random);
        manner.pad(PLAY, line, random);
        manner.pad_table(table, random);
        rest = after;
    }
    padded
}

/// The line of a play number or of a margin with zeros before it.
pub fn padded_line(line: &[u8], random: &mut Random) -> Vec<u8> {
    let mut padded = line.to_vec();
    let field = match line.len() {
        PLAY_LINE => PLAY,
        _ => MARGIN,
    };
    Manner::any(random).pad(field, &mut padded, random);
    padded
}

// ---------------------------------------------------------------------------
// What is padded
// ---------------------------------------------------------------------------

/// A field with zeros before its number, and whether that is below zero.
pub type Padded = (Field, bool);

/// The padded fields of a table, each once for all lines and signs.
pub fn padded_fields(text: &[u8]) -> Vec<Padded> {
    let mut found = Vec::new();
    for (number, line) in text.chunks_exact(LINE).enumerate() {
        for field in fields(number, line) {
            let padded = padded_in(*field, line);
            found.extend(padded.filter(|padded| !found.contains(padded)));
        }
    }
    found
}

/// Whether a play number's line or a margin's is padded.
pub fn is_padded_line(line: &[u8]) -> bool {
    let field = match line.len() {
        PLAY_LINE => PLAY,
        _ => MARGIN,
    };
    padded_in(field, line).is_some()
}

fn padded_in(field: Field, line: &[u8]) -> Option<Padded> {
    let written = Written::of(line.get(field.start..field.end)?)?;
    (written.zeros > 0).then_some((field, written.minus))
}

// ---------------------------------------------------------------------------
// Faults
// ---------------------------------------------------------------------------

/// Puts zeros in a table where they are a fault, or may be one. Returns whether it found a
/// place for them.
type Fault = fn(&mut [u8], &mut Random) -> bool;

/// The faults, by name.
pub const FAULTS: [(&str, Fault); 9] = [
    ("a minus before zeros alone", minus_zeros),
    ("a blank after zeros", blank_within),
    ("zeros before a minus", zeros_before_minus),
    ("a plus before zeros", plus_before_zeros),
    ("a blank after a padded number", blank_behind),
    ("zeros among columns 5-8", other_totals),
    ("zeros as a weight", zero_weight),
    ("zeros as node 0's parent", zero_parent),
    ("zeros where none may stand", zeros_for_blanks),
];

/// What columns 5-8 may hold of zeros, and some more. Not all are faults.
pub const TOTALS: [&[u8; 4]; 32] = [
    b" 0 4", b"00 4", b"0 36", b"-036", b" -36", b"00  ", b" 0  ", b"0   ", b"0000", b" 000",
    b"  00", b"   0", b" 036", b"0036", b"  36", b"0136", b" 136", b" 100", b"0100", b"1000",
    b"  -1", b" -01", b"-001", b"00-1", b" 0-1", b"-0 4", b"-004", b"0-04", b"0 04", b"3600",
    b"36 0", b"0101",
];

/// Any field of any line.
fn any_field(text: &mut [u8], random: &mut Random) -> Option<(Field, usize)> {
    let lines = text.len() / LINE;
    if lines == 0 {
        return None;
    }
    // The header's fields are few among those of a long table.
    let number = match random.one_in(3) {
        true => 0,
        false => random.below(lines),
    };
    let field = random.pick(fields(number, &text[LINE * number..]));
    Some((field, LINE * number))
}

/// Rewrites any field that holds a number: `write` is told the number and the room before its
/// digits, and says what stands there in their place.
fn any_number(
    text: &mut [u8],
    random: &mut Random,
    write: impl Fn(&Written, usize, &mut Random) -> Option<Vec<u8>>,
) -> bool {
    for _ in 0..30 {
        let Some((field, line)) = any_field(text, random) else {
            return false;
        };
        let columns = &mut text[line + field.start..line + field.end];
        let before = columns.to_vec();
        let Some(written) = Written::of(&before) else {
            continue;
        };
        let room = columns.len() - written.digits.len();
        if let Some(content) = write(&written, room, random) {
            columns.copy_from_slice(&content);
            return true;
        }
    }
    false
}

/// Blanks, these bytes and the digits in so many columns before the digits.
fn before_digits(room: usize, bytes: &str, digits: &[u8]) -> Option<Vec<u8>> {
    let blanks = room.checked_sub(bytes.len())?;
    Some([&b" ".repeat(blanks)[..], bytes.as_bytes(), digits].concat())
}

fn minus_zeros(text: &mut [u8], random: &mut Random) -> bool {
    let Some((field, line)) = any_field(text, random) else {
        return false;
    };
    let columns = &mut text[line + field.start..line + field.end];
    let zeros = 1 + random.below(columns.len() - 1);
    let width = columns.len();
    let written = format!("{:>width$}", format!("-{}", "0".repeat(zeros)));
    columns.copy_from_slice(written.as_bytes());
    true
}

fn blank_within(text: &mut [u8], random: &mut Random) -> bool {
    any_number(text, random, |written, room, random| {
        let sign = if written.minus { "-" } else { "" };
        let between = random.pick(&["0 ", "00 ", "0  ", "0 0", "000 ", "0 00"]);
        before_digits(room, &format!("{sign}{between}"), written.digits)
    })
}

fn zeros_before_minus(text: &mut [u8], random: &mut Random) -> bool {
    any_number(text, random, |written, room, random| {
        let before = random.pick(&["0-", "00-", "0-0", "00-0", "0 -"]);
        before_digits(room, before, written.digits)
    })
}

fn plus_before_zeros(text: &mut [u8], random: &mut Random) -> bool {
    any_number(text, random, |written, room, random| {
        let before = random.pick(&["+0", "+00", "0+", "+-0", "-+0"]);
        before_digits(room, before, written.digits)
    })
}

fn blank_behind(text: &mut [u8], random: &mut Random) -> bool {
    any_number(text, random, |written, room, random| {
        let before = random.pick(&["0", "00", "-0"]);
        let digits = [written.digits, b" "].concat();
        before_digits(room.checked_sub(1)?, before, &digits)
    })
}

fn other_totals(text: &mut [u8], random: &mut Random) -> bool {
    let Some(columns) = text.get_mut(4..8) else {
        return false;
    };
    let written: &[u8; 4] = random.pick(&TOTALS);
    columns.copy_from_slice(written);
    true
}

/// Zeros right-justified in these columns.
fn put_zeros(columns: &mut [u8], random: &mut Random) {
    let blanks = match random.one_in(2) {
        true => 0,
        false => random.below(columns.len()),
    };
    columns.fill(b'0');
    columns[..blanks].fill(b' ');
}

/// The columns of a field in any node line, if there is one.
fn any_node(text: &mut [u8], field: Field, random: &mut Random) -> Option<usize> {
    let lines = (text.len() / LINE)
        .checked_sub(1)
        .filter(|nodes| *nodes > 0)?;
    Some(LINE * (1 + random.below(lines)) + field.start)
}

fn zero_weight(text: &mut [u8], random: &mut Random) -> bool {
    let Some(start) = any_node(text, WEIGHT, random) else {
        return false;
    };
    put_zeros(&mut text[start..start + 5], random);
    true
}

fn zero_parent(text: &mut [u8], random: &mut Random) -> bool {
    let Some(line) = text.get_mut(LINE..2 * LINE) else {
        return false;
    };
    put_zeros(&mut line[PARENT.start..PARENT.end], random);
    true
}

fn zeros_for_blanks(text: &mut [u8], random: &mut Random) -> bool {
    for _ in 0..30 {
        let field = random.pick(&[PARENT, WEIGHT, UTILITY]);
        let Some(start) = any_node(text, field, random) else {
            return false;
        };
        let columns = &mut text[start..start + field.end - field.start];
        if columns.iter().all(|byte| *byte == b' ') {
            put_zeros(columns, random);
            return true;
        }
    }
    false
}
