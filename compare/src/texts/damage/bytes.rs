//! Damages to a text. They take it as lines of 25 bytes, which it may no longer
//! be after another damage.

// All damages share one type, whether they change the text's length or not.
#![allow(clippy::ptr_arg)]

use crate::random::Random;
use crate::second::LINE;

/// Damages a text at or near the line of index `at`, 0 for the header.
type OnText = fn(&mut Vec<u8>, usize, &mut Random);

pub const ON_TEXT: &[OnText] = &[
    change_byte,
    change_byte,
    change_byte,
    replace_field,
    replace_field,
    replace_field,
    replace_field,
    change_newline,
    change_column_5,
    drop_text_line,
    double_text_line,
    exchange_text_lines,
    shift_bytes,
    change_length,
    carriage_returns,
];

const HEADER_FIELDS: [(usize, usize); 6] = [(0, 4), (4, 8), (4, 6), (6, 8), (8, 16), (16, 24)];
const NODE_FIELDS: [(usize, usize); 5] = [(0, 4), (5, 6), (6, 11), (11, 16), (16, 24)];

fn change_byte(text: &mut Vec<u8>, at: usize, random: &mut Random) {
    if let Some(byte) = text.get_mut(LINE * at + random.below(LINE)) {
        *byte = match random.below(4) {
            0 => random.bits() as u8,
            1 => random.pick(b"\n -0"),
            2 => random.pick(b"0123456789"),
            _ => random.pick(b"MNCLAmz+.,_/:\t\r\0"),
        };
    }
}

/// Writes something else in the columns of a field.
fn replace_field(text: &mut Vec<u8>, at: usize, random: &mut Random) {
    let fields = if at == 0 {
        &HEADER_FIELDS[..]
    } else {
        &NODE_FIELDS[..]
    };
    let (start, end) = random.pick(fields);
    let Some(columns) = text.get_mut(LINE * at + start..LINE * at + end) else {
        return;
    };
    let width = columns.len();
    let written = String::from_utf8_lossy(columns).trim().to_string();
    let value = written.parse::<i64>().unwrap_or(7);
    let content = match random.below(22) {
        0 => String::new(),
        1 => "-0".to_string(),
        2 => format!("0 {written}"),
        3 => "-00".to_string(),
        4 => format!("+{written}"),
        5 => "-".to_string(),
        6 => format!("--{value}"),
        7 => format!("0-{value}"),
        8 => format!("- {value}"),
        9 => format!("{value}-"),
        10 => format!("{value} {value}"),
        11 => format!("\t{value}"),
        12 => format!("{written:<width$}"),
        13 => format!("{value:<width$}"),
        14 => "9".repeat(width),
        15 => format!("-{}", "9".repeat(width - 1)),
        16 => format!("1{}", "0".repeat(width - 1)),
        17 => format!("-{}", "0".repeat(width - 1)),
        18 => format!("{}", value + random.pick(&[-1, 1])),
        19 => format!("{}", -value),
        20 => {
            let limits = [
                -1, 0, 1, 4, 5, 64, 65, 1_023, 1_024, 1_025, -1_000_000, -1_000_001, 1_000_000,
                1_000_001,
            ];
            format!("{}", random.pick(&limits))
        }
        _ => (0..width)
            .map(|_| char::from(random.pick(b"  -0129")))
            .collect(),
    };
    // What is too long for the columns loses its end.
    let content = &content.as_bytes()[..content.len().min(width)];
    columns.fill(b' ');
    columns[width - content.len()..].copy_from_slice(content);
}

fn change_newline(text: &mut Vec<u8>, at: usize, random: &mut Random) {
    if let Some(byte) = text.get_mut(LINE * at + LINE - 1) {
        *byte = random.pick(b"\r \x0b\x0c\x00\x8a0");
    }
}

fn change_column_5(text: &mut Vec<u8>, at: usize, random: &mut Random) {
    if let Some(byte) = text.get_mut(LINE * at + 4) {
        *byte = random.pick(b"0-\tM\n\x00\xa0");
    }
}

fn drop_text_line(text: &mut Vec<u8>, at: usize, _: &mut Random) {
    if LINE * at + LINE <= text.len() {
        text.drain(LINE * at..LINE * at + LINE);
    }
}

fn double_text_line(text: &mut Vec<u8>, at: usize, _: &mut Random) {
    if LINE * at + LINE <= text.len() {
        let line = text[LINE * at..LINE * at + LINE].to_vec();
        text.splice(LINE * at..LINE * at, line);
    }
}

fn exchange_text_lines(text: &mut Vec<u8>, at: usize, random: &mut Random) {
    let lines = text.len() / LINE;
    if at < lines {
        let other = random.below(lines);
        for column in 0..LINE {
            text.swap(LINE * at + column, LINE * other + column);
        }
    }
}

/// Puts in a byte and takes one out, so that all between is shifted; in one of
/// four cases only one of the two.
fn shift_bytes(text: &mut Vec<u8>, at: usize, random: &mut Random) {
    let place = (LINE * at + random.below(LINE)).min(text.len());
    let (put, take) = random.pick(&[(true, true), (true, true), (true, false), (false, true)]);
    if put {
        text.insert(place, random.pick(b" 0\nM"));
    }
    if take && !text.is_empty() {
        let place = random.below(text.len());
        text.remove(place);
    }
}

/// Gives the text another length: near itself, or near the limits.
fn change_length(text: &mut Vec<u8>, at: usize, random: &mut Random) {
    let length = text.len();
    let new = match random.below(4) {
        0 => random.pick(&[0, 1, 24, 25, 26, 49, 50, 51, 74, 75]),
        1 => random.pick(&[
            25_599, 25_600, 25_601, 25_624, 25_625, 25_626, 25_649, 25_650, 25_651, 51_250,
        ]),
        2 => random.pick(&[length.saturating_sub(1), length + 1, length + LINE]),
        _ => LINE * at,
    };
    // What is added repeats the last lines, or is blanks.
    for i in length..new {
        let byte = if i < LINE { b' ' } else { text[i - LINE] };
        text.push(byte);
    }
    text.truncate(new);
}

/// The line ends of another system: two bytes, or one in place of the newline
/// or of the last column.
pub fn carriage_returns(text: &mut Vec<u8>, _: usize, random: &mut Random) {
    match random.below(3) {
        0 => {
            let lines = std::mem::take(text);
            for byte in lines {
                if byte == b'\n' {
                    text.push(b'\r');
                }
                text.push(byte);
            }
        }
        1 => {
            for byte in text.iter_mut().filter(|byte| **byte == b'\n') {
                *byte = b'\r';
            }
        }
        _ => {
            for line in text.chunks_exact_mut(LINE) {
                line[23] = b'\r';
            }
        }
    }
}
