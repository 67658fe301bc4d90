//! Random inputs of the margin program, beyond the tables in them.

use super::damage::carriage_returns;
use super::padding::padded_line;
use crate::random::Random;
use crate::second::{GREATEST_MARGIN, LINE, MOST_NODES};

/// The margin's line for a table of this span. The first of the two says whether
/// the line is well-written.
pub fn margin_line(random: &mut Random, span: i64) -> (bool, Vec<u8>) {
    let margin = match random.below(8) {
        0 | 1 => 0,
        2 => span + random.pick(&[-1, 0, 1]),
        3 => random.pick(&[1, 9, 10, 99, 100, GREATEST_MARGIN]),
        4 => random.pick(&[
            GREATEST_MARGIN + 1,
            99_999_999_999_999,
            -1,
            -9_999_999_999_999,
        ]),
        5 => random.between(0, span) / 100,
        _ => random.between(0, span),
    };
    let well = format!("{margin:>14}\n").into_bytes();
    match random.below(8) {
        0 | 1 => {}
        2 => return (true, padded_line(&well, random)),
        _ => return (true, well),
    }
    let columns = match random.below(18) {
        0 => String::new(),
        1 => "-0".to_string(),
        2 => format!("0 {}", margin.abs()),
        3 => format!("-{}", "0".repeat(13)),
        4 => format!("+{}", margin.abs()),
        5 => "-".to_string(),
        6 => format!("{margin:<14}"),
        7 => format!("{margin} "),
        8 => format!("{margin}\r"),
        9 => format!("- {}", margin.abs()),
        10 => format!("--{}", margin.abs()),
        11 => format!("{margin}.0"),
        12 => format!("\t{margin}"),
        13 => format!("{margin} {margin}"),
        14 => format!("{margin}\0"),
        15 => format!("{margin}\n"),
        _ => {
            // The line is right but for one byte, newline included.
            let mut line = well;
            line[random.below(15)] = match random.below(3) {
                0 => random.pick(b"\r\n\t\0/:+-. x"),
                1 => random.pick(b"0123456789"),
                _ => random.bits() as u8,
            };
            return (false, line);
        }
    };
    let columns = &columns.as_bytes()[..columns.len().min(14)];
    let mut line = vec![b' '; 14 - columns.len()];
    line.extend_from_slice(columns);
    line.push(b'\n');
    (false, line)
}

/// Changes the whole input.
pub fn damage(input: &mut Vec<u8>, random: &mut Random) {
    match random.below(14) {
        0 => input.clear(),
        1 => input.truncate(random.below(16)),
        2 => input.truncate(15),
        3 => input.truncate(random.below(input.len() + 1)),
        4 | 5 => carriage_returns(input, 0, random),
        // A column more or fewer for the margin, no margin, two margins.
        6 => input.insert(0, b' '),
        7 => {
            input.remove(0);
        }
        8 => {
            input.drain(..15.min(input.len()));
        }
        9 => {
            let line = input[..15.min(input.len())].to_vec();
            input.splice(..0, line);
        }
        // Something after the table.
        10 => input.extend_from_slice(random.pick(&[b"\n", b" ", b"\0", b"\x1a"])),
        11 => {
            let line = input[input.len().saturating_sub(LINE)..].to_vec();
            input.extend_from_slice(&line);
        }
        // Binary, of a length that a table may have or not.
        12 => {
            let length = match random.below(3) {
                0 => 15 + LINE * random.below(40),
                1 => random.below(3_000),
                _ => 15 + LINE * (1 + MOST_NODES),
            };
            *input = (0..length).map(|_| random.bits() as u8).collect();
        }
        // Around the longest input, as if the table went on.
        _ => {
            let length = 15 + random.pick(&[25_600, 25_624, 25_625, 25_626, 25_650, 51_250]);
            while input.len() < length {
                let from = input.len().saturating_sub(LINE);
                let more = match input.get(from) {
                    Some(&byte) => byte,
                    None => b' ',
                };
                input.push(more);
            }
            input.truncate(length);
        }
    }
}
