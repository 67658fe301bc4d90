//! Damages matches: a play number, its line, a table or its header, any byte; or
//! the file is cut, or goes on after the last position that may be.

use super::{any_number, file, play_line, tiny, whole, whole_of, Position};
use crate::random::Random;
use crate::second::{self, root_children, LINE, LONGEST_PATH, MOST_POSITIONS, PLAY_LINE};
use crate::texts::broken::broken;
use crate::texts::damage;
use crate::texts::knobs::{Kinds, Knobs, Shape};

/// A damaged match.
pub fn damaged(random: &mut Random) -> Vec<u8> {
    match random.below(32) {
        0 => too_many(random),
        1..=6 => cut(&whole(random), random),
        7 | 8 => bytes_changed(file(&whole(random)), random),
        _ => {
            let mut positions = whole(random);
            if positions.is_empty() {
                positions = whole_of(1, random);
            }
            let at = random.below(positions.len());
            // Several damages in one position: the sequence of the checks decides.
            for _ in 0..random.pick(&[1, 1, 1, 2, 3]) {
                random.pick(ON_POSITION)(&mut positions[at], random);
            }
            match random.below(8) {
                0 => cut(&positions, random),
                1 => bytes_changed(file(&positions), random),
                // Nothing follows that could stand for what is missing.
                2 | 3 => file(&positions[..=at]),
                _ => file(&positions),
            }
        }
    }
}

/// As many positions as there may be, and then something.
fn too_many(random: &mut Random) -> Vec<u8> {
    let mut file = file(&whole_of(MOST_POSITIONS, random));
    let mut next = super::position(tiny, random);
    match random.below(4) {
        0 => {}
        1 => random.pick(ON_POSITION)(&mut next, random),
        2 => next.play[4] = b' ',
        _ => {
            file.push(random.bits() as u8);
            return file;
        }
    }
    file.extend(next.play);
    if random.one_in(2) {
        file.extend(next.table);
    }
    file
}

// ---------------------------------------------------------------------------
// One position
// ---------------------------------------------------------------------------

type OnPosition = fn(&mut Position, &mut Random);

const ON_POSITION: &[OnPosition] = &[
    no_such_play,
    neither_play,
    ill_written_play,
    other_newline,
    other_table,
    broken_table,
    broken_table,
    broken_table,
    other_count,
    ill_written_header,
    header_out_of_range,
    lines_dropped_or_doubled,
    table_bytes,
];

/// A play number that no child has, or that is a child's if bits are lost; it is
/// refused where there is a choice.
fn no_such_play(position: &mut Position, random: &mut Random) {
    let children = second::read(&position.table).map_or(1, |table| root_children(&table));
    let children = children.max(1) as i64;
    let play = match random.below(6) {
        0 => 0,
        1 => children + 1,
        2 => -random.between(1, children.min(999)),
        3 => random.between(1, children) + random.pick(&[256, 1_024, 4_096]),
        4 => random.pick(&[9_999, -999]),
        _ => any_number(random),
    };
    position.play = play_line(play);
}

/// Most often a play number that no child has where the root has two, which is the
/// least choice.
fn neither_play(position: &mut Position, random: &mut Random) {
    *position = super::position(two_plays, random);
    no_such_play(position, random);
}

fn two_plays(random: &mut Random) -> Knobs {
    Knobs {
        nodes: 3 + random.below(20),
        root: Kinds::either(0),
        path: LONGEST_PATH,
        shape: Shape::Bushy(2, 2),
        ..Knobs::any(random)
    }
}

fn ill_written_play(position: &mut Position, random: &mut Random) {
    let play = random.between(1, 9);
    let columns = match random.below(14) {
        0 => String::new(),
        1 => "-0".to_string(),
        2 => format!("0 {play}"),
        3 => "-000".to_string(),
        4 => format!("+{play}"),
        5 => "-".to_string(),
        6 => format!("{play:<4}"),
        7 => format!("{play} "),
        8 => format!("- {play}"),
        9 => format!("--{play}"),
        10 => format!("\t{play}"),
        11 => format!("{play}\n"),
        12 => "-00".to_string(),
        _ => {
            let any = (0..4).map(|_| char::from(random.pick(b"  -01+x\n")));
            any.collect()
        }
    };
    position.play[..4].copy_from_slice(format!("{columns:>4}").as_bytes());
}

fn other_newline(position: &mut Position, random: &mut Random) {
    let line = &mut position.play;
    match random.below(4) {
        0 => line.insert(4, b'\r'),
        1 => line.truncate(4),
        2 => line.push(b'\n'),
        _ => {
            line.truncate(4);
            line.push(random.pick(b"\r 0\0\x0b\x8a"));
        }
    }
}

/// Any damaged table, of which the header's count may not be the length.
fn other_table(position: &mut Position, random: &mut Random) {
    position.table = damage::damaged(random);
}

fn broken_table(position: &mut Position, random: &mut Random) {
    let number = random.pick(&[2, 3, 4, 5, 6, 7, 8, 9, 10, 18]);
    position.table = broken(number, random).0;
}

fn other_count(position: &mut Position, random: &mut Random) {
    let lines = (position.table.len() / LINE) as i64 - 1;
    let count = random.pick(&[
        0,
        -1,
        -lines,
        lines - 1,
        lines + 1,
        1_024,
        1_025,
        9_999,
        -999,
    ]);
    put_in_header(position, 0, &format!("{count:>4}"));
}

fn ill_written_header(position: &mut Position, random: &mut Random) {
    let fields = [
        (0, "    "),
        (0, "0 05"),
        (4, "    "),
        (4, "  +1"),
        (4, "36  "),
        (4, "00 4"),
        (4, "0 36"),
        (8, "        "),
        (8, "      -0"),
        (16, "      - "),
        (16, "     -00"),
        (24, " "),
        (24, "\r"),
    ];
    let (column, written) = random.pick(&fields);
    put_in_header(position, column, written);
}

fn header_out_of_range(position: &mut Position, random: &mut Random) {
    let fields = [
        (4, "   0"),
        (4, "  65"),
        (4, "  -1"),
        (4, " 100"),
        (4, "6536"),
        (4, "-136"),
        (4, "3636"),
        (8, "-1000001"),
        (8, " 1000001"),
        (16, " 1000001"),
        (16, "-1000001"),
    ];
    let (column, written) = random.pick(&fields);
    put_in_header(position, column, written);
}

fn put_in_header(position: &mut Position, column: usize, written: &str) {
    if let Some(columns) = position.table.get_mut(column..column + written.len()) {
        columns.copy_from_slice(written.as_bytes());
    }
}

/// A line of the table, the header too, is dropped or doubled; the count stays.
fn lines_dropped_or_doubled(position: &mut Position, random: &mut Random) {
    let table = &mut position.table;
    let lines = table.len() / LINE;
    if lines == 0 {
        return;
    }
    let start = LINE * random.below(lines);
    let line = table[start..start + LINE].to_vec();
    match random.one_in(2) {
        true => table.splice(start..start, line).count(),
        false => table.drain(start..start + LINE).count(),
    };
}

fn table_bytes(position: &mut Position, random: &mut Random) {
    damage::damage_text(&mut position.table, random);
}

// ---------------------------------------------------------------------------
// The whole file
// ---------------------------------------------------------------------------

/// The file cut within or after one of its positions.
fn cut(positions: &[Position], random: &mut Random) -> Vec<u8> {
    let mut file = file(positions);
    if positions.is_empty() {
        return file;
    }
    let at = random.below(positions.len());
    let start: usize = positions[..at].iter().map(Position::length).sum();
    let length = positions[at].length();
    let kept = match random.below(9) {
        0 => 0,
        1 => 1 + random.below(PLAY_LINE),
        2 => PLAY_LINE,
        3 => PLAY_LINE + random.below(LINE),
        4 => PLAY_LINE + LINE - 1,
        5 => PLAY_LINE + LINE,
        6 => PLAY_LINE + LINE + LINE * random.below(1 + length / LINE),
        7 => length - 1,
        _ => random.below(length),
    };
    file.truncate(start + kept);
    file
}

/// Some bytes of the file are others, or are put in or taken out.
fn bytes_changed(mut file: Vec<u8>, random: &mut Random) -> Vec<u8> {
    for _ in 0..1 + random.below(2) {
        let at = random.below(file.len() + 1);
        let byte = match random.below(3) {
            0 => random.bits() as u8,
            1 => random.pick(b"\n -0"),
            _ => random.pick(b"0123456789MNCL"),
        };
        match random.below(6) {
            0 => file.insert(at, byte),
            1 if at < file.len() => {
                file.remove(at);
            }
            2 => file.push(byte),
            3 => damage::carriage_returns(&mut file, 0, random),
            _ if at < file.len() => file[at] = byte,
            _ => {}
        }
    }
    file
}
