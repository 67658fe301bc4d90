//! Writes a table as text.

use super::table::*;

/// The bytes of a table's text: a line for the header and one for each node.
pub fn length(table: &Table) -> usize {
    LINE * (1 + table.nodes.len())
}

/// Writes the text of a table into these bytes, which are as many as it has. Every number
/// has blanks before it.
pub fn write(table: &Table, text: &mut [u8]) {
    assert_eq!(text.len(), length(table));
    text.fill(b' ');
    let (lines, _) = text.as_chunks_mut::<LINE>();
    for line in lines.iter_mut() {
        line[24] = b'\n';
    }
    let (header, lines) = lines.split_first_mut().expect("a table has a header");
    number(&mut header[0..4], table.nodes.len() as i64);
    match table.second {
        None => number(&mut header[4..8], table.total),
        Some(second) => {
            number(&mut header[4..6], second);
            number(&mut header[6..8], table.total);
        }
    }
    number(&mut header[8..16], table.lowest);
    number(&mut header[16..24], table.highest);
    for (place, (node, line)) in table.nodes.iter().zip(lines).enumerate() {
        number(&mut line[0..4], place as i64);
        line[5] = match node.kind {
            Kind::Max => b'M',
            Kind::Min => b'N',
            Kind::Chance => b'C',
            Kind::Leaf => b'L',
        };
        if let Some(parent) = node.parent {
            number(&mut line[6..11], parent as i64);
        }
        if let Some(weight) = node.weight {
            number(&mut line[11..16], weight);
        }
        if let Some(utility) = node.utility {
            number(&mut line[16..24], utility);
        }
    }
}

/// Writes a number right-justified in its columns, which are blank and wide enough for it.
fn number(columns: &mut [u8], number: i64) {
    let mut start = columns.len();
    let mut left = number.unsigned_abs();
    loop {
        start -= 1;
        columns[start] = b'0' + (left % 10) as u8;
        left /= 10;
        if left == 0 {
            break;
        }
    }
    if number < 0 {
        start -= 1;
        columns[start] = b'-';
    }
}
