//! The worth of every node, by the engine: an inner node is the root of the table
//! under it.

use margin_engine::{Kind, LINE, Table, exact_worth};

/// The exact worth of every node of an accepted table, in its grains.
pub fn worths(text: &[u8], table: &Table) -> Vec<i64> {
    let lines = text.as_chunks::<LINE>().0;
    let mut below = Vec::with_capacity(text.len());
    let worth = |node: usize| match table.nodes[node].kind {
        Kind::Leaf => table.nodes[node].utility.expect("a leaf has one") * table.per_point,
        _ => {
            write(&mut below, lines, table, node);
            let worth = exact_worth(&below).expect("what is under a node is a table");
            worth.grains * (table.per_point / worth.per_point)
        }
    };
    (0..table.nodes.len()).map(worth).collect()
}

/// Writes the table under a node: its lines, the nodes numbered from 0. The header
/// and all else stay as they are.
fn write(below: &mut Vec<u8>, lines: &[[u8; LINE]], table: &Table, root: usize) {
    let stop = table.nodes[root].stop;
    below.clear();
    let mut header = lines[0];
    number(&mut header[0..4], stop - root);
    below.extend(header);
    for node in root..stop {
        let mut line = lines[1 + node];
        number(&mut line[0..4], node - root);
        match table.nodes[node].parent {
            // The root has neither parent nor weight.
            _ if node == root => line[6..16].fill(b' '),
            Some(parent) => number(&mut line[6..11], parent - root),
            None => {}
        }
        below.extend(line);
    }
}

/// Writes a number right-justified in its columns.
fn number(columns: &mut [u8], mut number: usize) {
    columns.fill(b' ');
    for column in columns.iter_mut().rev() {
        *column = b'0' + (number % 10) as u8;
        number /= 10;
        if number == 0 {
            break;
        }
    }
}
