//! Rollouts: the refusal and its line, or the worth, the number of leaves read,
//! every entry of the leaf list and every record of the store; and that all else
//! in what was lent is left as it was. What rollouts promise of the exact worth
//! is held to the answers too.

use super::code;
use super::numbers::{agree, ROOM};
use super::seen::Seen;
use super::tally::Tally;
use crate::engine::{self, Record};
use crate::random::Random;
use crate::second::{self, Bounds, Kind, Refusal, Rolled, Table, MOST_NODES};
use crate::texts::examples::escaped;

/// No node has this number, so an entry of a list that was written shows.
pub const LEAF: u16 = 0xa5a5;

/// No node has these bounds, so a record that was written shows.
pub const RECORD: Record = Record {
    low: 0x5a5a_5a5a_5a5a_5a5a,
    high: -0x5a5a_5a5a_5a5a_5a5a,
};

/// Entries kept as a guard after a list and a store lent.
const GUARD: usize = 2;

/// The lengths of what is lent to a call.
#[derive(Clone, Copy, Debug)]
pub struct Rooms {
    pub store: usize,
    pub leaves: usize,
    pub numbers: usize,
}

impl Rooms {
    fn of(table: &Table) -> Rooms {
        Rooms {
            store: table.nodes.len(),
            leaves: table.leaves,
            numbers: ROOM,
        }
    }
}

/// What a call must return and write: the answer, the leaves read, in reading
/// sequence, and the record of each node.
pub struct Expected {
    pub answer: Result<Rolled, Refusal>,
    pub leaves: Vec<u16>,
    pub store: Vec<Record>,
}

impl Expected {
    /// What the second engine says of a table that was read.
    pub fn of(table: &Result<Table, Refusal>, policy: &[u8], rooms: Rooms) -> Expected {
        let table = match table {
            Ok(table) => table,
            Err(refusal) => return Expected::refused(*refusal),
        };
        let mut leaves = vec![LEAF; rooms.leaves];
        let mut store = vec![Bounds { low: 0, high: 0 }; rooms.store];
        match second::rollout(table, policy, &mut store, &mut leaves) {
            Ok(rolled) => {
                leaves.truncate(rolled.read);
                store.truncate(table.nodes.len());
                let store = store
                    .iter()
                    .map(|&Bounds { low, high }| Record { low, high });
                Expected {
                    answer: Ok(rolled),
                    leaves,
                    store: store.collect(),
                }
            }
            Err(refusal) => Expected::refused(refusal),
        }
    }

    /// An answer that is known.
    pub fn known(worth: i64, leaves: &[u16], records: &[(i64, i64)]) -> Expected {
        let store = records.iter().map(|&(low, high)| Record { low, high });
        Expected {
            answer: Ok(Rolled {
                worth,
                read: leaves.len(),
            }),
            leaves: leaves.to_vec(),
            store: store.collect(),
        }
    }

    pub fn refused(refusal: Refusal) -> Expected {
        Expected {
            answer: Err(refusal),
            leaves: Vec::new(),
            store: Vec::new(),
        }
    }
}

/// Holds the proved engine to this, with a list, a store and numbers of these
/// lengths.
pub fn hold_to(tally: &Tally, text: &[u8], policy: &[u8], rooms: Rooms, expected: &Expected) {
    let written = match expected.answer {
        Ok(rolled) => &[rolled.worth, rolled.read as i64][..],
        Err(_) => &[],
    };
    let mut list = vec![LEAF; rooms.leaves + GUARD];
    let mut store = vec![RECORD; rooms.store + GUARD];
    let asked = format_args!("the rollouts with {rooms:?} by policy {policy:?}");
    let returned = (code(&expected.answer), written);
    agree(tally, text, asked, rooms.numbers, returned, |lent| {
        let store = &mut store[..rooms.store];
        engine::rollout(text, policy, store, &mut list[..rooms.leaves], lent)
    });
    let place = || {
        let (place, text) = (tally.place(), escaped(text));
        format!("{place}: the engines differ on {asked}\ntext:\n{text}")
    };
    let (read, rest) = list.split_at(expected.leaves.len());
    if read != expected.leaves || rest.iter().any(|&entry| entry != LEAF) {
        panic!(
            "{}leaves: expected {:?}, then {LEAF} for each entry left alone\ngot {list:?}",
            place(),
            expected.leaves,
        );
    }
    let (records, rest) = store.split_at(expected.store.len());
    if records != expected.store || rest.iter().any(|&record| record != RECORD) {
        panic!(
            "{}store: expected {:?}, then {RECORD:?} for each record left alone\ngot {store:?}",
            place(),
            expected.store,
        );
    }
}

/// Compares the two engines on texts and policies.
pub struct Comparison {
    pub tally: Tally,
    pub seen: Seen,
    /// Policies compared so far; it sets the lengths lent next.
    turn: usize,
}

impl Comparison {
    pub fn new(name: &'static str) -> Comparison {
        Comparison {
            tally: Tally::new(name),
            seen: Seen::default(),
            turn: 0,
        }
    }

    /// Gives a text to both engines with each of these policies. Fails the test
    /// unless the engines agree and the answers keep what rollouts promise.
    pub fn hold(&mut self, text: &[u8], policies: &[Vec<u8>]) -> Result<Table, Refusal> {
        let table = second::read(text);
        let mut codes = Vec::with_capacity(2 * policies.len());
        for policy in policies {
            for rooms in self.rooms(table.as_ref().ok()) {
                let expected = Expected::of(&table, policy, rooms);
                hold_to(&self.tally, text, policy, rooms, &expected);
                codes.push(code(&expected.answer));
                let Ok(table) = &table else {
                    continue;
                };
                self.add_rooms(table, rooms);
                if expected.answer.is_ok() {
                    keeps_its_promises(table, &expected);
                    self.add_answer(table, policy, &expected);
                }
            }
        }
        self.tally.add(&codes);
        if let Ok(table) = &table {
            self.tally.add_table(table);
            if table.chances == 0 {
                self.seen.count_table(table);
                let roots = [Kind::Max, Kind::Min, Kind::Leaf];
                self.seen.count_root(&roots, table);
            }
        }
        table
    }

    /// The lengths to lend, by turns: exactly what the table needs or more; and
    /// in some turns too few entries in the list, the store or both, or fewer
    /// numbers.
    fn rooms(&mut self, table: Option<&Table>) -> Vec<Rooms> {
        self.turn += 1;
        let turn = self.turn;
        let Some(table) = table else {
            return vec![Rooms {
                store: [0, 1, MOST_NODES][turn % 3],
                leaves: [0, 1, MOST_NODES][turn / 3 % 3],
                numbers: turn % (ROOM + 1),
            }];
        };
        let exact = Rooms::of(table);
        let fewer = turn / 8 % ROOM;
        let with = |store, leaves, numbers| Rooms {
            store,
            leaves,
            numbers,
        };
        let Rooms { store, leaves, .. } = exact;
        match turn % 8 {
            0 => vec![exact, with(store - 1, leaves, ROOM)],
            1 => vec![exact, with(store, leaves - 1, ROOM)],
            2 => vec![with(store + 1, leaves, ROOM)],
            3 => vec![with(store, leaves + 1, ROOM)],
            4 => vec![with(MOST_NODES, MOST_NODES, ROOM)],
            5 => vec![with(store + 2, leaves + 3, fewer)],
            6 => vec![
                with(store, leaves, fewer),
                with(store / 2, leaves / 2, fewer),
            ],
            _ => vec![exact, with(store - 1, leaves + 1, fewer)],
        }
    }

    fn add_rooms(&mut self, table: &Table, rooms: Rooms) {
        if table.chances > 0 {
            return;
        }
        let (nodes, leaves) = (table.nodes.len(), table.leaves);
        let seen = &mut self.seen;
        seen.count("store exact", rooms.store == nodes);
        seen.count("store longer", rooms.store > nodes);
        seen.count(
            "store too short by one, list not",
            rooms.store + 1 == nodes && rooms.leaves >= leaves,
        );
        seen.count("list exact", rooms.leaves == leaves);
        seen.count("list longer", rooms.leaves > leaves);
        seen.count(
            "list too short by one, store not",
            rooms.leaves + 1 == leaves && rooms.store >= nodes,
        );
        seen.count("fewer numbers than two", rooms.numbers < 2);
    }

    fn add_answer(&mut self, table: &Table, policy: &[u8], expected: &Expected) {
        let leaves = &expected.leaves;
        let seen = &mut self.seen;
        seen.count("policy empty", policy.is_empty());
        seen.count("policy not empty", !policy.is_empty());
        seen.count("no leaf read", leaves.is_empty());
        seen.count("all leaves read", leaves.len() == table.leaves);
        let some = !leaves.is_empty() && leaves.len() < table.leaves;
        seen.count("some leaves read", some);
        let in_order = leaves.is_sorted();
        seen.count("several leaves in line order", leaves.len() > 1 && in_order);
        seen.count("leaves not in line order", !in_order);
        let inner = |(node, _): &(&second::Node, &Record)| node.kind != Kind::Leaf;
        let records = || table.nodes.iter().zip(&expected.store).skip(1);
        let part = |record: &Record| {
            record.low < record.high && (record.low, record.high) != (table.lowest, table.highest)
        };
        let partly = records().filter(inner).any(|(_, record)| part(record));
        seen.count("an inner node left open and not untouched", partly);
    }
}

/// The worth is the exact worth, and every record's bounds are about the exact
/// worth of its node. The leaves read are leaves, each once; their records are
/// closed, and those of the other leaves are the ends. Every inner node's record
/// is what its children's make it.
fn keeps_its_promises(table: &Table, expected: &Expected) {
    let worths = second::worths(table);
    let rolled = expected.answer.expect("an answer");
    assert_eq!(rolled.worth, worths[0]);
    assert_eq!(rolled.read, expected.leaves.len());

    let mut read = vec![false; table.nodes.len()];
    for &leaf in &expected.leaves {
        assert_eq!(table.nodes[leaf as usize].kind, Kind::Leaf);
        assert!(!read[leaf as usize], "leaf {leaf} is read twice");
        read[leaf as usize] = true;
    }

    let mut coherent = expected.store.clone();
    for (i, node) in table.nodes.iter().enumerate() {
        coherent[i] = match node.kind {
            Kind::Leaf if read[i] => Record {
                low: worths[i],
                high: worths[i],
            },
            Kind::Leaf => Record {
                low: table.lowest,
                high: table.highest,
            },
            Kind::Max => Record {
                low: i64::MIN,
                high: i64::MIN,
            },
            _ => Record {
                low: i64::MAX,
                high: i64::MAX,
            },
        };
    }
    for (i, node) in table.nodes.iter().enumerate().rev() {
        let child = coherent[i];
        assert!(child.low <= worths[i] && worths[i] <= child.high);
        let Some(parent) = node.parent else {
            continue;
        };
        let above = &mut coherent[parent];
        if table.nodes[parent].kind == Kind::Max {
            above.low = above.low.max(child.low);
            above.high = above.high.max(child.high);
        } else {
            above.low = above.low.min(child.low);
            above.high = above.high.min(child.high);
        }
    }
    assert_eq!(expected.store, coherent);
    assert_eq!(coherent[0].low, coherent[0].high);
}

/// Policies: none, and a few of all sorts.
pub fn policies(random: &mut Random) -> Vec<Vec<u8>> {
    let mut policies = vec![Vec::new()];
    let any = |random: &mut Random, most: usize| -> Vec<u8> {
        let length = 1 + random.below(most);
        (0..length).map(|_| random.bits() as u8).collect()
    };
    policies.push(any(random, 8));
    policies.push(any(random, 400));
    let length = random.pick(&[1, 2, 63, 64, 1_000, 70_000]);
    policies.push(match random.below(6) {
        0 => vec![0; length],
        1 | 2 => vec![255; length],
        3 => (0..length).map(|_| random.below(3) as u8).collect(),
        4 => vec![random.bits() as u8; length],
        _ => any(random, 5_000),
    });
    policies
}
