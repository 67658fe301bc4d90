//! Tables by recipe (document 02, Item 7): the refusal, or every byte of the text and how
//! many there are; that all else in what was lent is left as it was; and that the table is
//! what closed formulas say.

use super::code;
use super::numbers::{agree, ROOM};
use super::reading;
use super::seen::Seen;
use super::tally::Tally;
use crate::engine;
use crate::random::Random;
use crate::second::{self, Kind, Recipe, Refusal, Table, LINE, MOST_NODES};
use crate::texts::examples::escaped;

/// The length of the longest text.
pub const LONGEST: usize = LINE * (1 + MOST_NODES);

/// No text has this byte in it.
const PATTERN: u8 = 0xa5;

/// Kept as a guard after a buffer lent.
const GUARD: [u8; 8] = [PATTERN; 8];

/// What is lent to a call: a buffer that holds this, and so many numbers.
pub struct Lent<'a> {
    pub buffer: &'a [u8],
    pub numbers: usize,
}

/// Holds the proved engine to this text or refusal.
pub fn hold_to(tally: &Tally, recipe: Recipe, lent: &Lent, expected: &Result<&[u8], Refusal>) {
    let room = lent.buffer.len();
    let kept = [lent.buffer, &GUARD].concat();
    let mut buffer = kept.clone();
    let text = expected.unwrap_or_default();
    let written = [text.len() as i64];
    let written = if expected.is_ok() { &written[..] } else { &[] };
    let asked = format_args!("{recipe:?} in a buffer of {room} bytes");
    let returned = (code(expected), written);
    agree(tally, text, asked, lent.numbers, returned, |numbers| {
        engine::recipe(recipe, &mut buffer[..room], numbers)
    });
    let (got, rest) = buffer.split_at(text.len());
    if got != text || rest != &kept[text.len()..] {
        panic!(
            "{}: the engines differ on {asked}\n\
             expected, and all after it left alone:\n{}\
             got:\n{}",
            tally.place(),
            escaped(text),
            escaped(&buffer),
        );
    }
}

/// What a buffer holds before a call. Some of it is much like a text.
pub const FILLS: [fn(&mut Random) -> u8; 5] = [
    |_| PATTERN,
    |_| b' ',
    |_| 0,
    |random| random.pick(b" 0123456789\nMNCL-"),
    |random| random.bits() as u8,
];

/// A buffer of so many bytes.
pub fn buffer(room: usize, fill: fn(&mut Random) -> u8, random: &mut Random) -> Vec<u8> {
    (0..room).map(|_| fill(random)).collect()
}

/// Compares the two engines on recipes.
pub struct Comparison {
    pub tally: Tally,
    pub reading: reading::Comparison,
    /// What the recipes and the calls were like.
    pub seen: Seen,
}

impl Comparison {
    /// The names say what is compared, and that what was written is read.
    pub fn new(name: &'static str, reading: &'static str) -> Comparison {
        Comparison {
            tally: Tally::new(name),
            reading: reading::Comparison::new(reading),
            seen: Seen::default(),
        }
    }

    /// The source for one case.
    pub fn case(&self, number: u64) -> Random {
        Random::of_case(self.tally.seed, number)
    }

    /// Gives a recipe to both engines, with each of these buffers and numbers. Fails the
    /// test unless they agree. Where there is a text, both must read it as what closed
    /// formulas say.
    pub fn hold(
        &mut self,
        recipe: Recipe,
        rooms: &[(usize, usize)],
        random: &mut Random,
    ) -> Result<Vec<u8>, Refusal> {
        let mut longest = vec![0; LONGEST];
        let text = second::recipe(recipe, &mut longest).map(|length| {
            longest.truncate(length);
            longest
        });
        let mut codes = Vec::with_capacity(rooms.len());
        for &(room, numbers) in rooms {
            let buffer = buffer(room, random.pick(&FILLS), random);
            let mut seconds = buffer.clone();
            let answer = second::recipe(recipe, &mut seconds);
            let written = answer.map(|length| &seconds[..length]);
            if let (Ok(text), Ok(written)) = (&text, written) {
                assert_eq!(text, written, "another text in another buffer");
            }
            let length = answer.unwrap_or(0);
            assert_eq!(seconds[length..], buffer[length..], "more than the text");
            let buffer = &buffer;
            hold_to(&self.tally, recipe, &Lent { buffer, numbers }, &written);
            codes.push(code(&answer));
            self.count(recipe, room, numbers, &text);
        }
        self.tally.add(&codes);
        if let Ok(text) = &text {
            let table = self.reading.hold(text).expect("a recipe writes a table");
            keeps_to_its_formulas(recipe, &table);
            assert_eq!(Ok(table), recipe.table(), "read otherwise than grown");
        }
        text
    }

    fn count(
        &mut self,
        recipe: Recipe,
        room: usize,
        numbers: usize,
        text: &Result<Vec<u8>, Refusal>,
    ) {
        let seen = &mut self.seen;
        let out = out_of_range(recipe);
        for name in NAMES {
            seen.count(&format!("19 for {name} alone"), out == [name]);
        }
        seen.count("19 for several numbers", out.len() > 1);
        let nodes = out.is_empty() && text.is_err();
        seen.count("19 for the nodes", nodes);
        let short = room < LINE * 2;
        seen.count("19 for a number, and 11 could be", !out.is_empty() && short);
        seen.count("19 for the nodes, and 11 could be", nodes && room < LONGEST);
        let length = text.as_ref().map_or(0, Vec::len);
        let fits = text.is_ok() && room >= length;
        seen.count("11", text.is_ok() && room < length);
        seen.count("11 by one byte", room + 1 == length);
        seen.count("11 by a line", room + LINE == length);
        seen.count("11 in no buffer", text.is_ok() && room == 0);
        seen.count("a buffer that is exact", fits && room == length);
        seen.count("a longer buffer", fits && room > length);
        for (sort, dice) in [("without dice", 0), ("with dice", 1)] {
            let here = fits && recipe.dice == dice;
            seen.count(&format!("a table {sort}"), here);
            let leaf = here && recipe.depth == 0;
            seen.count(&format!("a lone leaf {sort}"), leaf);
        }
        for length in 0..=2 {
            let here = numbers == length;
            seen.count(&format!("room for {length} numbers, a text"), here && fits);
            let refused = here && !fits;
            seen.count(&format!("room for {length} numbers, a refusal"), refused);
        }
    }
}

/// The numbers of a recipe.
const NAMES: [&str; 4] = ["the seed", "the branching number", "the depth", "the dice"];

/// Those that are out of range.
pub fn out_of_range(recipe: Recipe) -> Vec<&'static str> {
    let in_range = [
        u32::try_from(recipe.seed).is_ok_and(|seed| seed >> 31 == 0),
        [2, 3, 4, 5].contains(&recipe.branching),
        u64::try_from(recipe.depth).is_ok_and(|depth| depth < 10),
        recipe.dice == 0 || recipe.dice == 1,
    ];
    let named = NAMES.into_iter().zip(in_range);
    let out = named.filter(|(_, in_range)| !in_range);
    out.map(|(name, _)| name).collect()
}

/// Fails the test unless the table is what Item 7's words make of the recipe, line by line and
/// without recursion.
pub fn keeps_to_its_formulas(recipe: Recipe, table: &Table) {
    let b = recipe.branching;
    let dice = recipe.dice == 1;
    let levels = if dice { 2 * recipe.depth } else { recipe.depth } as u32;
    let total = if dice { 5 * (b - 1) } else { 1 };
    let chances = if dice { recipe.depth as u32 } else { 0 };
    let nodes = (b.pow(levels + 1) - 1) / (b - 1);
    assert_eq!(table.nodes.len() as i64, nodes, "{recipe:?}: nodes");
    assert_eq!(table.leaves as i64, b.pow(levels), "{recipe:?}: leaves");
    assert_eq!((table.total, table.second), (total, None), "{recipe:?}: T");
    assert_eq!((table.lowest, table.highest), (0, 100), "{recipe:?}: ends");
    assert_eq!(table.chances, chances, "{recipe:?}: K");
    assert_eq!(table.grains, total.pow(chances), "{recipe:?}: G");

    // Of each node its level, and its place among its parent's children, from 1.
    let mut levels_of = Vec::with_capacity(table.nodes.len());
    let mut places = vec![0; table.nodes.len()];
    let mut children = vec![0; table.nodes.len()];
    let mut state = recipe.seed as u32;
    for (i, node) in table.nodes.iter().enumerate() {
        let level = node.parent.map_or(0, |parent| levels_of[parent] + 1);
        levels_of.push(level);
        if let Some(parent) = node.parent {
            children[parent] += 1;
            places[i] = children[parent];
        }
        let kind = match (level, dice) {
            _ if level == levels => Kind::Leaf,
            (_, true) if level % 2 == 1 => Kind::Chance,
            (_, true) if level % 4 == 2 => Kind::Min,
            (_, false) if level % 2 == 1 => Kind::Min,
            _ => Kind::Max,
        };
        assert_eq!(node.kind, kind, "{recipe:?}: the kind of node {i}");
        let above = node.parent.filter(|_| dice && level % 2 == 0);
        let weight = above.map(|chance| match places[chance] == places[i] {
            true => 4 * (b - 1),
            false => 1,
        });
        assert_eq!(node.weight, weight, "{recipe:?}: the weight of node {i}");
        // The 31 bits of the state; the utility is of the upper 15.
        let utility = (kind == Kind::Leaf).then(|| {
            state = state.wrapping_mul(0x41c6_4e6d).wrapping_add(0x3039) & 0x7fff_ffff;
            i64::from((state >> 16) % 101)
        });
        assert_eq!(node.utility, utility, "{recipe:?}: the utility of node {i}");
    }
    for (node, children) in table.nodes.iter().zip(children) {
        let wanted = if node.kind == Kind::Leaf { 0 } else { b };
        assert_eq!(children, wanted, "{recipe:?}: children");
    }
}

/// Lengths of buffers around that of a text.
pub fn rooms(length: usize) -> Vec<usize> {
    vec![
        0,
        1,
        length / 2,
        length.saturating_sub(LINE),
        length - 1,
        length,
        length + 1,
        length + LINE,
        LONGEST - 1,
        LONGEST,
        LONGEST + 1,
        LONGEST + 4_000,
    ]
}

/// Numbers to lend: none, one, two, and as many as ever.
pub const NUMBERS: [usize; 4] = [0, 1, 2, ROOM];
