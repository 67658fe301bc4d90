//! Damages drafts and texts, so that each refusal occurs, alone and together
//! with others: then the sequence of the checks decides which one is named.

mod bytes;
mod fields;

pub use bytes::carriage_returns;

use super::draft::Draft;
use super::knobs::Knobs;
use crate::random::Random;
use crate::second::{LINE, LONGEST_PATH, MOST_CHANCES};

/// A damaged text, with one damage or several; several stand in half the cases
/// on the same line.
pub fn damaged(random: &mut Random) -> Vec<u8> {
    let (knobs, least) = match random.below(48) {
        0..=4 => (Knobs::too_deep(random), 0),
        5..=9 => (Knobs::too_chancy(random), 0),
        10 => (Knobs::too_long(random), 0),
        11..=13 => (Knobs::too_grainy(random), 0),
        _ => (Knobs::any(random), 1),
    };
    let mut draft = knobs.draft(random);
    let damages = least
        + match random.below(4) {
            0 | 1 => 0,
            2 => 1,
            _ => 2 + random.below(3),
        };
    let on_text = (0..damages).filter(|_| random.one_in(3)).count();

    let marked = marked_lines(&draft);
    let same = random.one_in(2).then(|| spot(&draft, &marked, random));
    for _ in on_text..damages {
        let at = same.unwrap_or_else(|| spot(&draft, &marked, random));
        random.pick(fields::ON_DRAFT)(&mut draft, at, random);
    }

    let mut text = draft.text();
    for _ in 0..on_text {
        let at = match same {
            Some(node) => node + 1,
            None if random.one_in(4) => 0,
            None => spot(&draft, &marked, random) + 1,
        };
        random.pick(bytes::ON_TEXT)(&mut text, at, random);
    }
    text
}

/// Damages a text at any of its lines.
pub fn damage_text(text: &mut Vec<u8>, random: &mut Random) {
    let at = random.below(1 + text.len() / LINE);
    random.pick(bytes::ON_TEXT)(text, at, random);
}

/// The first of the deepest nodes, and the first of those with the most chance
/// nodes on their path; where a limit is passed, the first node that passes it.
pub fn marked_lines(draft: &Draft) -> [usize; 2] {
    let mut ranks: Vec<(usize, usize)> = Vec::with_capacity(draft.lines.len());
    let mut marked = [0, 0];
    for (i, line) in draft.lines.iter().enumerate() {
        let (depth, chances) = line.parent.map_or((0, 0), |parent| ranks[parent as usize]);
        let chances = chances + usize::from(line.kind == b'C');
        ranks.push((
            (depth + 1).min(LONGEST_PATH + 1),
            chances.min(MOST_CHANCES + 1),
        ));
        if ranks[i].0 > ranks[marked[0]].0 {
            marked[0] = i;
        }
        if ranks[i].1 > ranks[marked[1]].1 {
            marked[1] = i;
        }
    }
    marked
}

/// A node line to damage: any one, or one where the limits are near.
fn spot(draft: &Draft, marked: &[usize; 2], random: &mut Random) -> usize {
    match random.below(8) {
        0 => 0,
        1 => draft.lines.len().saturating_sub(1),
        2..=4 => random.pick(marked),
        _ => random.below(draft.lines.len().max(1)),
    }
}
