//! The marks of losses, by a marking scale (document 02, Item 11).

/// A mark, the milder before the harder.
#[derive(Clone, Copy, Debug, PartialEq, Eq, PartialOrd, Ord)]
pub enum Mark {
    NoMark,
    Doubtful,
    Error,
    Blunder,
}

pub const MARKS: [Mark; 4] = [Mark::NoMark, Mark::Doubtful, Mark::Error, Mark::Blunder];

/// The steps of the scale with this number: the least losses, in thousandths, that
/// are doubtful, an error and a blunder. None where there is no such scale.
pub fn steps(scale: i64) -> Option<[i64; 3]> {
    match scale {
        1 => Some([40, 80, 160]),
        2 => Some([20, 50, 100]),
        _ => None,
    }
}

/// The mark of a loss in thousandths: it goes up by one at each step reached.
pub fn mark(steps: [i64; 3], loss: i64) -> Mark {
    let reached = steps.iter().filter(|&&step| loss >= step);
    MARKS[reached.count()]
}
