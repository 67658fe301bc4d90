//! Positions whose loss is known and seldom a whole number of thousandths.

use super::Position;
use crate::texts::draft::Draft;

/// A loss of `points` × (`weight` / `total`) to the power `chances`, of either
/// side.
#[derive(Clone, Copy, Debug)]
pub struct Loss {
    pub side: u8,
    pub points: i64,
    pub total: i64,
    /// Less than `total`.
    pub weight: i64,
    pub chances: u32,
}

impl Loss {
    /// The loss in thousandths over this number of grains in a point.
    pub fn fraction(&self) -> (i64, i64) {
        let loss = self.points * self.weight.pow(self.chances);
        (1_000 * loss, self.total.pow(self.chances))
    }

    /// The position: a sure best end, and the play, so many C one below the
    /// other. Each leads with `weight` to the next one, the last one to the other
    /// end, and otherwise to the best end.
    pub fn position(&self) -> Position {
        let (best, worst) = match self.side {
            b'M' => (self.points, 0),
            _ => (0, self.points),
        };
        let mut draft = Draft::new(vec![self.total], (0, self.points));
        let root = draft.add(self.side, None, None, None);
        draft.add(b'L', Some(root), None, Some(best));
        let (mut above, mut weight) = (root, None);
        for _ in 0..self.chances {
            let chance = draft.add(b'C', Some(above), weight, None);
            let rest = self.total - self.weight;
            draft.add(b'L', Some(chance), Some(rest), Some(best));
            (above, weight) = (chance, Some(self.weight));
        }
        draft.add(b'L', Some(above), weight, Some(worst));
        Position::new(2, draft.text())
    }
}
