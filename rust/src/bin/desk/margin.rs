//! Numbers as people write them, and margins: in points, or in grains with a `g`.

/// A whole number, and the word that was written for it.
#[derive(Clone, Debug, PartialEq, Eq)]
pub struct Number {
    pub value: i64,
    pub word: String,
}

impl Number {
    /// Reads a whole number, with a minus or without. One past the range of an i64
    /// counts as its end, which is no number of a child or of a recipe, no scale and no
    /// budget either.
    pub fn parse(word: &str) -> Option<Number> {
        let value = whole_number(word)?;
        let word = word.to_string();
        Some(Number { value, word })
    }
}

impl From<i64> for Number {
    fn from(value: i64) -> Number {
        let word = value.to_string();
        Number { value, word }
    }
}

/// A margin, and the word that was written for it.
#[derive(Clone, Debug, PartialEq, Eq)]
pub struct Margin {
    size: Size,
    pub word: String,
}

/// How much a margin is.
#[derive(Clone, Debug, PartialEq, Eq)]
enum Size {
    Grains(i64),
    Points {
        below_zero: bool,
        whole: i64,
        /// The digits behind the point.
        decimals: Vec<u8>,
    },
}

impl Margin {
    /// Reads `3`, `0.05`, `.05`, `-1` or `12g`; none for anything else. A number past the
    /// range of an i64 counts as its end, which is no margin either.
    pub fn parse(word: &str) -> Option<Margin> {
        let size = Size::parse(word)?;
        let word = word.to_string();
        Some(Margin { size, word })
    }

    /// The margin in grains: points times G, rounded down.
    pub fn grains(&self, per_point: i64) -> i64 {
        self.size.grains(per_point)
    }
}

impl Size {
    fn parse(word: &str) -> Option<Size> {
        if let Some(grains) = word.strip_suffix('g') {
            return whole_number(grains).map(Size::Grains);
        }
        let (below_zero, size) = signed(word);
        let (whole, decimals) = size.split_once('.').unwrap_or((size, ""));
        let (whole, decimals) = (digits(whole)?, digits(decimals)?);
        let written = !whole.is_empty() || !decimals.is_empty();
        written.then(|| Size::Points {
            below_zero,
            whole: value(&whole),
            decimals,
        })
    }

    fn grains(&self, per_point: i64) -> i64 {
        match self {
            Size::Grains(grains) => *grains,
            Size::Points {
                below_zero,
                whole,
                decimals,
            } => {
                let (down, exact) = part(decimals, per_point);
                let grains = whole.saturating_mul(per_point).saturating_add(down);
                match below_zero {
                    false => grains,
                    true => -grains.saturating_add(i64::from(!exact)),
                }
            }
        }
    }
}

/// 0.ddd times G, rounded down, and whether that is exact. From the last digit to
/// the first, rounding down at each step: the whole number that comes in from the
/// right changes nothing about what is cut off, so the result is rounded once.
fn part(decimals: &[u8], per_point: i64) -> (i64, bool) {
    decimals
        .iter()
        .rev()
        .fold((0, true), |(grains, exact), digit| {
            let tenfold = i64::from(*digit) * per_point + grains;
            (tenfold / 10, exact && tenfold % 10 == 0)
        })
}

/// A whole number with a minus or without; past the range of an i64, its end.
fn whole_number(word: &str) -> Option<i64> {
    let (below_zero, size) = signed(word);
    let digits = digits(size).filter(|digits| !digits.is_empty())?;
    let size = value(&digits);
    Some(if below_zero { -size } else { size })
}

/// Whether a minus stands before a number, and the rest of it.
fn signed(word: &str) -> (bool, &str) {
    match word.strip_prefix('-') {
        Some(size) => (true, size),
        None => (false, word),
    }
}

/// The digits of a word that is nothing else.
fn digits(word: &str) -> Option<Vec<u8>> {
    let digit = |byte: u8| byte.is_ascii_digit().then(|| byte - b'0');
    word.bytes().map(digit).collect()
}

fn value(digits: &[u8]) -> i64 {
    digits.iter().fold(0, |value: i64, digit| {
        value.saturating_mul(10).saturating_add(i64::from(*digit))
    })
}

#[cfg(test)]
mod tests {
    use super::Margin;

    fn grains(word: &str, per_point: i64) -> i64 {
        Margin::parse(word).expect("a margin").grains(per_point)
    }

    #[test]
    fn points_are_rounded_down_to_grains() {
        assert_eq!(grains("3", 4), 12);
        assert_eq!(grains("0.05", 36), 1);
        assert_eq!(grains("0.05", 1296), 64);
        assert_eq!(grains("0.25", 4), 1);
        assert_eq!(grains("0.2499999999999999999999999999", 4), 0);
        assert_eq!(
            grains("0.9999999999999999999999999999", 16_777_216),
            16_777_215
        );
        assert_eq!(grains("12.345", 36), 444);
        assert_eq!(grains(".5", 4), 2);
        assert_eq!(grains("3.", 4), 12);
    }

    #[test]
    fn points_below_zero_are_rounded_down_too() {
        assert_eq!(grains("-1", 4), -4);
        assert_eq!(grains("-0.5", 4), -2);
        assert_eq!(grains("-0.3", 4), -2);
        assert_eq!(grains("-0.0000000000000000000000000001", 4), -1);
        assert_eq!(grains("-0", 4), 0);
    }

    #[test]
    fn grains_are_whole() {
        assert_eq!(grains("12g", 4), 12);
        assert_eq!(grains("-3g", 4), -3);
        assert_eq!(Margin::parse("1.5g"), None);
    }

    #[test]
    fn numbers_past_the_range_stay_past_it() {
        let long = "9".repeat(60);
        assert_eq!(grains(&long, 4), i64::MAX);
        assert_eq!(grains(&format!("{long}g"), 4), i64::MAX);
        assert_eq!(grains(&format!("-{long}.9"), 3), -i64::MAX);
    }

    #[test]
    fn other_words_are_no_margins() {
        for word in [
            "", "-", "g", "-g", ".", "-.", "--3", "+3", "3 ", "1e3", "x", "0x3", "1,5", "1.2.3",
        ] {
            assert_eq!(Margin::parse(word), None, "{word}");
        }
    }
}
