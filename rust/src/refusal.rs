//! What is given in place of an answer.

use std::error::Error;
use std::fmt;

/// A refused call: why, and where. It changed nothing.
///
/// ```
/// let refusal = margin_engine::exact_worth(b"no table").unwrap_err();
/// assert_eq!((refusal.number, refusal.line), (1, 0));
/// assert_eq!(refusal.to_string(), format!("refused 1: {}", refusal.reason()));
/// ```
#[derive(Clone, Copy, Debug, PartialEq, Eq)]
#[non_exhaustive]
pub struct Refusal {
    /// Which refusal, from 1 to 20 or 22. `docs/REFUSALS.md` says all of each.
    pub number: u8,
    /// The line at fault: the header is line 0, and node i is line i + 1. It is 0
    /// for a refusal that no line is to blame for: 1 and those from 11 on.
    pub line: usize,
    /// The position of a match file at fault, from 1; 0 where there is none.
    pub position: usize,
}

impl Refusal {
    /// Why the call was refused, in one line.
    pub fn reason(&self) -> &'static str {
        self.words().0
    }

    /// How to mend it, in one line.
    pub fn mend(&self) -> &'static str {
        self.words().1
    }

    /// Whether a line of the table is at fault, and not the length of the whole or
    /// what was asked.
    pub fn has_line(&self) -> bool {
        (2..=10).contains(&self.number)
    }

    fn words(&self) -> (&'static str, &'static str) {
        match self.number {
            1 => (
                "the text is not a header and 1 to 1,024 node lines, 25 bytes each",
                "write 24 columns and one newline for each line, blanks at its end too",
            ),
            2 => match self.line {
                0 => (
                    "the header is ill-written",
                    "right-justify each number, with nothing but blanks and then zeros before it, a minus before the zeros: columns 1-4, 5-8 (with a second total 5-6 and 7-8), 9-16, 17-24, then a newline",
                ),
                _ => (
                    "the line is ill-written",
                    "right-justify each number, with nothing but blanks and then zeros before it, a minus before the zeros; column 5 is blank, 6 the kind, 25 the newline",
                ),
            },
            3 => (
                "a number is out of range",
                "correct the number; T and a second total are 1 to 64 and differ, an end is at most 1,000,000 from 0, a weight 1 to the larger total, a utility between the ends",
            ),
            4 if self.line == 0 && self.position > 0 => (
                "the header's count is not 1 to 1,024",
                "write the number of node lines in columns 1-4",
            ),
            4 => match self.line {
                0 => (
                    "the header's count is not the number of node lines",
                    "write the number of node lines in columns 1-4",
                ),
                _ => (
                    "the node's number is not its place",
                    "number the nodes from 0 in the order of their lines",
                ),
            },
            5 => (
                "there is no such kind",
                "write M, N, C or L in column 6, as a capital letter",
            ),
            6 => (
                "the parent is wrong",
                "name the node directly before or one above that, none for node 0; a node's children follow it, each with all that is under it",
            ),
            7 => (
                "a weight or a utility is missing, or stands where there is none",
                "give each child of a C a weight and each leaf a utility, and nothing to others",
            ),
            8 => (
                "the node is no leaf and has no child",
                "give it a child, or make it a leaf",
            ),
            9 => (
                "the weights under this C do not sum to T, nor to a second total",
                "correct the weights of its children",
            ),
            10 => (
                "the path from the root is too long, or has too many C",
                "end the path with a leaf after 64 nodes or 4 C at most",
            ),
            11 => (
                "what was lent is too short",
                "lend as many entries as the table has nodes or the match positions, and a buffer as long as the text",
            ),
            12 => (
                "the margin is not 0 to 40,000,000,000,000 grains",
                "give a margin in this range",
            ),
            13 => (
                "rollouts take no table with a C",
                "search it, or take its exact worth",
            ),
            14 => (
                "the root has no child of that number",
                "count the root's children from 1, in the order of their lines",
            ),
            15 => (
                "the file has more than 500 positions, and the 501st begins here",
                "divide the match into files of at most 500 positions",
            ),
            16 => (
                "the play-number line is ill-written, or the file ends in this position",
                "write the play number right-justified in 4 columns and a newline, then all lines of its table",
            ),
            17 => (
                "the budget is not 0 to 1,024 leaves",
                "give a budget in this range",
            ),
            18 => (
                "the grain count would be above 16,777,216",
                "put fewer C of one of the totals on a path, or take a smaller total",
            ),
            19 => (
                "a number of the recipe is out of range, or its table would have more than 1,024 nodes",
                "give a seed from 0 to 2,147,483,647, a branching number from 2 to 5 and a depth from 0 to 9; where there would be too many nodes, a lesser depth",
            ),
            20 => (
                "there is no marking scale of that number",
                "give 1, the scale of books in print, or 2, that of new books",
            ),
            22 => (
                "the index has fewer entries than the table has nodes, or is not this table's own",
                "build the index from this very text again",
            ),
            _ => ("the engine gave no known number", "report this"),
        }
    }
}

impl fmt::Display for Refusal {
    fn fmt(&self, f: &mut fmt::Formatter) -> fmt::Result {
        write!(f, "refused {}", self.number)?;
        if self.position > 0 {
            write!(f, " in position {}", self.position)?;
        }
        if self.has_line() {
            write!(f, " at line {}", self.line)?;
        }
        write!(f, ": {}", self.reason())
    }
}

impl Error for Refusal {}

/// What a C call returned: an answer, or 1,000,000 times the position, plus 100
/// times the line, plus the number.
pub(crate) fn answered(code: u64) -> Result<(), Refusal> {
    match code {
        0 => Ok(()),
        _ => Err(Refusal {
            number: (code % 100) as u8,
            line: (code / 100 % 10_000) as usize,
            position: (code / 1_000_000) as usize,
        }),
    }
}

#[cfg(test)]
mod tests {
    use super::answered;

    #[test]
    fn codes_taken_apart() {
        assert_eq!(answered(0), Ok(()));
        for (code, number, line, position) in [
            (309, 9, 3, 0),
            (102_403, 3, 1_024, 0),
            (1_000_016, 16, 0, 1),
            (501_000_015, 15, 0, 501),
            (500_102_403, 3, 1_024, 500),
            (19, 19, 0, 0),
            (20, 20, 0, 0),
            (22, 22, 0, 0),
        ] {
            let refusal = answered(code).expect_err("refused");
            let taken = (refusal.number, refusal.line, refusal.position);
            assert_eq!(taken, (number, line, position), "{code}");
        }
    }
}
