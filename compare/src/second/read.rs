//! Reads a table from its text, or refuses it: refusals 1 to 10, and 18 for its grain
//! count (document 02, Item 5). A number may have zeros before it (Item 9).

use super::table::*;

/// Reads a whole text. The sequence of the checks is document 01's: 1, then the
/// header, then each node line from the top, then 8 and 9 over all nodes; and last 18.
pub fn read(text: &[u8]) -> Result<Table, Refusal> {
    read_up_to(text, MOST_GRAINS)
}

/// The same with another limit of the grain count, or as good as none. It is there for
/// tests to count the tables that such an engine would have answered otherwise.
pub fn read_up_to(text: &[u8], most_grains: i64) -> Result<Table, Refusal> {
    let (lines, rest) = text.as_chunks::<LINE>();
    if !rest.is_empty() || lines.len() < 2 || lines.len() > 1 + MOST_NODES {
        return Err(refusal(1, 0));
    }

    let header = Header::read(&lines[0]).map_err(|number| refusal(number, 0))?;
    if header.count != lines.len() as i64 - 1 {
        return Err(refusal(4, 0));
    }

    let mut reader = Reader::new(header);
    for (node, line) in lines[1..].iter().enumerate() {
        reader
            .line(node, line)
            .map_err(|number| refusal(number, node + 1))?;
    }
    reader.finish(most_grains)
}

fn refusal(number: u8, line: usize) -> Refusal {
    Refusal { number, line }
}

pub(super) struct Header {
    /// The count as it is written, which may be wrong.
    pub count: i64,
    total: i64,
    second: Option<i64>,
    lowest: i64,
    highest: i64,
}

impl Header {
    /// Reads a header, whatever its count: 2, 3.
    pub fn read(line: &[u8; LINE]) -> Result<Header, u8> {
        if line[24] != b'\n' {
            return Err(2);
        }
        let count = number(&line[0..4])?;
        let (total, second) = totals(&line[4..8])?;
        let lowest = number(&line[8..16])?;
        let highest = number(&line[16..24])?;

        let ends = -FARTHEST_END..=FARTHEST_END;
        let totals = 1..=MOST_TOTAL;
        if !totals.contains(&total)
            || second.is_some_and(|second| !totals.contains(&second) || second == total)
            || !ends.contains(&lowest)
            || !ends.contains(&highest)
            || lowest > highest
        {
            return Err(3);
        }
        Ok(Header {
            count,
            total,
            second,
            lowest,
            highest,
        })
    }

    /// The first total, and the second if there is one.
    fn totals(&self) -> impl Iterator<Item = i64> {
        [Some(self.total), self.second].into_iter().flatten()
    }

    /// The greatest weight that any child of a C may have.
    fn larger(&self) -> i64 {
        self.totals().max().expect("there is a first total")
    }
}

/// A node on the path from the root to the line last read.
struct Step {
    node: usize,
    /// Chance nodes on the path down to this node, itself counted.
    chances: usize,
}

/// What is known after some of the node lines.
struct Reader {
    header: Header,
    larger: i64,
    /// Those read, with the sums of the weights of their children so far.
    nodes: Vec<Node>,
    path: Vec<Step>,
    most_chances: usize,
    leaves: usize,
}

impl Reader {
    /// Before the first node line, with a header whose count is right.
    fn new(header: Header) -> Reader {
        let count = header.count as usize;
        Reader {
            nodes: Vec::with_capacity(count),
            path: Vec::with_capacity(LONGEST_PATH),
            most_chances: 0,
            leaves: 0,
            larger: header.larger(),
            header,
        }
    }

    /// Reads the line of `node`: 2, 4, 5, 6, 10, 7, 3.
    fn line(&mut self, node: usize, line: &[u8; LINE]) -> Result<(), u8> {
        if line[4] != b' ' || line[5] == b' ' || line[24] != b'\n' {
            return Err(2);
        }
        let place = number(&line[0..4])?;
        let parent = field(&line[6..11])?;
        let weight = field(&line[11..16])?;
        let utility = field(&line[16..24])?;

        if place != node as i64 {
            return Err(4);
        }

        let kind = match line[5] {
            b'M' => Kind::Max,
            b'N' => Kind::Min,
            b'C' => Kind::Chance,
            b'L' => Kind::Leaf,
            _ => return Err(5),
        };

        let parent = match parent {
            None if node == 0 => None,
            Some(parent) if node > 0 => Some(self.close_down_to(parent, node)?),
            _ => return Err(6),
        };

        let chances =
            self.path.last().map_or(0, |step| step.chances) + usize::from(kind == Kind::Chance);
        if self.path.len() == LONGEST_PATH || chances > MOST_CHANCES {
            return Err(10);
        }

        let under_chance = parent.is_some_and(|p| self.nodes[p].kind == Kind::Chance);
        if weight.is_some() != under_chance || utility.is_some() != (kind == Kind::Leaf) {
            return Err(7);
        }

        let weights = 1..=self.larger;
        let utilities = self.header.lowest..=self.header.highest;
        if weight.is_some_and(|w| !weights.contains(&w))
            || utility.is_some_and(|u| !utilities.contains(&u))
        {
            return Err(3);
        }

        if let (Some(parent), Some(weight)) = (parent, weight) {
            self.nodes[parent].sum += weight;
        }
        self.most_chances = self.most_chances.max(chances);
        self.leaves += usize::from(kind == Kind::Leaf);
        self.path.push(Step { node, chances });
        self.nodes.push(Node {
            kind,
            parent,
            weight,
            utility,
            sum: 0,
            stop: node + 1,
        });
        Ok(())
    }

    /// Takes off the path all nodes below `parent`, whose runs stop at `node`.
    /// Each node is taken off once, so all lines together take linear time.
    fn close_down_to(&mut self, parent: i64, node: usize) -> Result<usize, u8> {
        while let Some(step) = self.path.last() {
            let last = step.node;
            if last as i64 == parent {
                return match self.nodes[last].kind {
                    Kind::Leaf => Err(6),
                    _ => Ok(last),
                };
            }
            self.nodes[last].stop = node;
            self.path.pop();
        }
        Err(6)
    }

    /// Closes the last path, then looks for 8, 9 and 18.
    fn finish(mut self, most_grains: i64) -> Result<Table, Refusal> {
        let count = self.nodes.len();
        for step in &self.path {
            self.nodes[step.node].stop = count;
        }

        let mut nodes = self.nodes.iter().enumerate();
        let childless = nodes.find(|(i, node)| node.kind != Kind::Leaf && node.stop == i + 1);
        if let Some((node, _)) = childless {
            return Err(refusal(8, node + 1));
        }

        let is_total = |sum| self.header.totals().any(|total| total == sum);
        let mut nodes = self.nodes.iter();
        let neither = nodes.position(|node| node.kind == Kind::Chance && !is_total(node.sum));
        if let Some(node) = neither {
            return Err(refusal(9, node + 1));
        }

        let totals = self.header.totals();
        let grains = totals.map(|total| total.pow(most_uses(&self.nodes, total)));
        let grains = grains.product();
        if grains > most_grains {
            return Err(refusal(18, 0));
        }

        Ok(Table {
            total: self.header.total,
            second: self.header.second,
            lowest: self.header.lowest,
            highest: self.header.highest,
            nodes: self.nodes,
            chances: self.most_chances as u32,
            grains,
            leaves: self.leaves,
        })
    }
}

/// The greatest number of C on a path whose weights sum to this total.
fn most_uses(nodes: &[Node], total: i64) -> u32 {
    let mut uses: Vec<u32> = Vec::with_capacity(nodes.len());
    for node in nodes {
        let above = node.parent.map_or(0, |parent| uses[parent]);
        uses.push(above + u32::from(node.sum == total));
    }
    uses.into_iter().max().unwrap_or(0)
}

/// Reads a field that must not be blank.
fn number(columns: &[u8]) -> Result<i64, u8> {
    field(columns)?.ok_or(2)
}

/// Reads columns 5-8 of the header: the first total, and the second if there is one. The
/// second has the first two columns; where they hold blanks or zeros alone there is none,
/// and the first has all four (document 02, Items 5 and 9).
fn totals(columns: &[u8]) -> Result<(i64, Option<i64>), u8> {
    let (left, right) = columns.split_at(2);
    match field(left)? {
        None | Some(0) => Ok((number(columns)?, None)),
        second => Ok((number(right)?, second)),
    }
}

/// Reads a field: blanks, then nothing or a number right-justified. A number is digits, the
/// first of which may be zeros (document 02, Item 9), with a minus directly before them all if
/// it is below zero; anything else is ill-written, a minus before zeros alone too.
pub(super) fn field(columns: &[u8]) -> Result<Option<i64>, u8> {
    let Some(start) = columns.iter().position(|&byte| byte != b' ') else {
        return Ok(None);
    };
    let (negative, digits) = match &columns[start..] {
        [b'-', digits @ ..] => (true, digits),
        digits => (false, digits),
    };
    let mut value = 0;
    for &digit in digits {
        if !digit.is_ascii_digit() {
            return Err(2);
        }
        value = 10 * value + i64::from(digit - b'0');
    }
    match (negative, value) {
        _ if digits.is_empty() => Err(2),
        (true, 0) => Err(2),
        (true, _) => Ok(Some(-value)),
        (false, _) => Ok(Some(value)),
    }
}
