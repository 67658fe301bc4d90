//! Where in a refused table the fault shows. The refusal's number and line are the
//! engine's; this reads the line again to point at its columns, for the eye.

mod grains;
mod position;

pub use position::in_match;

use margin_engine::{FARTHEST_END, LINE, LONGEST_PATH, MOST_CHANCES, MOST_TOTAL, Refusal};

use crate::input::LOOKED_AT;

/// A stretch of columns, counted from 1, and the name of the number there, if one is.
#[derive(Clone, Copy, Debug, PartialEq, Eq)]
pub struct Field {
    pub first: usize,
    pub last: usize,
    name: &'static str,
}

const fn field(first: usize, last: usize, name: &'static str) -> Field {
    Field { first, last, name }
}

const COUNT: Field = field(1, 4, "the count of nodes");
const TOTAL: Field = field(5, 8, "T");
/// Where these columns are neither blank nor 0, T has those after them.
const SECOND: Field = field(5, 6, "the second total");
const TOTAL_AFTER: Field = field(7, 8, "T (columns 7-8, as 5-6 are neither blank nor 0)");
const LOWEST: Field = field(9, 16, "the lowest end");
const HIGHEST: Field = field(17, 24, "the highest end");

const NUMBER: Field = field(1, 4, "the node's number");
const GAP: Field = field(5, 5, "");
const KIND: Field = field(6, 6, "");
const PARENT: Field = field(7, 11, "the parent");
const WEIGHT: Field = field(12, 16, "the weight");
const UTILITY: Field = field(17, 24, "the utility");

const NEWLINE: Field = field(25, 25, "");

/// Of a line that is too long so many columns are shown.
const SHOWN: usize = 40;

/// What to point at.
#[derive(Debug, Default, PartialEq, Eq)]
pub struct Spot {
    /// The line at fault, if there is one, and its number.
    pub line: Option<Line>,
    pub columns: Vec<Field>,
    /// A closer reason than the refusal's own.
    pub reason: Option<&'static str>,
    /// What the reason does not say; empty where it says all.
    pub detail: String,
    /// A better mend than the refusal's own.
    pub mend: Option<&'static str>,
}

/// A line of the text, without its newline.
#[derive(Debug, PartialEq, Eq)]
pub struct Line {
    /// The header's is 0; none for a line that stands before a table.
    pub number: Option<usize>,
    pub bytes: Vec<u8>,
}

impl Line {
    fn of(number: usize, bytes: &[u8]) -> Option<Line> {
        Some(Line {
            number: Some(number),
            bytes: without_newline(bytes).to_vec(),
        })
    }
}

/// The fault of a text that is refused so.
pub fn of(text: &[u8], refusal: &Refusal) -> Spot {
    let lines = text.as_chunks::<LINE>().0;
    let header = lines.first();
    let faults = match (refusal.number, header) {
        (1, _) => return length(text),
        (13, _) => return first_chance(lines),
        (2..=4, Some(header)) if refusal.line == 0 => header_faults(header, refusal.number, lines),
        (2..=10, Some(header)) => Nodes::of(header, lines).faults(refusal.line - 1, refusal.number),
        (18, Some(header)) => return grains::too_many(&Nodes::of(header, lines)),
        _ => return Spot::default(),
    };
    let line = &lines[refusal.line];
    let is_match = refusal.line == 0 && refusal.position == 0 && begins_a_match(line);
    Spot {
        line: Line::of(refusal.line, line),
        reason: header.and_then(|header| closer_reason(refusal.number, header)),
        mend: is_match.then_some(ASK_FOR_A_REPORT),
        ..said(&faults)
    }
}

/// The reason of a wrong sum by how many totals there are.
fn closer_reason(number: u8, header: &[u8; LINE]) -> Option<&'static str> {
    match (number, Totals::of(header).second) {
        (9, None) => Some("the weights under this C do not sum to T"),
        (9, Some(_)) => Some("the weights under this C sum to neither total"),
        _ => None,
    }
}

/// The columns at fault, and what is wrong with each.
type Faults = Vec<(Field, String)>;

/// Faults as they are told, without their line.
fn said(faults: &Faults) -> Spot {
    let said = faults.iter().map(|(_, fault)| fault.as_str());
    let said = said.filter(|fault| !fault.is_empty());
    Spot {
        detail: said.collect::<Vec<_>>().join(", "),
        columns: faults.iter().map(|(field, _)| *field).collect(),
        ..Spot::default()
    }
}

const ASK_FOR_A_REPORT: &str = "if this is a match file, ask `desk report`";

/// Whether a line begins like a match file, with a play number and a newline.
fn begins_a_match(line: &[u8; LINE]) -> bool {
    line[4] == b'\n' && number_fault(&line[..4]).is_none()
}

/// A text whose length is not that of a table.
fn length(text: &[u8]) -> Spot {
    let Some((number, line)) = odd_line(text) else {
        let (detail, mend) = match text.len() {
            0 => ("it is empty", "write a header and a line for each node"),
            1..=LINE => ("it has no node line", "write a line for each node"),
            _ => (
                "it has more than 1,024 node lines",
                "cut the tree down, or divide it at the root",
            ),
        };
        return Spot {
            detail: detail.to_string(),
            mend: Some(mend),
            ..Spot::default()
        };
    };
    let columns = without_newline(line);
    let shown = &columns[..columns.len().min(SHOWN)];
    let marked = match shown.len() {
        24 => NEWLINE,
        short @ 0..24 => field(short + 1, 24, ""),
        long => field(25, long, ""),
    };
    let ended = columns.len() < line.len();
    let goes_on = !ended && text.len() == LOOKED_AT;
    let (fault, mend) = length_fault(number, columns, ended, goes_on);
    Spot {
        line: Line::of(number, shown),
        columns: vec![marked],
        detail: match number {
            0 => format!("the header {fault}"),
            _ => format!("line {number} (the header is line 0) {fault}"),
        },
        mend: Some(mend),
        ..Spot::default()
    }
}

/// What is wrong with a line that has not 24 columns and a newline, and how to mend
/// it. The likeliest cause first.
fn length_fault(
    number: usize,
    columns: &[u8],
    ended: bool,
    goes_on: bool,
) -> (String, &'static str) {
    let fault = |fault: &str, mend| (fault.to_string(), mend);
    if columns.is_empty() {
        return fault("is empty", "delete the empty line");
    }
    if number == 0 && columns.len() == 4 && ended {
        return fault("has 4 columns, like a play number", ASK_FOR_A_REPORT);
    }
    if number == 0 && columns.len() == 14 && ended {
        let mend = "leave out this line, and give the margin after the verb";
        return fault("has 14 columns, like a margin line", mend);
    }
    if columns.len() == LINE && columns.ends_with(b"\r") {
        let mend = "save the file with newlines alone at the ends of its lines";
        return fault("has a carriage return before its newline", mend);
    }
    if columns.starts_with(b"\xef\xbb\xbf") {
        let mend = "save the file without a byte order mark";
        return fault("begins with a byte order mark", mend);
    }
    let bytes = (1..).zip(columns);
    let mut strange = bytes.filter_map(|(column, byte)| Some((column, strange(*byte)?)));
    if let Some((column, (name, mend))) = strange.next() {
        return (format!("has {name} in column {column}"), mend);
    }
    if columns.len() == LINE - 1 {
        return fault("has no newline", "end the last line with a newline");
    }
    if goes_on {
        return fault("is much longer than 24 columns", "cut it to 24 columns");
    }
    let mend = match columns.len() < LINE {
        true => "fill each line with blanks to 24 columns: awk '{ printf \"%-24s\\n\", $0 }'",
        false => "cut it to 24 columns",
    };
    (format!("ends after column {}", columns.len()), mend)
}

/// What a byte is that no table has and an editor may show as another width or not at
/// all, and what to do about it; none for any other byte.
fn strange(byte: u8) -> Option<(&'static str, &'static str)> {
    match byte {
        b' '..=b'~' => None,
        b'\t' => Some(("a tab", "write blanks in place of the tab")),
        b'\r' => Some(("a carriage return", "end each line with a newline alone")),
        128.. => Some(("a character that is not ASCII", "write it in ASCII")),
        _ => Some(("a control character", "take it out")),
    }
}

/// The first line that is not 24 columns and a newline, and its number.
fn odd_line(text: &[u8]) -> Option<(usize, &[u8])> {
    let read_to_its_end = text.len() < LOOKED_AT;
    let mut lines = text.split_inclusive(|byte| *byte == b'\n').enumerate();
    lines.find(|(_, line)| match line.split_last() {
        Some((b'\n', columns)) => columns.len() != LINE - 1,
        // Where the text goes on, its last line may too.
        _ => read_to_its_end || line.len() > LINE - 1,
    })
}

/// The first C of an accepted table.
fn first_chance(lines: &[[u8; LINE]]) -> Spot {
    let chance = lines.iter().skip(1).position(|line| line[5] == b'C');
    let Some(node) = chance else {
        return Spot::default();
    };
    Spot {
        line: Line::of(1 + node, &lines[1 + node]),
        columns: vec![KIND],
        detail: format!("the first is node {node}"),
        ..Spot::default()
    }
}

/// The faults of a header that is refused with this number.
fn header_faults(header: &[u8; LINE], number: u8, lines: &[[u8; LINE]]) -> Faults {
    match number {
        2 => {
            let Totals { total, second } = Totals::of(header);
            let fields = [
                Some(COUNT),
                second,
                Some(total),
                Some(LOWEST),
                Some(HIGHEST),
            ];
            let fields: Vec<Field> = fields.into_iter().flatten().collect();
            let mut faults = ill_written(header, &fields, &[]);
            faults.extend(newline_fault(header));
            faults
        }
        3 => header_range(header),
        _ => {
            let (count, nodes) = (value(header, COUNT), lines.len() - 1);
            vec![(COUNT, format!("it is {count}, and there are {nodes}"))]
        }
    }
}

/// Where the totals of a header stand.
struct Totals {
    total: Field,
    second: Option<Field>,
}

impl Totals {
    fn of(header: &[u8; LINE]) -> Totals {
        match columns(header, SECOND) {
            b"  " | b" 0" | b"00" => Totals {
                total: TOTAL,
                second: None,
            },
            _ => Totals {
                total: TOTAL_AFTER,
                second: Some(SECOND),
            },
        }
    }
}

/// The fields that are ill-written, of those that must hold a number and those that
/// may.
fn ill_written(line: &[u8; LINE], must: &[Field], may: &[Field]) -> Faults {
    let mut faults = Vec::new();
    for &field in must.iter().chain(may) {
        let fault = match blank(line, field) {
            true => must.contains(&field).then(|| "is blank".to_string()),
            false => number_fault(columns(line, field)),
        };
        faults.extend(fault.map(|fault| (field, format!("{} {fault}", field.name))));
    }
    faults
}

/// What is wrong with a field as a number, if something is; a blank one is no number.
fn number_fault(columns: &[u8]) -> Option<String> {
    if let Some((name, _)) = columns.iter().find_map(|byte| strange(*byte)) {
        return Some(format!("has {name}"));
    }
    let start = columns.iter().position(|byte| *byte != b' ');
    let written = &columns[start.unwrap_or(columns.len())..];
    let minus = written.starts_with(b"-");
    let digits = &written[usize::from(minus)..];
    let all = |is_one: fn(&u8) -> bool| !digits.is_empty() && digits.iter().all(is_one);
    let fault = match digits {
        [.., b' '] => "is not right-justified",
        [b'+', ..] => "has a plus",
        [b' ', ..] => "has a blank after its minus",
        _ if minus && all(|byte| *byte == b'0') => "is minus zero",
        _ if all(u8::is_ascii_digit) => return None,
        _ if all(|byte| *byte == b' ' || byte.is_ascii_digit()) => "has a blank within",
        _ => "is no number",
    };
    Some(fault.to_string())
}

fn newline_fault(line: &[u8; LINE]) -> Option<(Field, String)> {
    let fault = match line[LINE - 1] {
        b'\n' => return None,
        b'\r' => "a carriage return stands where the newline should",
        _ => "the newline is missing in column 25",
    };
    Some((NEWLINE, fault.to_string()))
}

/// The numbers of a header that are out of range.
fn header_range(header: &[u8; LINE]) -> Faults {
    let Totals { total, second } = Totals::of(header);
    let [t, lowest, highest] = [total, LOWEST, HIGHEST].map(|field| value(header, field));
    let mut faults = Vec::new();
    if let Some(second) = second {
        let fault = match value(header, second) {
            1..=MOST_TOTAL if value(header, second) != t => None,
            1..=MOST_TOTAL => Some("is the same as T".to_string()),
            _ => Some(format!("is not 1 to {MOST_TOTAL}")),
        };
        faults.extend(fault.map(|fault| (second, format!("{} {fault}", second.name))));
    }
    if !(1..=MOST_TOTAL).contains(&t) {
        faults.push((total, format!("T is not 1 to {MOST_TOTAL}")));
    }
    for (end, value) in [(LOWEST, lowest), (HIGHEST, highest)] {
        if value.abs() > FARTHEST_END {
            faults.push((end, format!("{} is more than 1,000,000 from 0", end.name)));
        } else if lowest > highest {
            let told = "the lowest end is above the highest";
            let fault = if end == LOWEST { told } else { "" };
            faults.push((end, fault.to_string()));
        }
    }
    faults
}

/// The node lines of a text with this header. All before the one at fault are right.
struct Nodes<'a> {
    header: &'a [u8; LINE],
    lines: &'a [[u8; LINE]],
}

impl<'a> Nodes<'a> {
    /// Of these lines the first is the header.
    fn of(header: &'a [u8; LINE], lines: &'a [[u8; LINE]]) -> Nodes<'a> {
        Nodes {
            header,
            lines: &lines[1..],
        }
    }

    /// T, and the second total if there is one.
    fn totals(&self) -> (i64, Option<i64>) {
        let Totals { total, second } = Totals::of(self.header);
        let value = |field| value(self.header, field);
        (value(total), second.map(value))
    }

    /// The faults of a node's line that is refused with this number.
    fn faults(&self, node: usize, number: u8) -> Faults {
        let line = &self.lines[node];
        match number {
            2 => self.ill_written(line),
            3 => self.range(line),
            4 => {
                let number = value(line, NUMBER);
                vec![(NUMBER, format!("it is {number} and should be {node}"))]
            }
            5 => vec![(KIND, format!("it is `{}`", printable(columns(line, KIND))))],
            6 => vec![(PARENT, self.parent_fault(node))],
            7 => self.missing(node),
            8 => vec![(KIND, String::new())],
            9 => {
                let sum = self.sums()[node];
                let fault = match self.totals() {
                    (total, None) => format!("they sum to {sum}, and T is {total}"),
                    (total, Some(second)) => {
                        format!("they sum to {sum}, and the totals are {total} and {second}")
                    }
                };
                vec![(KIND, fault)]
            }
            _ => self.path_faults(node),
        }
    }

    fn ill_written(&self, line: &[u8; LINE]) -> Faults {
        let mut faults = ill_written(line, &[NUMBER], &[PARENT, WEIGHT, UTILITY]);
        if line[4] != b' ' {
            faults.push((GAP, "column 5 is not blank".to_string()));
        }
        if line[5] == b' ' {
            faults.push((KIND, "the kind is blank".to_string()));
        }
        faults.extend(newline_fault(line));
        faults.sort_by_key(|(field, _)| field.first);
        faults
    }

    /// The weight or the utility that is out of range.
    fn range(&self, line: &[u8; LINE]) -> Faults {
        let [lowest, highest] = [LOWEST, HIGHEST].map(|field| value(self.header, field));
        let (total, second) = self.totals();
        let larger = second.map_or(total, |second| second.max(total));
        let mut faults = Vec::new();
        if !blank(line, WEIGHT) && !(1..=larger).contains(&value(line, WEIGHT)) {
            faults.push((WEIGHT, format!("the weight is not 1 to {larger}")));
        }
        if !blank(line, UTILITY) && !(lowest..=highest).contains(&value(line, UTILITY)) {
            let fault = format!("the utility is outside the ends {lowest} and {highest}");
            faults.push((UTILITY, fault));
        }
        faults
    }

    fn parent_fault(&self, node: usize) -> String {
        let line = &self.lines[node];
        if node == 0 {
            return "node 0 has none".to_string();
        }
        if blank(line, PARENT) {
            return "it is missing".to_string();
        }
        let parent = value(line, PARENT);
        match usize::try_from(parent) {
            Ok(above) if above >= node => format!("node {parent} does not come before this one"),
            Ok(above) if self.kind(above) == b'L' => format!("node {parent} is a leaf"),
            Ok(_) => format!("other nodes than those under node {parent} stand between"),
            Err(_) => format!("there is no node {parent}"),
        }
    }

    /// The weight or the utility that is missing or one too many.
    fn missing(&self, node: usize) -> Faults {
        let line = &self.lines[node];
        let parent = self.parent(node);
        let under_chance = parent.is_some_and(|above| self.kind(above) == b'C');
        let leaf = self.kind(node) == b'L';
        let mut faults = Vec::new();
        if blank(line, WEIGHT) == under_chance {
            let fault = match under_chance {
                true => "a child of a C needs a weight",
                false => "only the children of a C have a weight",
            };
            faults.push((WEIGHT, fault.to_string()));
        }
        if blank(line, UTILITY) == leaf {
            let fault = match leaf {
                true => "a leaf needs a utility",
                false => "only a leaf has a utility",
            };
            faults.push((UTILITY, fault.to_string()));
        }
        faults
    }

    /// The sum of the weights under each node, of lines that are all right.
    fn sums(&self) -> Vec<i64> {
        let mut sums = vec![0; self.lines.len()];
        for (node, line) in self.lines.iter().enumerate() {
            if let Some(parent) = self.parent(node) {
                sums[parent] += value(line, WEIGHT);
            }
        }
        sums
    }

    fn path_faults(&self, node: usize) -> Faults {
        let path = || std::iter::successors(Some(node), |node| self.parent(*node));
        let chances = path().filter(|node| self.kind(*node) == b'C').count();
        let mut faults = Vec::new();
        if chances > MOST_CHANCES {
            faults.push((KIND, "it is the fifth C on its path".to_string()));
        }
        if path().count() > LONGEST_PATH {
            faults.push((PARENT, "it is the 65th node on its path".to_string()));
        }
        faults
    }

    fn parent(&self, node: usize) -> Option<usize> {
        let line = &self.lines[node];
        (!blank(line, PARENT)).then(|| value(line, PARENT) as usize)
    }

    fn kind(&self, node: usize) -> u8 {
        self.lines[node][5]
    }
}

fn without_newline(line: &[u8]) -> &[u8] {
    line.strip_suffix(b"\n").unwrap_or(line)
}

fn columns(line: &[u8; LINE], field: Field) -> &[u8] {
    &line[field.first - 1..field.last]
}

fn blank(line: &[u8; LINE], field: Field) -> bool {
    columns(line, field).iter().all(|byte| *byte == b' ')
}

/// The number in a field that is well-written.
fn value(line: &[u8; LINE], field: Field) -> i64 {
    number(columns(line, field))
}

/// The number in columns that are well-written, whatever blanks and zeros stand before it.
fn number(columns: &[u8]) -> i64 {
    printable(columns).trim().parse().unwrap_or_default()
}

/// Bytes as a terminal can show them: what it might obey, or cannot show, as `?`.
pub fn printable(bytes: &[u8]) -> String {
    let shown = |byte: &u8| match byte {
        b' '..=b'~' => char::from(*byte),
        _ => '?',
    };
    bytes.iter().map(shown).collect()
}
