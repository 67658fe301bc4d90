//! All small tables over a few entries.

/// The utilities to choose from.
#[derive(Clone, Copy)]
pub enum Utilities {
    /// One of these or none, whatever the kind.
    Any(&'static [&'static str]),
    /// One of these on a leaf, none elsewhere.
    OnLeaves(&'static [&'static str]),
}

/// Writes one node line with every choice of these entries; the weight is
/// none, 1 or 2.
pub fn lines(node: usize, kinds: &[&str], parents: &[&str], utilities: Utilities) -> Vec<String> {
    let mut lines = Vec::new();
    for kind in kinds {
        let (blank, written) = match utilities {
            Utilities::Any(written) => (true, written),
            Utilities::OnLeaves(written) if *kind == "L" => (false, written),
            Utilities::OnLeaves(_) => (true, &[][..]),
        };
        let utilities = blank.then_some(&"").into_iter().chain(written);
        for parent in parents {
            for weight in ["", "1", "2"] {
                for utility in utilities.clone() {
                    lines.push(format!(
                        "{node:>4} {kind}{parent:>5}{weight:>5}{utility:>8}\n"
                    ));
                }
            }
        }
    }
    lines
}

/// The node lines of every table of up to six nodes over a few entries, with
/// earlier nodes as parents and one of these utilities on each leaf.
pub fn six_nodes(utilities: &'static [&'static str]) -> [Vec<String>; 6] {
    const KINDS: &[&str] = &["M", "N", "C", "L"];
    let utilities = Utilities::OnLeaves(utilities);
    [
        lines(0, KINDS, &[""], utilities),
        lines(1, KINDS, &["0"], utilities),
        lines(2, KINDS, &["0", "1"], utilities),
        lines(3, KINDS, &["0", "1", "2"], utilities),
        lines(4, KINDS, &["0", "1", "2", "3"], utilities),
        // Any other kind in the last line would have no child.
        lines(5, &["L"], &["0", "1", "2", "3", "4"], utilities),
    ]
}

/// Hands on every text with T 2, these ends, and one node or more, each with
/// one of its lines. Where `hand_on` returns false, the longer texts that begin
/// with the same node lines are left out.
pub fn for_each(ends: (i64, i64), nodes: &[Vec<String>], hand_on: &mut dyn FnMut(&[u8]) -> bool) {
    for_each_of("   2", ends, nodes, hand_on);
}

/// The same with these totals in columns 5-8 in place of T 2.
pub fn for_each_of(
    totals: &str,
    ends: (i64, i64),
    nodes: &[Vec<String>],
    hand_on: &mut dyn FnMut(&[u8]) -> bool,
) {
    let (lowest, highest) = ends;
    let header = format!("{totals}{lowest:>8}{highest:>8}");
    extend("", 0, &header, nodes, hand_on);
}

/// Adds each choice of the next line to the lines before, then of the others. The header is
/// given without its count.
fn extend(
    before: &str,
    nodes: usize,
    header: &str,
    others: &[Vec<String>],
    hand_on: &mut dyn FnMut(&[u8]) -> bool,
) {
    let Some((lines, others)) = others.split_first() else {
        return;
    };
    let nodes = nodes + 1;
    for line in lines {
        let longer = format!("{before}{line}");
        let text = format!("{nodes:>4}{header}\n{longer}");
        if hand_on(text.as_bytes()) {
            extend(&longer, nodes, header, others, hand_on);
        }
    }
}
