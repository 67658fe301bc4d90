//! The C calls as they are, on memory that the caller lends.
//!
//! For callers that want no allocation and for tests. Each call takes slices
//! of any lengths and returns 0, or 100 times the refusal's line plus its
//! number, to which [`report`] adds 1,000,000 times the position; a refused call
//! writes nothing. What is written, and where, stands in
//! `include/margin_engine.h`. Entries past an answer keep what they held.
//!
//! The only `unsafe` of this package is here. All twelve blocks are sound for the
//! same reasons: the declarations are those of the header, and that of the benchmark's
//! call is of `crates/timed`; `Record` has the layout of its struct; each pointer
//! stands with the length of what it points to; it comes from a slice and so is not
//! null; and no slice that a call may write overlaps another, as the borrows show. The
//! engine keeps nothing between calls, so that threads may call it at once, and it
//! never unwinds. A call ran with 51 KB of stack on every table tried; the typed calls
//! lend up to 19 KB of theirs.

#![allow(unsafe_code)]

/// What rollouts know of a node, in grains.
#[repr(C)]
#[derive(Clone, Copy, Debug, Default, PartialEq, Eq)]
pub struct Record {
    /// The worth is at least this.
    pub low: i64,
    /// The worth is at most this.
    pub high: i64,
}

mod abi {
    use super::Record;

    unsafe extern "C" {
        pub fn margin_read(
            text: *const u8,
            text_len: usize,
            numbers: *mut i64,
            numbers_len: usize,
            kind: *mut u8,
            kind_len: usize,
            stop: *mut u16,
            stop_len: usize,
            weight: *mut u8,
            weight_len: usize,
            height: *mut u32,
            height_len: usize,
        ) -> u64;

        pub fn margin_worth(
            text: *const u8,
            text_len: usize,
            numbers: *mut i64,
            numbers_len: usize,
        ) -> u64;

        pub fn margin_judge(
            text: *const u8,
            text_len: usize,
            number: i64,
            numbers: *mut u64,
            numbers_len: usize,
        ) -> u64;

        pub fn margin_search(
            text: *const u8,
            text_len: usize,
            margin: i64,
            leaves: *mut u16,
            leaves_len: usize,
            numbers: *mut i64,
            numbers_len: usize,
        ) -> u64;

        pub fn margin_search_within(
            text: *const u8,
            text_len: usize,
            margin: i64,
            budget: i64,
            leaves: *mut u16,
            leaves_len: usize,
            numbers: *mut i64,
            numbers_len: usize,
        ) -> u64;

        pub fn margin_index(
            text: *const u8,
            text_len: usize,
            lows: *mut i64,
            lows_len: usize,
            highs: *mut i64,
            highs_len: usize,
        ) -> u64;

        pub fn margin_search_indexed(
            text: *const u8,
            text_len: usize,
            margin: i64,
            lows: *const i64,
            lows_len: usize,
            highs: *const i64,
            highs_len: usize,
            leaves: *mut u16,
            leaves_len: usize,
            numbers: *mut i64,
            numbers_len: usize,
        ) -> u64;

        #[cfg(feature = "timed")]
        pub fn margin_search_times(
            text: *const u8,
            text_len: usize,
            margin: i64,
            times: u64,
            leaves: *mut u16,
            leaves_len: usize,
            numbers: *mut i64,
            numbers_len: usize,
        ) -> u64;

        pub fn margin_turn(
            text: *const u8,
            text_len: usize,
            buffer: *mut u8,
            buffer_len: usize,
        ) -> u64;

        pub fn margin_rollout(
            text: *const u8,
            text_len: usize,
            policy: *const u8,
            policy_len: usize,
            store: *mut Record,
            store_len: usize,
            leaves: *mut u16,
            leaves_len: usize,
            numbers: *mut i64,
            numbers_len: usize,
        ) -> u64;

        pub fn margin_report(
            file: *const u8,
            file_len: usize,
            scale: i64,
            kinds: *mut u8,
            kinds_len: usize,
            losses: *mut i64,
            losses_len: usize,
            marks: *mut u8,
            marks_len: usize,
            numbers: *mut i64,
            numbers_len: usize,
        ) -> u64;

        pub fn margin_recipe(
            seed: i64,
            branching: i64,
            depth: i64,
            dice: i64,
            buffer: *mut u8,
            buffer_len: usize,
            numbers: *mut i64,
            numbers_len: usize,
        ) -> u64;
    }
}

/// Reads a table. `numbers`: the number of nodes, T, the lowest end, the highest
/// end, K, G, the number of leaves, the second total (0 for none). The others have an
/// entry for each node: `kind` 0 for L, 1 for M, 2 for N, 3 for C; `stop` one past the
/// last node under it; `weight`, 0 where there is none; `height`, a leaf's utility
/// minus the lowest end, 0 at other nodes.
pub fn read(
    text: &[u8],
    numbers: &mut [i64],
    kind: &mut [u8],
    stop: &mut [u16],
    weight: &mut [u8],
    height: &mut [u32],
) -> u64 {
    unsafe {
        abi::margin_read(
            text.as_ptr(),
            text.len(),
            numbers.as_mut_ptr(),
            numbers.len(),
            kind.as_mut_ptr(),
            kind.len(),
            stop.as_mut_ptr(),
            stop.len(),
            weight.as_mut_ptr(),
            weight.len(),
            height.as_mut_ptr(),
            height.len(),
        )
    }
}

/// The exact worth. `numbers`: the worth in grains, G.
pub fn exact_worth(text: &[u8], numbers: &mut [i64]) -> u64 {
    unsafe {
        abi::margin_worth(
            text.as_ptr(),
            text.len(),
            numbers.as_mut_ptr(),
            numbers.len(),
        )
    }
}

/// Judges the play of the root child with this number, from 1. `numbers`: 1, the loss
/// in grains, the number of level children; or a 0 alone where there is no decision.
pub fn judge(text: &[u8], number: i64, numbers: &mut [u64]) -> u64 {
    unsafe {
        abi::margin_judge(
            text.as_ptr(),
            text.len(),
            number,
            numbers.as_mut_ptr(),
            numbers.len(),
        )
    }
}

/// Searches to this margin, in grains. `numbers`: low, high, the node number of
/// the play (0 for none), the number of leaves read, G, high minus low, and 0 for a
/// budget that is not spent. `leaves`: the node numbers of the leaves read, in
/// reading sequence.
pub fn search(text: &[u8], margin: i64, leaves: &mut [u16], numbers: &mut [i64]) -> u64 {
    unsafe {
        abi::margin_search(
            text.as_ptr(),
            text.len(),
            margin,
            leaves.as_mut_ptr(),
            leaves.len(),
            numbers.as_mut_ptr(),
            numbers.len(),
        )
    }
}

/// Searches to this margin, in grains, with at most so many leaves read, 0 to 1,024.
/// `numbers` and `leaves` as in [`search`]; the last number is 1 where the budget was
/// spent.
pub fn search_within(
    text: &[u8],
    margin: i64,
    budget: i64,
    leaves: &mut [u16],
    numbers: &mut [i64],
) -> u64 {
    unsafe {
        abi::margin_search_within(
            text.as_ptr(),
            text.len(),
            margin,
            budget,
            leaves.as_mut_ptr(),
            leaves.len(),
            numbers.as_mut_ptr(),
            numbers.len(),
        )
    }
}

/// Builds the index of a table. `lows` and `highs` have an entry for each node: the
/// lowest and the highest utility, in points, among the leaves under it. The entries
/// of leaves are not written.
pub fn index(text: &[u8], lows: &mut [i64], highs: &mut [i64]) -> u64 {
    unsafe {
        abi::margin_index(
            text.as_ptr(),
            text.len(),
            lows.as_mut_ptr(),
            lows.len(),
            highs.as_mut_ptr(),
            highs.len(),
        )
    }
}

/// Searches to this margin, in grains, with the table's index as [`index`] builds it;
/// the entries of leaves are not looked at. `numbers` and `leaves` as in [`search`].
pub fn search_indexed(
    text: &[u8],
    margin: i64,
    lows: &[i64],
    highs: &[i64],
    leaves: &mut [u16],
    numbers: &mut [i64],
) -> u64 {
    unsafe {
        abi::margin_search_indexed(
            text.as_ptr(),
            text.len(),
            margin,
            lows.as_ptr(),
            lows.len(),
            highs.as_ptr(),
            highs.len(),
            leaves.as_mut_ptr(),
            leaves.len(),
            numbers.as_mut_ptr(),
            numbers.len(),
        )
    }
}

/// [`search`], after the table was read once more and searched so many times, with
/// what they found dropped. For the benchmark: of two numbers of times the difference
/// is that of searches alone. It needs the feature `timed`.
#[cfg(feature = "timed")]
pub fn search_times(
    text: &[u8],
    margin: i64,
    times: u64,
    leaves: &mut [u16],
    numbers: &mut [i64],
) -> u64 {
    unsafe {
        abi::margin_search_times(
            text.as_ptr(),
            text.len(),
            margin,
            times,
            leaves.as_mut_ptr(),
            leaves.len(),
            numbers.as_mut_ptr(),
            numbers.len(),
        )
    }
}

/// Turns the table: its text goes to the start of `buffer`.
pub fn turn(text: &[u8], buffer: &mut [u8]) -> u64 {
    unsafe { abi::margin_turn(text.as_ptr(), text.len(), buffer.as_mut_ptr(), buffer.len()) }
}

/// Rolls out a table without C by this policy. `numbers`: the worth, the number
/// of leaves read. `leaves`: the node numbers of the leaves read, in reading
/// sequence. `store`: the record of each node.
pub fn rollout(
    text: &[u8],
    policy: &[u8],
    store: &mut [Record],
    leaves: &mut [u16],
    numbers: &mut [i64],
) -> u64 {
    unsafe {
        abi::margin_rollout(
            text.as_ptr(),
            text.len(),
            policy.as_ptr(),
            policy.len(),
            store.as_mut_ptr(),
            store.len(),
            leaves.as_mut_ptr(),
            leaves.len(),
            numbers.as_mut_ptr(),
            numbers.len(),
        )
    }
}

/// Reports on a match file, with the marks of the scale of this number, 1 or 2.
/// `kinds`, `losses` and `marks` have an entry for each position: the kind of its
/// root, as in [`read`]; the loss in thousandths of a point, -1 for no decision; and
/// 0 for no decision, 1 for no mark, 2 for doubtful, 3 for an error, 4 for a blunder.
/// `numbers`: the number of positions, the decisions and the sum of the losses at M,
/// then at N.
pub fn report(
    file: &[u8],
    scale: i64,
    kinds: &mut [u8],
    losses: &mut [i64],
    marks: &mut [u8],
    numbers: &mut [i64],
) -> u64 {
    unsafe {
        abi::margin_report(
            file.as_ptr(),
            file.len(),
            scale,
            kinds.as_mut_ptr(),
            kinds.len(),
            losses.as_mut_ptr(),
            losses.len(),
            marks.as_mut_ptr(),
            marks.len(),
            numbers.as_mut_ptr(),
            numbers.len(),
        )
    }
}

/// Writes the table of a recipe: its text goes to the start of `buffer`. `dice` is 1 for
/// with and 0 for without. `numbers`: the bytes written.
pub fn recipe(
    seed: i64,
    branching: i64,
    depth: i64,
    dice: i64,
    buffer: &mut [u8],
    numbers: &mut [i64],
) -> u64 {
    unsafe {
        abi::margin_recipe(
            seed,
            branching,
            depth,
            dice,
            buffer.as_mut_ptr(),
            buffer.len(),
            numbers.as_mut_ptr(),
            numbers.len(),
        )
    }
}
