//! Tables with two totals (document 02, Item 5).

use crate::texts::examples::two_chains;

/// T is 4 and the second total 3: two plays, the first a C of 4, the second a C of 3
/// with a C of 4 below it. They are worth 3 1/2 and 4 2/3 points. Dots stand for blanks.
pub const TWO_TOTALS: &str = "\
...9.3.4.......0.......8
...0.M..................
...1.C....0.............
...2.L....1....3.......2
...3.L....1....1.......8
...4.C....0.............
...5.L....4....1.......6
...6.C....4....2........
...7.L....6....3.......3
...8.L....6....1.......7
";

/// Four C of 64 on a path, which alone have the greatest grain count, and one of 63 on
/// another.
pub fn too_many_grains() -> Vec<u8> {
    two_chains([64, 63], [4, 1])
}
