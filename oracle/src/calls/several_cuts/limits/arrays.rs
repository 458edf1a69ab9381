//! Edges and uses around 64, and uses of the result around 128, where the
//! port's small local arrays may end.

use super::{at, done, with_vertices, SeveralCuts};
use crate::compare::Case;
use crate::limits::arrays::{one_use_too_few, two_wires, Around, EDGES_AND_USES};
use crate::limits::ways::{edge, held, span};
use crate::records::{Preparation, Shell};

/// All cases: the last edge is cut twice.
pub fn cases() -> Vec<Case<SeveralCuts>> {
    let both = |([edges, uses], [fits, short]): Around| {
        let (before, after) = lines(edges, uses);
        let last = edges as u32 - 1;
        let lent = held(&before, one_use_too_few(&after));
        let input = SeveralCuts::over(lent, last, &at(&CUTS));
        [
            done(fits, &before, (last, &CUTS), &after),
            Case::unchanged(short, input, 6),
        ]
    };
    let sizes = EDGES_AND_USES.into_iter().chain(USES_OUT);
    sizes.flat_map(both).collect()
}

/// More edges than uses: the last one is used once, and the result has two uses
/// more.
const USES_OUT: [Around; 3] = [
    ([128, 125], ["127 uses out", "127 uses out, one too few"]),
    ([128, 126], ["128 uses out", "128 uses out, one too few"]),
    ([128, 127], ["129 uses out", "129 uses out, one too few"]),
];

/// Where the last line is cut.
const CUTS: [f64; 2] = [3.0, 5.0];

/// So many lines between two vertices, with the preparations in turn, and so
/// many uses of them, before and after the last line is cut.
fn lines(edges: usize, uses: usize) -> (Shell, Shell) {
    let (last, new) = (edges as u32 - 1, edges as u32);
    let line = |number: u32, from: u32, to: u32, t0: f64, t1: f64| {
        let edge = edge(from, to, span(number, t0, t1));
        edge.prepared(Preparation::in_turn(number as usize))
    };
    let mut lines: Vec<_> = (0..new).map(|i| line(i, 0, 1, 0.0, 8.0)).collect();
    let mut before = with_vertices(2, &[], &lines, &[]);
    before.wires = two_wires(edges, uses);
    lines[edges - 1] = line(last, 0, 2, 0.0, 3.0);
    lines.push(line(last, 2, 3, 3.0, 5.0));
    lines.push(line(last, 3, 1, 5.0, 8.0));
    let mut after = with_vertices(2, &CUTS, &lines, &[]);
    let mend = |&number: &u32| match (number / 2 == last, number % 2) {
        (false, _) => vec![number],
        (true, 0) => vec![number, 2 * new, 2 * new + 2],
        (true, _) => vec![2 * new + 3, 2 * new + 1, number],
    };
    let mend = |wire: &Vec<u32>| wire.iter().flat_map(mend).collect();
    after.wires = before.wires.iter().map(mend).collect();
    (before, after)
}
