//! Edges and uses around 64, and uses of the result around 128, where the
//! port's small local arrays may end.

use super::{done, AT_3, ORIGIN};
use crate::calls::cut_edge::CutEdge;
use crate::compare::Case;
use crate::limits::arrays::{mended, one_use_too_few, two_wires, Around, EDGES_AND_USES};
use crate::limits::ways::{edge, held, span};
use crate::records::{Preparation, Shell, Vertex};

/// All cases: the last edge is cut.
pub fn cases() -> Vec<Case<CutEdge>> {
    let both = |([edges, uses], [fits, short]): Around| {
        let (before, after) = lines(edges, uses);
        let last = edges as u32 - 1;
        let lent = held(&before, one_use_too_few(&after));
        let input = CutEdge::over(lent, last, &[AT_3]);
        [
            done(fits, &before, (last, AT_3), &after),
            Case::unchanged(short, input, 6),
        ]
    };
    let sizes = EDGES_AND_USES.into_iter().chain(USES_OUT);
    sizes.flat_map(both).collect()
}

/// More edges than uses, or as many: the last one is used once, and the result
/// has one use more.
const USES_OUT: [Around; 3] = [
    ([128, 126], ["127 uses out", "127 uses out, one too few"]),
    ([128, 127], ["128 uses out", "128 uses out, one too few"]),
    ([128, 128], ["129 uses out", "129 uses out, one too few"]),
];

/// So many lines between two vertices, with the preparations in turn, and so
/// many uses of them, before and after the last line is cut at 3.
fn lines(edges: usize, uses: usize) -> (Shell, Shell) {
    let (last, new) = (edges as u32 - 1, edges as u32);
    let line = |number: u32, from: u32, to: u32, t0: f64, t1: f64| {
        let edge = edge(from, to, span(number, t0, t1));
        edge.prepared(Preparation::in_turn(number as usize))
    };
    let before = Shell {
        vertices: vec![ORIGIN; 2],
        edges: (0..new).map(|i| line(i, 0, 1, 0.0, 8.0)).collect(),
        wires: two_wires(edges, uses),
    };
    let [t, x, y, z] = AT_3;
    let mut after = before.clone();
    after.vertices.push(Vertex::Given(x, y, z));
    after.edges[edges - 1] = line(last, 0, 2, 0.0, t);
    after.edges.push(line(last, 2, 1, t, 8.0));
    after.wires = mended(&before.wires, |edge| (edge == last).then_some(new));
    (before, after)
}
