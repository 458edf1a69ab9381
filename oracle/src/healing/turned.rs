//! Numbers turned round: the last one that a call has added becomes the first.

use crate::records::Shell;

/// A shell with the rows from so many vertices and edges on in reverse order,
/// and every number of such a row as it is then.
pub fn round(mut after: Shell, [vertices, edges]: [usize; 2]) -> Shell {
    let vertex = turn(vertices as u32, after.vertices.len() as u32);
    let edge = turn(edges as u32, after.edges.len() as u32);
    after.vertices[vertices..].reverse();
    after.edges[edges..].reverse();
    for row in &mut after.edges {
        (row.front, row.back) = (vertex(row.front), vertex(row.back));
    }
    for used in after.wires.iter_mut().flatten() {
        *used = 2 * edge(*used / 2) + *used % 2;
    }
    after
}

/// What becomes of a number below `count`: from `first` on they are turned.
fn turn(first: u32, count: u32) -> impl Fn(u32) -> u32 {
    move |number| match number < first {
        true => number,
        false => first + count - 1 - number,
    }
}
