//! The plain closed-edge pass.

use super::tables::{edge_rows, have_room};
use super::{eighths, Reference};
use crate::port::{Closed, Pass};
use crate::records::{Curve, Edge, Preparation, Vertex};
use crate::shell::{read_edge, write_edge, write_vertex};
use crate::shell::{EDGE_FLOATS, EDGE_NUMBERS, VERTEX_FLOATS, VERTEX_NUMBERS};

/// The steps of the pass.
#[derive(Clone, Copy)]
pub struct Steps {
    /// Whether a result of so many vertices, edges and uses has room.
    pub fits: fn(&Pass, [usize; 3]) -> bool,
    /// The order in which the edges are looked at.
    pub order: fn(usize) -> Vec<usize>,
    /// The two curves that a cut makes of one.
    pub halves: fn(Curve, f64) -> [Curve; 2],
    /// The new vertex, from the curve, its halves and the parameter.
    pub pending: fn(Curve, [Curve; 2], f64) -> Vertex,
    /// The ends of both halves, from the old vertex and the new one.
    pub ends: fn(u32, u32) -> [(u32, u32); 2],
    /// The preparations of both halves, from that of the old edge.
    pub preparations: fn(Preparation) -> [Preparation; 2],
    /// What a use of a cut edge becomes, from that use and the new edge.
    pub mend: fn(u32, u32) -> [u32; 2],
}

impl Default for Steps {
    fn default() -> Self {
        Steps {
            fits,
            order: |edges| (0..edges).collect(),
            halves: |curve, t| {
                [
                    curve.over(curve.range().0, t),
                    curve.over(t, curve.range().1),
                ]
            },
            pending: |curve, _, t| Vertex::Pending(curve, t),
            ends: |old, new| [(old, new), (new, old)],
            preparations: |old| [old; 2],
            mend,
        }
    }
}

/// A result before it is written back: the vertices that are added, and all
/// edges and wires.
pub struct Mended {
    pub vertices: Vec<Vertex>,
    pub edges: Vec<Edge>,
    pub uses: Vec<u32>,
    pub lengths: Vec<u32>,
}

/// Makes the pass.
pub fn split_closed_edges(reference: &Reference, call: Closed<'_>) -> i32 {
    let Closed { pass: call, k } = call;
    let Reference {
        tables,
        eighths,
        pass,
        ..
    } = reference;
    let mut causes = (tables.causes)(&call.rows(), &call.wires());
    causes.extend((!(eighths.is_known)(k)).then_some(18));
    if let Some(number) = (tables.choose)(&causes) {
        return number;
    }
    let mended = pass.mended(&call, eighths, k);
    let counts = [
        call.vertices + mended.vertices.len(),
        mended.edges.len(),
        mended.uses.len(),
    ];
    if !(pass.fits)(&call, counts) {
        return 6;
    }
    write(call, &mended, counts);
    0
}

impl Steps {
    /// Cuts the closed edges and mends the wires.
    fn mended(&self, call: &Pass, eighths: &eighths::Steps, k: u32) -> Mended {
        let mut edges: Vec<Edge> = edge_rows(&call.rows())
            .map(|(numbers, floats)| read_edge(numbers, floats))
            .collect();
        let (mut vertices, mut added) = (Vec::new(), vec![None; edges.len()]);
        for row in (self.order)(edges.len()) {
            let Edge {
                front,
                back,
                curve,
                preparation,
            } = edges[row];
            if front == back {
                let (t0, t1) = curve.range();
                let t = eighths.parameter([t0, t1], k);
                let halves = (self.halves)(curve, t);
                let ends = (self.ends)(front, (call.vertices + vertices.len()) as u32);
                let preparations = (self.preparations)(preparation);
                let [kept, new] = [0, 1].map(|half| Edge {
                    front: ends[half].0,
                    back: ends[half].1,
                    curve: halves[half],
                    preparation: preparations[half],
                });
                vertices.push((self.pending)(curve, halves, t));
                added[row] = Some(edges.len() as u32);
                edges[row] = kept;
                edges.push(new);
            }
        }
        let (uses, lengths) = mended_wires(call, |_, number| {
            let new = added[number as usize / 2]?;
            Some((self.mend)(number, new))
        });
        Mended {
            vertices,
            edges,
            uses,
            lengths,
        }
    }
}

/// The uses and lengths of all wires, each use replaced by what the function
/// gives for its wire and for it, if it gives anything.
pub fn mended_wires<R: IntoIterator<Item = u32>>(
    call: &Pass,
    mut replaced: impl FnMut(usize, u32) -> Option<R>,
) -> (Vec<u32>, Vec<u32>) {
    let (mut uses, mut lengths, mut place) = (Vec::new(), Vec::new(), 0);
    for (wire, &length) in call.lengths[..call.wires].iter().enumerate() {
        let before = uses.len();
        for &number in &call.uses[place..place + length as usize] {
            match replaced(wire, number) {
                Some(all) => uses.extend(all),
                None => uses.push(number),
            }
        }
        place += length as usize;
        lengths.push((uses.len() - before) as u32);
    }
    (uses, lengths)
}

/// A forward use is followed by the new edge, a reversed one comes after it.
pub fn mend(number: u32, new: u32) -> [u32; 2] {
    match number % 2 {
        0 => [number, 2 * new],
        _ => [2 * new + 1, number],
    }
}

/// Writes a result over what was lent.
pub fn write(call: Pass<'_>, mended: &Mended, counts: [usize; 3]) {
    let numbers = call.vertex_numbers.chunks_mut(VERTEX_NUMBERS);
    let rows = numbers.zip(call.vertex_floats.chunks_mut(VERTEX_FLOATS));
    for ((numbers, floats), vertex) in rows.skip(call.vertices).zip(&mended.vertices) {
        write_vertex(vertex, numbers, floats);
    }
    let numbers = call.edge_numbers.chunks_mut(EDGE_NUMBERS);
    let rows = numbers.zip(call.edge_floats.chunks_mut(EDGE_FLOATS));
    for ((numbers, floats), edge) in rows.zip(&mended.edges) {
        write_edge(edge, numbers, floats);
    }
    call.uses[..mended.uses.len()].copy_from_slice(&mended.uses);
    call.lengths[..mended.lengths.len()].copy_from_slice(&mended.lengths);
    call.out.copy_from_slice(&counts);
}

/// Whether a result has room in the bounds and in the buffers.
pub fn fits(call: &Pass, [vertices, edges, uses]: [usize; 3]) -> bool {
    vertices <= 4096
        && edges <= 4096
        && uses <= 1024
        && have_room(&call.rows(), vertices, edges)
        && call.uses.len() >= uses
}
