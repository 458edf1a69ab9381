//! The plain cut of an edge.

use super::pass::{fits, mend, mended_wires, write, Mended};
use super::tables::{edge_rows, sized};
use super::Reference;
use crate::port::{Cut, Pass};
use crate::records::{Curve, Edge, Preparation, Vertex};
use crate::shell::read_edge;

/// From where to where a parameter runs.
pub type Range = (f64, f64);

/// The two vertices of an edge.
pub type Ends = (u32, u32);

/// The steps of the cut.
#[derive(Clone, Copy)]
pub struct Steps {
    /// All causes among 1 to 5 that the cuts meet, from their cells and count
    /// and from the range of the edge's curve if there is such an edge.
    pub causes: fn(&[u64], usize, Option<Range>) -> Vec<i32>,
    /// Whether so many cuts are too many.
    pub too_many: fn(usize) -> bool,
    /// Whether a result of so many vertices, edges and uses has room.
    pub fits: fn(&Pass, [usize; 3]) -> bool,
    /// Where the curve is cut, from the cut and the curve's range.
    pub parameter: fn([f64; 4], Range) -> f64,
    /// The two curves that a cut makes of one.
    pub pieces: fn(Curve, f64) -> [Curve; 2],
    /// The new vertex, from the cut and the curve.
    pub vertex: fn([f64; 4], Curve) -> Vertex,
    /// The ends of both pieces, from the ends of the edge and the new vertex.
    pub ends: fn(Ends, u32) -> [Ends; 2],
    /// The preparations of both pieces, from that of the edge.
    pub preparations: fn(Preparation) -> [Preparation; 2],
    /// What a use of the edge becomes, from that use and the new edge.
    pub mend: fn(u32, u32) -> [u32; 2],
    /// Whether a use of the edge is mended, from the number of its wire and
    /// from how many uses of the edge were mended in this wire.
    pub mends: fn(usize, usize) -> bool,
}

impl Default for Steps {
    fn default() -> Self {
        Steps {
            causes,
            too_many: |cuts| cuts > 1,
            fits,
            parameter: |cut, _| cut[0],
            pieces: |curve, t| {
                let (t0, t1) = curve.range();
                [curve.over(t0, t), curve.over(t, t1)]
            },
            vertex: |[_, x, y, z], _| Vertex::Given(x, y, z),
            ends: |(a, b), new| [(a, new), (new, b)],
            preparations: |old| [old; 2],
            mend,
            mends: |_, _| true,
        }
    }
}

/// Cuts an edge.
pub fn cut_edge_by_intersections(reference: &Reference, call: Cut<'_>) -> i32 {
    let Reference { tables, cut, .. } = reference;
    let mut causes = (tables.causes)(&call.pass.rows(), &call.pass.wires());
    if !causes.contains(&1) {
        let edges = edges(&call.pass);
        let edge = edges.get(call.edge as usize);
        let range = edge.map(|edge| edge.curve.range());
        causes.extend((cut.causes)(call.cuts, call.cut_count, range));
    }
    if let Some(number) = (tables.choose)(&causes) {
        return number;
    }
    if (cut.too_many)(call.cut_count) {
        return 14;
    }
    let mended = cut.mended(&call);
    let counts = [
        call.pass.vertices + mended.vertices.len(),
        mended.edges.len(),
        mended.uses.len(),
    ];
    if !(cut.fits)(&call.pass, counts) {
        return 6;
    }
    write(call.pass, &mended, counts);
    0
}

/// The edges below the count.
pub fn edges(call: &Pass) -> Vec<Edge> {
    edge_rows(&call.rows())
        .map(|(numbers, floats)| read_edge(numbers, floats))
        .collect()
}

/// All causes among 1 to 5 that the cuts meet.
pub fn causes(cuts: &[u64], count: usize, range: Option<Range>) -> Vec<i32> {
    if cuts.len() / 4 < count {
        return vec![1];
    }
    let mut found = Vec::new();
    for row in cuts.chunks(4).take(count) {
        let row: Vec<f64> = row.iter().map(|&bits| f64::from_bits(bits)).collect();
        found.extend((!row.iter().all(|&float| sized(float))).then_some(4));
        let within = range.is_none_or(|(t0, t1)| t0 <= row[0] && row[0] <= t1);
        found.extend((!within).then_some(5));
    }
    found.extend(range.is_none().then_some(3));
    found
}

impl Steps {
    /// The vertices that are added, the edges and wires after the cut, if
    /// there is one.
    fn mended(&self, call: &Cut) -> Mended {
        let (mut vertices, mut edges) = (Vec::new(), edges(&call.pass));
        let (row, new) = (call.edge as usize, edges.len() as u32);
        let cuts = call.cuts.chunks_exact(4).take(call.cut_count.min(1));
        for cells in cuts {
            let cut = [0, 1, 2, 3].map(|cell| f64::from_bits(cells[cell]));
            let Edge {
                front,
                back,
                curve,
                preparation,
            } = edges[row];
            let t = (self.parameter)(cut, curve.range());
            let pieces = (self.pieces)(curve, t);
            let ends = (self.ends)((front, back), call.pass.vertices as u32);
            let preparations = (self.preparations)(preparation);
            let [kept, added] = [0, 1].map(|piece| Edge {
                front: ends[piece].0,
                back: ends[piece].1,
                curve: pieces[piece],
                preparation: preparations[piece],
            });
            vertices.push((self.vertex)(cut, curve));
            edges[row] = kept;
            edges.push(added);
        }
        let added = (!vertices.is_empty()).then_some(new);
        let (uses, lengths) = self.wires(call, added);
        Mended {
            vertices,
            edges,
            uses,
            lengths,
        }
    }

    /// The uses and lengths of all wires, with the new edge put in if there
    /// is one.
    fn wires(&self, call: &Cut, added: Option<u32>) -> (Vec<u32>, Vec<u32>) {
        let (mut last, mut mended) = (0, 0);
        mended_wires(&call.pass, |wire, number| {
            if wire != last {
                (last, mended) = (wire, 0);
            }
            let new = added.filter(|_| number / 2 == call.edge)?;
            (self.mends)(wire, mended).then(|| {
                mended += 1;
                (self.mend)(number, new)
            })
        })
    }
}
