//! The plain cut of an edge at several points.

use super::cut::{self, edges, Ends, Range};
use super::pass::{fits, mended_wires, write, Mended};
use super::Reference;
use crate::port::{Cut, Pass};
use crate::records::{Curve, Edge, Preparation, Vertex};

/// A cut: t, x, y, z.
pub type Place = [f64; 4];

/// The steps of the cuts.
#[derive(Clone, Copy)]
pub struct Steps {
    /// All causes among 1 to 5 that the cuts meet, from their cells and count
    /// and from the range of the edge's curve if there is such an edge.
    pub causes: fn(&[u64], usize, Option<Range>) -> Vec<i32>,
    /// Whether so many cuts are too many.
    pub too_many: fn(usize) -> bool,
    /// Whether these parameters rise.
    pub rise: fn(&[f64]) -> bool,
    /// Whether a result of so many vertices, edges and uses has room.
    pub fits: fn(&Pass, [usize; 3]) -> bool,
    /// The cuts that are made, in their order along the curve.
    pub made: fn(&[Place]) -> Vec<Place>,
    /// The ranges of all pieces along the curve, from the cuts and the curve's
    /// range.
    pub ranges: fn(&[Place], Range) -> Vec<Range>,
    /// The numbers of all pieces along the curve, from the number of the edge,
    /// the count of edges and the count of cuts.
    pub pieces: fn(u32, u32, usize) -> Vec<u32>,
    /// The numbers of the new vertices along the curve, from the count of
    /// vertices and the count of cuts.
    pub vertices: fn(u32, usize) -> Vec<u32>,
    /// The new vertex of a cut, from the cut and the curve.
    pub vertex: fn(Place, Curve) -> Vertex,
    /// The ends of all pieces along the curve, from the ends of the edge and
    /// the numbers of the new vertices.
    pub ends: fn(Ends, &[u32]) -> Vec<Ends>,
    /// The preparations of so many pieces, from that of the edge.
    pub preparations: fn(Preparation, usize) -> Vec<Preparation>,
    /// What a use of the edge becomes, from that use and the numbers of the
    /// pieces.
    pub mend: fn(u32, &[u32]) -> Vec<u32>,
    /// Whether a use of the edge is mended, from the number of its wire and
    /// from how many uses of the edge were mended in this wire.
    pub mends: fn(usize, usize) -> bool,
}

impl Default for Steps {
    fn default() -> Self {
        Steps {
            causes: cut::causes,
            too_many: |cuts| cuts > 64,
            rise,
            fits,
            made: |cuts| cuts.to_vec(),
            ranges,
            pieces,
            vertices,
            vertex: |[_, x, y, z], _| Vertex::Given(x, y, z),
            ends,
            preparations: |old, pieces| vec![old; pieces],
            mend,
            mends: |_, _| true,
        }
    }
}

/// Cuts an edge at several points.
pub fn cut_edge_at_points(reference: &Reference, call: Cut<'_>) -> i32 {
    let Reference {
        tables, several, ..
    } = reference;
    let mut causes = (tables.causes)(&call.pass.rows(), &call.pass.wires());
    if !causes.contains(&1) {
        let edges = edges(&call.pass);
        let edge = edges.get(call.edge as usize);
        let range = edge.map(|edge| edge.curve.range());
        causes.extend((several.causes)(call.cuts, call.cut_count, range));
    }
    let ts: Vec<f64> = places(&call).iter().map(|place| place[0]).collect();
    causes.extend((several.too_many)(call.cut_count).then_some(16));
    causes.extend((!(several.rise)(&ts)).then_some(17));
    if let Some(number) = (tables.choose)(&causes) {
        return number;
    }
    let mended = several.mended(&call);
    let counts = [
        call.pass.vertices + mended.vertices.len(),
        mended.edges.len(),
        mended.uses.len(),
    ];
    if !(several.fits)(&call.pass, counts) {
        return 6;
    }
    write(call.pass, &mended, counts);
    0
}

/// The cuts that are lent, as far as they count.
fn places(call: &Cut) -> Vec<Place> {
    let cuts = call.cuts.chunks_exact(4).take(call.cut_count);
    cuts.map(|cells| [0, 1, 2, 3].map(|cell| f64::from_bits(cells[cell])))
        .collect()
}

/// Each parameter is below the next.
pub fn rise(ts: &[f64]) -> bool {
    ts.windows(2).all(|pair| pair[0] < pair[1])
}

/// From t0 to the first parameter, from each to the next, from the last to t1.
pub fn ranges(cuts: &[Place], (t0, t1): Range) -> Vec<Range> {
    let mut from = t0;
    let mut ranges = Vec::new();
    for cut in cuts {
        ranges.push((from, cut[0]));
        from = cut[0];
    }
    ranges.push((from, t1));
    ranges
}

/// The old number, and then the next free ones.
pub fn pieces(edge: u32, edges: u32, cuts: usize) -> Vec<u32> {
    [vec![edge], vertices(edges, cuts)].concat()
}

/// The next free numbers.
pub fn vertices(vertices: u32, cuts: usize) -> Vec<u32> {
    (vertices..vertices + cuts as u32).collect()
}

/// From the front over each new vertex to the back.
pub fn ends((a, b): Ends, new: &[u32]) -> Vec<Ends> {
    let fronts = [&[a], new].concat();
    let backs = [new, &[b]].concat();
    fronts.into_iter().zip(backs).collect()
}

/// All pieces forward, or backwards and reversed.
pub fn mend(used: u32, pieces: &[u32]) -> Vec<u32> {
    let mut uses: Vec<u32> = pieces.iter().map(|piece| 2 * piece + used % 2).collect();
    if used % 2 == 1 {
        uses.reverse();
    }
    uses
}

impl Steps {
    /// The vertices that are added, the edges and wires after the cuts.
    fn mended(&self, call: &Cut) -> Mended {
        let (mut vertices, mut edges) = (Vec::new(), edges(&call.pass));
        let (cuts, mut pieces) = ((self.made)(&places(call)), vec![call.edge]);
        if !cuts.is_empty() {
            pieces = (self.pieces)(call.edge, edges.len() as u32, cuts.len());
            vertices = self.cut(call, &cuts, &pieces, &mut edges);
        }
        let (uses, lengths) = self.wires(call, &pieces);
        Mended {
            vertices,
            edges,
            uses,
            lengths,
        }
    }

    /// The vertices that are added; the pieces are put in their rows.
    fn cut(
        &self,
        call: &Cut,
        cuts: &[Place],
        pieces: &[u32],
        edges: &mut Vec<Edge>,
    ) -> Vec<Vertex> {
        let Edge {
            front,
            back,
            curve,
            preparation,
        } = edges[call.edge as usize];
        let first = call.pass.vertices as u32;
        let numbers = (self.vertices)(first, cuts.len());
        let mut vertices = vec![Vertex::Given(0.0, 0.0, 0.0); cuts.len()];
        for (&number, &cut) in numbers.iter().zip(cuts) {
            vertices[(number - first) as usize] = (self.vertex)(cut, curve);
        }
        let ranges = (self.ranges)(cuts, curve.range());
        let ends = (self.ends)((front, back), &numbers);
        let preparations = (self.preparations)(preparation, pieces.len());
        edges.resize(edges.len() + cuts.len(), edges[call.edge as usize]);
        for (piece, &number) in pieces.iter().enumerate() {
            let (t0, t1) = ranges[piece];
            edges[number as usize] = Edge {
                front: ends[piece].0,
                back: ends[piece].1,
                curve: curve.over(t0, t1),
                preparation: preparations[piece],
            };
        }
        vertices
    }

    /// The uses and lengths of all wires, with the pieces put in.
    fn wires(&self, call: &Cut, pieces: &[u32]) -> (Vec<u32>, Vec<u32>) {
        let (mut last, mut mended) = (0, 0);
        mended_wires(&call.pass, |wire, number| {
            if wire != last {
                (last, mended) = (wire, 0);
            }
            let is_mended = number / 2 == call.edge && (self.mends)(wire, mended);
            is_mended.then(|| {
                mended += 1;
                (self.mend)(number, pieces)
            })
        })
    }
}
