//! The inputs, as records: for each call one family that grows with the count
//! of uses, over tables of just its size or over full ones.

use oracle::random::Random;
use oracle::records::{Curve, Edge, Preparation, Shell, Vertex};

/// The most vertices, and the most edges.
const FULL: usize = 4096;

/// How large an input is.
#[derive(Clone, Copy, Debug, PartialEq, Eq)]
pub struct Size {
    /// Uses in all wires of the call together; in the pass and the cuts, whose
    /// wires grow, those of the result.
    pub uses: usize,
    /// Whether the tables are filled up to their bounds.
    pub full: bool,
}

/// A number of the row, in steps of 1/64 from -8 on.
fn number(random: &mut Random) -> f64 {
    random.below(1024) as f64 / 64.0 - 8.0
}

/// The curve of an edge: every fourth is a seam, the others are spans.
fn curve(row: usize, random: &mut Random) -> Curve {
    let (number_of, t0) = (row as u32, number(random));
    let t1 = t0 + 1.0;
    if row % 4 < 3 {
        let number = number_of;
        return Curve::Span { number, t0, t1 };
    }
    let mut point = || [number(random), number(random)];
    let (p, q, surface) = (point(), point(), number_of);
    Curve::Seam {
        surface,
        p,
        q,
        t0,
        t1,
    }
}

/// A shell with given vertices and these ends of edges and wires. Of the edges
/// the first three are double bevels, the next three square and then single
/// bevels, and so on. Full tables are filled up with rows that nothing uses, as
/// many as leave room for so many more.
fn shell(ends: &[(usize, usize)], wires: Vec<Vec<u32>>, full: bool, more: usize) -> Shell {
    let mut random = Random::new(1, 0, ends.len() as u64);
    let least = ends.iter().map(|&(front, back)| front.max(back) + 1).max();
    let (mut vertices, mut edges) = (least.unwrap_or(0), ends.len());
    if full {
        (vertices, edges) = (FULL - more, FULL - more);
    }
    let spare = |row: usize| (row % vertices, (row + 1) % vertices);
    let edge = |row: usize, random: &mut Random| {
        let (front, back) = ends.get(row).copied().unwrap_or(spare(row));
        Edge {
            front: front as u32,
            back: back as u32,
            curve: curve(row, random),
            preparation: Preparation::in_turn(2 + row / 3),
        }
    };
    let edges = (0..edges).map(|row| edge(row, &mut random)).collect();
    let vertex = |random: &mut Random| {
        let mut next = || number(random);
        Vertex::Given(next(), next(), next())
    };
    Shell {
        vertices: (0..vertices).map(|_| vertex(&mut random)).collect(),
        edges,
        wires,
    }
}

/// Wires of about sixteen uses each.
fn dealt(uses: &[u32], wires: usize) -> Vec<Vec<u32>> {
    let each = uses.len().div_ceil(wires.max(1));
    uses.chunks(each).map(<[u32]>::to_vec).collect()
}

/// The ends of edges that lead round through so many vertices from `first` on.
fn ring(first: usize, count: usize) -> Vec<(usize, usize)> {
    let end = |step: usize| first + step % count;
    (0..count).map(|step| (end(step), end(step + 1))).collect()
}

/// Forward uses of so many edges from `first` on.
fn forward(first: usize, count: usize) -> Vec<u32> {
    (first..first + count).map(|edge| 2 * edge as u32).collect()
}

/// Shells for the pass: every third edge is closed, each is used once, and
/// every second use is reversed. So many rows are added to either table.
pub fn pass(size: Size) -> (Shell, usize) {
    let count = size.uses / 4 * 3;
    let end = |row: usize| if row % 3 == 0 { row } else { (row + 1) % count };
    let ends: Vec<_> = (0..count).map(|row| (row, end(row))).collect();
    let uses: Vec<u32> = (0..count).map(|row| (2 * row + row % 2) as u32).collect();
    let more = size.uses / 4;
    let wires = dealt(&uses, size.uses / 16);
    (shell(&ends, wires, size.full, more), more)
}

/// Shells for one cut: edge 0 is used forward in the first wire and reversed
/// in the middle; every other edge is used once.
pub fn cut(size: Size) -> Shell {
    let edges = size.uses - 3;
    let mut uses = forward(0, edges);
    uses.insert(edges / 2, 1);
    let wires = dealt(&uses, size.uses / 16);
    shell(&ring(0, edges), wires, size.full, 1)
}

/// Shells for so many cuts, and the cuts: edge 0 is used as often as fits, in
/// either direction by turns, and every other edge once. How many uses more the
/// result has comes last.
pub fn cuts(size: Size, count: usize) -> (Shell, Vec<[f64; 4]>, usize) {
    let used = size.uses / (count + 1);
    let others = size.uses % (count + 1);
    let mut uses: Vec<u32> = (0..used).map(|place| place as u32 % 2).collect();
    uses.extend(forward(1, others));
    let wires = dealt(&uses, size.uses / 16);
    let shell = shell(&ring(0, 1 + others), wires, size.full, count);
    let (t0, _) = shell.edges[0].curve.range();
    let cut = |row: usize| [t0 + (row + 1) as f64 / 128.0, row as f64, 2.0, 3.0];
    (shell, (0..count).map(cut).collect(), used * count)
}

/// Shells for nearest ends: a ring in two halves, the stretches.
pub fn ends(size: Size) -> Shell {
    let half = size.uses / 2;
    let wires = vec![forward(0, half), forward(half, half)];
    shell(&ring(0, size.uses), wires, size.full, 0)
}

/// Shells for the search: K9 with longer rims. Edge 0 leads from one ring to
/// the other and back, and is the only edge that is used twice.
pub fn search(size: Size) -> Shell {
    let rim = size.uses / 2 - 1;
    let ends = [vec![(0, rim)], ring(0, rim), ring(rim, rim)].concat();
    let wire = [forward(1, rim), vec![0], forward(1 + rim, rim), vec![1]].concat();
    shell(&ends, vec![wire], size.full, 0)
}

/// Shells for the split, and the divisor: a ring, which is lent as the face
/// and to be rebuilt, and a line across it.
pub fn split(size: Size) -> (Shell, Vec<(u32, [f64; 2])>) {
    let count = size.uses / 2;
    let wires = vec![forward(0, count)];
    let list = vec![(0, [0.25, 0.5]), (count as u32 / 2, [0.75, 0.5])];
    (shell(&ring(0, count), wires, size.full, 1), list)
}

/// Shells for the join, and v0 and v1: K15 with longer wires, and one more new
/// wire before the one that is joined.
pub fn join(size: Size) -> (Shell, [u32; 2]) {
    let each = size.uses / 4;
    let mut ends: Vec<_> = (0..3).flat_map(|i| ring(i * each, each)).collect();
    let mut bridge = ring(3 * each, each);
    bridge[0].0 = 0;
    bridge[each - 1].1 = 0;
    let half = each / 2;
    (bridge[half - 1].1, bridge[half].0) = (each, each);
    ends.extend(bridge);
    let wires = [0, 1, 2, 3].map(|i| forward(i * each, each)).to_vec();
    (shell(&ends, wires, size.full, 0), [0, each as u32])
}

/// Ends and areas of wires for the sorting: the second and the last are open.
pub fn sort(wires: usize) -> Vec<[f64; 5]> {
    let mut random = Random::new(2, 0, wires as u64);
    let row = |wire: usize, random: &mut Random| {
        let [u, v, area] = [(); 3].map(|()| number(random));
        let far = if wire == 1 || wire == wires - 1 {
            1.0
        } else {
            0.0
        };
        [u, v, u + far, v, area]
    };
    (0..wires).map(|wire| row(wire, &mut random)).collect()
}

/// Five numbers for a call over plain numbers.
pub fn plain(index: usize) -> [f64; 5] {
    let mut random = Random::new(3, 0, index as u64);
    [(); 5].map(|()| number(&mut random))
}
