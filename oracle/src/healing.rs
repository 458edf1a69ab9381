//! The Rust sources, compiled as they are, and the way into them.
//!
//! This module stands where the sources expect their parent: it gives them
//! the compressed records, the short names and the shim, and nothing else.
//! Their edges have no weld preparation: the Rust never sees one. The edges
//! that come back from it are given theirs here (`preparations`).

mod hash;
pub mod prepared;
mod quiet;
mod turned;

use crate::records::{self, Preparation};
use crate::shim::*;

/// An edge: the numbers of its two vertices, and its curve.
#[derive(Clone, Debug)]
pub struct CompressedEdge<C> {
    pub vertices: (usize, usize),
    pub curve: C,
}

/// A use of an edge: its number, and whether it is used forward.
#[derive(Clone, Copy, Debug, PartialEq, Eq)]
pub struct CompressedEdgeIndex {
    pub index: usize,
    pub orientation: bool,
}

/// A face: its wires, its direction, and its surface.
#[derive(Clone, Debug)]
pub struct CompressedFace<S> {
    pub boundaries: Vec<Vec<CompressedEdgeIndex>>,
    pub orientation: bool,
    pub surface: S,
}

/// A shell: its vertices, edges and faces.
#[derive(Clone, Debug)]
pub struct CompressedShell<P, C, S> {
    pub vertices: Vec<P>,
    pub edges: Vec<CompressedEdge<C>>,
    pub faces: Vec<CompressedFace<S>>,
}

type HashMap<K, V> = std::collections::HashMap<K, V, hash::Build>;
type HashSet<K> = std::collections::HashSet<K, hash::Build>;

type Edge<C> = CompressedEdge<C>;
type EdgeIndex = CompressedEdgeIndex;
type Wire = Vec<EdgeIndex>;
type Face<S> = CompressedFace<S>;
type Shell<P, C, S> = CompressedShell<P, C, S>;

/// The host's projection of a point onto a surface.
trait SP<S>: Fn(&S, Point3, Option<(f64, f64)>) -> Option<(f64, f64)> {}
impl<S, F> SP<S> for F where F: Fn(&S, Point3, Option<(f64, f64)>) -> Option<(f64, f64)> {}

#[allow(clippy::all)]
mod split_closed_edges {
    include!(concat!(env!("KAUGRENNA_HEALING"), "/split_closed_edges.rs"));
}

/// Its functions are private: the way to some of them is added in here.
#[allow(dead_code, clippy::all)]
mod split_closed_faces {
    include!(concat!(env!("KAUGRENNA_HEALING"), "/split_closed_faces.rs"));

    pub(super) mod ways;

    #[cfg(test)]
    mod worked;
}

/// A curve that the pass can cut.
trait Closable: BoundedCurve<Point = records::Vertex> + Cut + Recorded {}
impl<C: BoundedCurve<Point = records::Vertex> + Cut + Recorded> Closable for C {}

/// Runs the Rust's `split_closed_edges` over a shell whose wires are dealt
/// out to so many faces, one after the other in turn. Where k is not 4 its
/// curves name another place for their middle.
pub fn split(shell: &records::Shell, faces: usize, k: u32) -> records::Shell {
    match k {
        4 => split_over(shell, faces, On::from),
        _ => split_over(shell, faces, |curve| Eighths::of(curve, k)),
    }
}

/// The same over curves that are made of the records.
fn split_over<C: Closable>(
    shell: &records::Shell,
    faces: usize,
    curve: impl Fn(records::Curve) -> C,
) -> records::Shell {
    let mut rust = Shell {
        vertices: shell.vertices.clone(),
        edges: edges_over(&shell.edges, curve),
        faces: deal(&shell.wires, faces),
    };
    split_closed_edges::split_closed_edges(&mut rust);
    let preparations = preparations(&shell.edges, of_closed(&shell.edges));
    records::Shell {
        vertices: rust.vertices,
        edges: from_edges(&rust.edges, &preparations),
        wires: gather(&rust.faces, shell.wires.len()),
    }
}

/// Where the Rust cuts a curve of this range.
pub fn middle(t0: f64, t1: f64) -> f64 {
    let curve = records::Curve::Span { number: 0, t0, t1 };
    let mut rust: Shell<records::Vertex, _, ()> = Shell {
        vertices: Vec::new(),
        edges: vec![Edge {
            vertices: (0, 0),
            curve: On::from(curve),
        }],
        faces: Vec::new(),
    };
    split_closed_edges::split_closed_edges(&mut rust);
    match rust.vertices[..] {
        [records::Vertex::Pending(_, t)] => t,
        _ => panic!("one vertex is added"),
    }
}

/// The Rust's `get_mindiff`.
pub fn get_mindiff(u: f64, u0: f64, period: f64) -> f64 {
    split_closed_faces::ways::unwrapped(u, u0, period)
}

/// The copy that the Rust takes out of its `periodic_iterator`.
pub fn nearest_copy(p: [f64; 2], q: [f64; 2], periods: [Option<f64>; 2]) -> [f64; 2] {
    let copy = split_closed_faces::ways::nearest(point2(p), point2(q), periods.into());
    [copy.x, copy.y]
}

/// The Rust's `boundary_type` of a polyline with these ends and this area:
/// 0 for Positive, 1 for Negative, 2 for NotClosed.
pub fn boundary_type(first: [f64; 2], last: [f64; 2], area: f64) -> u32 {
    let points = vec![point2(first), Point2::new(area, 0.0), point2(last)];
    split_closed_faces::ways::kind(&PolylineCurve(points))
}

/// The Rust's `nearest_correction` over two rows of uses.
pub fn nearest_correction(
    v0: u32,
    stretches: [&[u32]; 2],
    vertices: &[records::Vertex],
    edges: &[records::Edge],
) -> Option<[u32; 2]> {
    let [first, second] = stretches.map(to_wire);
    let (points, edges) = (points(vertices), to_edges(edges));
    let found =
        split_closed_faces::ways::nearest_ends(v0 as usize, [&first, &second], &points, &edges)?;
    Some(numbers(found))
}

/// The Rust's `find_non_simple_wire_divisor`; an error where it panics
/// because it reads past the end of a wire.
pub fn find_divisor(shell: &records::Shell) -> Result<Option<[u32; 2]>, PastEnd> {
    let wires = to_wires(&shell.wires);
    let (points, edges) = (points(&shell.vertices), to_edges(&shell.edges));
    let search = || split_closed_faces::ways::divisor(&wires, &edges, &points);
    match quiet::caught(search) {
        Ok(found) => Ok(found.map(numbers)),
        Err(said) if said.starts_with("index out of bounds") => Err(PastEnd),
        Err(said) => panic!("the Rust panicked: {said}"),
    }
}

/// The Rust read past the end of a wire.
#[derive(Clone, Copy, Debug, PartialEq, Eq)]
pub struct PastEnd;

/// The Rust's cut of an edge at one parameter, with its point, and the mending
/// of all wires; so for each of these rows of t, x, y, z, one after the other.
pub fn cut(shell: &records::Shell, edge: u32, cuts: &[[f64; 4]]) -> records::Shell {
    let before = stand_ins(&shell.vertices);
    let (mut points, mut edges) = (before.clone(), to_edges(&shell.edges));
    let (mut lines, mut wires) = (no_lines(edges.len()), to_wires(&shell.wires));
    for &[t, x, y, z] in cuts {
        let cut = (t, Point3::new(x, y, z));
        let tables = (&mut edges, &mut lines, &mut points);
        split_closed_faces::ways::cut(edge as usize, vec![cut], tables, &mut wires);
    }
    let added = points.split_off(before.len());
    assert!(points == before, "vertices are only added");
    let given = |point: Point3| records::Vertex::Given(point.x, point.y, point.z);
    let mut vertices = shell.vertices.clone();
    vertices.extend(added.into_iter().map(given));
    let pieces = vec![shell.edges[edge as usize].preparation; cuts.len()];
    let preparations = preparations(&shell.edges, pieces);
    records::Shell {
        vertices,
        edges: from_edges(&edges, &preparations),
        wires: from_wires(&wires),
    }
}

/// The same from the last cut to the first, where they rise: each cuts the
/// first piece, so that the pieces behind it stay. Only their numbers, and
/// those of the new vertices, go from the last to the first; here they are
/// turned round.
pub fn cut_from_last(shell: &records::Shell, edge: u32, cuts: &[[f64; 4]]) -> records::Shell {
    let falling: Vec<[f64; 4]> = cuts.iter().rev().copied().collect();
    let [vertices, edges, _] = shell.counts();
    turned::round(cut(shell, edge, &falling), [vertices, edges])
}

/// The Rust's `connect_open_boundaries` over two open wires and the new ones.
pub fn join(
    edges: &[records::Edge],
    open: [&[u32]; 2],
    new: &[Vec<u32>],
    [v0, v1]: [u32; 2],
) -> Option<Vec<Vec<u32>>> {
    let (edges, open) = (to_edges(edges), open.map(to_wire).to_vec());
    let ends = (v0 as usize, v1 as usize);
    let wires = split_closed_faces::ways::joined(to_wires(new), ends, &edges, open)?;
    Some(from_wires(&wires))
}

/// What comes of a split: all edges, and the wires that are built.
pub type Rebuilt = (Vec<records::Edge>, Vec<Vec<u32>>);

/// Where the Rust panics in the walk of a split.
#[derive(Clone, Copy, Debug, PartialEq, Eq)]
pub enum Stuck {
    /// No list is there on arrival.
    DeadEnd,
    /// A list of three or more, or of none.
    Crowd,
}

/// The Rust's split of a face's wires by a list of vertices, of which there
/// is an even count, with their points in the parameter plane.
pub fn split_by_divisor(
    edges: &[records::Edge],
    [face, rebuilt]: [&[Vec<u32>]; 2],
    list: &[(u32, [f64; 2])],
    surface: u32,
) -> Result<Rebuilt, Stuck> {
    let [face, rebuilt] = [face, rebuilt].map(to_wires);
    let on_divisor = to_list(list);
    let preparations = preparations(edges, of_seams(list));
    let (surface, mut edges) = (Surface { number: surface }, to_edges(edges));
    let mut lines = no_lines(edges.len());
    let tables = (&mut edges, &mut lines);
    let walk = || split_closed_faces::ways::split([&face, &rebuilt], &on_divisor, surface, tables);
    match quiet::caught(walk) {
        Ok(wires) => Ok((from_edges(&edges, &preparations), from_wires(&wires))),
        Err(said) if said == "internal error: entered unreachable code" => Err(Stuck::DeadEnd),
        Err(said) if said == "something wrong!" => Err(Stuck::Crowd),
        Err(said) => panic!("the Rust panicked: {said}"),
    }
}

/// A point of the parameter plane.
fn point2([u, v]: [f64; 2]) -> Point2 {
    Point2::new(u, v)
}

/// The points of vertices, all of which are given.
fn points(vertices: &[records::Vertex]) -> Vec<Point3> {
    let point = |vertex: &records::Vertex| match *vertex {
        records::Vertex::Given(x, y, z) => Point3::new(x, y, z),
        records::Vertex::Pending(..) => panic!("a pending vertex has no point"),
    };
    vertices.iter().map(point).collect()
}

/// A point of its own for each vertex, given or pending: the cut only counts
/// the vertices and adds to them.
fn stand_ins(vertices: &[records::Vertex]) -> Vec<Point3> {
    let point = |row: usize| Point3::new(row as f64, 0.5, -1.0);
    (0..vertices.len()).map(point).collect()
}

/// Edges as the Rust holds them.
fn to_edges(edges: &[records::Edge]) -> Vec<Edge<On<Point3>>> {
    edges_over(edges, On::from)
}

/// Edges as the Rust holds them, without their preparations and over curves
/// that are made of the records.
fn edges_over<C>(edges: &[records::Edge], curve: impl Fn(records::Curve) -> C) -> Vec<Edge<C>> {
    let to_rust = |edge: &records::Edge| Edge {
        vertices: (edge.front as usize, edge.back as usize),
        curve: curve(edge.curve),
    };
    edges.iter().map(to_rust).collect()
}

/// Two vertex numbers as they are told.
fn numbers((v0, v1): (usize, usize)) -> [u32; 2] {
    [v0 as u32, v1 as u32]
}

/// An edge as it is lent, with the preparation that it must have.
fn from_rust<C: Recorded>(edge: &Edge<C>, preparation: Preparation) -> records::Edge {
    records::Edge {
        front: edge.vertices.0 as u32,
        back: edge.vertices.1 as u32,
        curve: edge.curve.record(),
        preparation,
    }
}

/// All edges that come back from the Rust, with the preparations that they
/// must have.
fn from_edges<C: Recorded>(edges: &[Edge<C>], preparations: &[Preparation]) -> Vec<records::Edge> {
    assert_eq!(edges.len(), preparations.len(), "one for each edge");
    let both = edges.iter().zip(preparations);
    both.map(|(edge, &preparation)| from_rust(edge, preparation))
        .collect()
}

/// The preparations of all edges after a call: a lent edge keeps its own under
/// its number, cut or not, and behind these stand those of the edges that are
/// added.
fn preparations(
    lent: &[records::Edge],
    added: impl IntoIterator<Item = Preparation>,
) -> Vec<Preparation> {
    let lent = lent.iter().map(|edge| edge.preparation);
    lent.chain(added).collect()
}

/// Those of the pieces that the pass adds, one for each closed edge and in the
/// order of these: the closed edge's own.
fn of_closed(lent: &[records::Edge]) -> impl Iterator<Item = Preparation> + '_ {
    let closed = lent.iter().filter(|edge| edge.front == edge.back);
    closed.map(|edge| edge.preparation)
}

/// Those of the seams that a split adds, one for each pair of the list: square.
fn of_seams(list: &[(u32, [f64; 2])]) -> impl Iterator<Item = Preparation> {
    (0..list.len() / 2).map(|_| Preparation::Square)
}

/// A wire as the Rust holds it.
fn to_wire(uses: &[u32]) -> Wire {
    let to_use = |&number: &u32| EdgeIndex {
        index: number as usize / 2,
        orientation: number % 2 == 0,
    };
    uses.iter().map(to_use).collect()
}

/// A wire as it is lent.
fn from_wire(wire: &[EdgeIndex]) -> Vec<u32> {
    let to_number = |edge_use: &EdgeIndex| {
        assert!(edge_use.index <= u32::MAX as usize / 2, "no use number");
        2 * edge_use.index as u32 + u32::from(!edge_use.orientation)
    };
    wire.iter().map(to_number).collect()
}

/// Wires as the Rust holds them.
fn to_wires(wires: &[Vec<u32>]) -> Vec<Wire> {
    wires.iter().map(|wire| to_wire(wire)).collect()
}

/// Wires as they are lent.
fn from_wires(wires: &[Wire]) -> Vec<Vec<u32>> {
    wires.iter().map(|wire| from_wire(wire)).collect()
}

/// The vertices on a divisor as the Rust holds them: each with a place on the
/// line, which is not read any more, and its point.
fn to_list(list: &[(u32, [f64; 2])]) -> Vec<(f64, (usize, Point2))> {
    let place = |&(vertex, uv): &(u32, [f64; 2])| (0.0, (vertex as usize, point2(uv)));
    list.iter().map(place).collect()
}

/// An empty polyline for each edge: they are carried along and not read.
fn no_lines(edges: usize) -> Vec<PolylineCurve<Point3>> {
    vec![PolylineCurve(Vec::new()); edges]
}

/// The wires as the Rust holds them: wire i stands in face i modulo `faces`.
fn deal(wires: &[Vec<u32>], faces: usize) -> Vec<Face<()>> {
    let of_face = |face: usize| wires.iter().skip(face).step_by(faces);
    let to_face = |face: usize| Face {
        boundaries: of_face(face).map(|wire| to_wire(wire)).collect(),
        orientation: true,
        surface: (),
    };
    (0..faces).map(to_face).collect()
}

/// The wires of all faces, in the order in which they were dealt.
fn gather(faces: &[Face<()>], wires: usize) -> Vec<Vec<u32>> {
    let wire = |i: usize| &faces[i % faces.len()].boundaries[i / faces.len()];
    (0..wires).map(|i| from_wire(wire(i))).collect()
}
