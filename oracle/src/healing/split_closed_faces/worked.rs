//! The specification's worked examples for the second file, asked of the
//! Rust itself: they show that the shim stands in for the geometry rightly.

use super::*;
use crate::records::{self, Curve};

/// The edges of K9, and any more.
fn edges(more: &[(usize, usize)]) -> Vec<Edge<On<Point3>>> {
    let ends = [(0, 2), (0, 1), (1, 0), (2, 3), (3, 2)];
    all_edges(&[&ends[..], more].concat())
}

/// Edges between the given vertices.
fn all_edges(ends: &[(usize, usize)]) -> Vec<Edge<On<Point3>>> {
    let span = |number: usize| Curve::Span {
        number: number as u32,
        t0: 0.0,
        t1: 8.0,
    };
    let edge = |(number, &vertices)| Edge {
        vertices,
        curve: On::from(span(number)),
    };
    ends.iter().enumerate().map(edge).collect()
}

/// The vertices of K9.
fn vertices() -> Vec<Point3> {
    [(1.0, 0.0), (-1.0, 0.0), (1.0, 4.0), (-1.0, 4.0)]
        .map(|(x, z)| Point3::new(x, 0.0, z))
        .to_vec()
}

/// A wire from its notation.
fn wire(notation: &str) -> Wire {
    let numbers = records::wire(notation);
    let to_use = |number: u32| EdgeIndex {
        index: number as usize / 2,
        orientation: number % 2 == 0,
    };
    numbers.into_iter().map(to_use).collect()
}

/// The answer of the search for a divisor over one wire.
fn search(notation: &str) -> Option<(usize, usize)> {
    find_non_simple_wire_divisor(&[wire(notation)], &edges(&[]), &vertices())
}

/// The split of a face that is rebuilt whole.
fn split(face: &[Wire], list: &[usize], edges: &mut Vec<Edge<On<Point3>>>) -> Vec<Wire> {
    let place = |&v: &usize| (0.0, (v, Point2::new(v as f64, 0.5)));
    let on_divisor: Vec<_> = list.iter().map(place).collect();
    let mut lines = vec![PolylineCurve(Vec::new()); edges.len()];
    let tables = (edges, &mut lines);
    ways::split([face, face], &on_divisor, Surface { number: 3 }, tables)
}

#[test]
fn k4_and_k5_unwrapping() {
    assert_eq!(get_mindiff(0.5, 6.0, 4.0), 4.5);
    assert_eq!(get_mindiff(0.0, 2.0, 4.0), 0.0);
    assert_eq!(get_mindiff(-0.0, 0.0, 4.0).to_bits(), 0.0f64.to_bits());
}

#[test]
fn nearest_copies_come_u_outermost() {
    let copies: Vec<_> = periodic_iterator(Point2::new(1.0, 2.0), (Some(4.0), None)).collect();
    let expected = [-7.0, -3.0, 1.0, 5.0, 9.0].map(|u| Point2::new(u, 2.0));
    assert_eq!(copies, expected);
    let both = periodic_iterator(Point2::new(0.0, 0.0), (Some(1.0), Some(1.0)));
    let second = both.skip(1).next();
    assert_eq!(second, Some(Point2::new(-2.0, -1.0)));
}

#[test]
fn k6_k8_and_k9_search() {
    assert_eq!(search("0+ 1+ 2+"), None);
    assert_eq!(search("0+ 0- 1+"), None);
    assert_eq!(search("1+ 2+ 0+ 3+ 4+ 0-"), Some((3, 1)));
}

#[test]
#[should_panic(expected = "index out of bounds")]
fn k7_reads_past_the_end() {
    search("0+ 1+ 0-");
}

#[test]
fn k10_split() {
    let mut edges = edges(&[]);
    let wires = split(&[wire("1+ 2+ 0+ 3+ 4+ 0-")], &[3, 1], &mut edges);
    assert_eq!(wires, [wire("0+ 3+ 5+ 2+"), wire("1+ 5- 4+ 0-")]);
    let seam = Curve::Seam {
        surface: 3,
        p: [3.0, 0.5],
        q: [1.0, 0.5],
        t0: 0.0,
        t1: 1.0,
    };
    assert_eq!(edges[5].vertices, (3, 1));
    assert_eq!(edges[5].curve.curve, seam);
}

#[test]
#[should_panic(expected = "unreachable")]
fn k11_dead_end() {
    split(&[wire("0+")], &[], &mut all_edges(&[(0, 1)]));
}

#[test]
#[should_panic(expected = "something wrong")]
fn k12_crowd() {
    let mut edges = all_edges(&[(0, 1), (0, 1), (0, 1), (1, 0), (1, 0), (1, 0)]);
    split(&[wire("0+ 1+ 2+ 3+ 4+ 5+")], &[], &mut edges);
}

#[test]
fn k13_loops_at_one_vertex() {
    let wires = split(&[wire("0+ 1+ 2+")], &[], &mut all_edges(&[(0, 0); 3]));
    assert_eq!(wires, [wire("2+"), wire("1+"), wire("0+")]);
}

/// The list of K14: its one vertex makes a chunk without a second.
#[test]
#[should_panic(expected = "index out of bounds: the len is 1 but the index is 1")]
fn k14_odd_list() {
    split(&[], &[0], &mut all_edges(&[(0, 1)]));
}

/// A vertex twice on the divisor: the Rust makes a closed seam, and each of
/// its two uses is a wire.
#[test]
fn a_vertex_twice_on_the_divisor() {
    let mut edges = all_edges(&[]);
    let wires = split(&[], &[0, 0], &mut edges);
    assert_eq!(wires, [wire("0-"), wire("0+")]);
    assert_eq!(edges[0].vertices, (0, 0));
}

/// A vertex in two pairs: its list has a use of either seam.
#[test]
fn a_vertex_in_two_pairs() {
    let wires = split(&[], &[0, 1, 0, 2], &mut all_edges(&[]));
    assert_eq!(wires, [wire("1+ 1-"), wire("0+ 0-")]);
}

/// A list of three: the first pair is made, and then the last vertex panics.
#[test]
#[should_panic(expected = "index out of bounds: the len is 1 but the index is 1")]
fn a_list_of_three() {
    split(&[], &[0, 1, 2], &mut all_edges(&[]));
}

/// The least crowd: one edge, and three uses of it at its second vertex.
#[test]
#[should_panic(expected = "something wrong")]
fn the_least_crowd() {
    split(&[wire("0+ 0- 0- 0-")], &[], &mut all_edges(&[(0, 1)]));
}

/// The new edges are appended before the walk and stay when it panics.
#[test]
fn a_dead_end_leaves_the_new_edges() {
    let mut edges = all_edges(&[(0, 1)]);
    let walk = || split(&[wire("0+")], &[2, 3], &mut edges);
    let said = crate::healing::quiet::caught(walk).unwrap_err();
    assert_eq!(said, "internal error: entered unreachable code");
    assert_eq!((edges.len(), edges[1].vertices), (2, (2, 3)));
}

/// The split is not handed the vertices: any number is one.
#[test]
fn vertices_are_not_looked_at() {
    let wires = split(&[wire("0+")], &[], &mut all_edges(&[(9, 9)]));
    assert_eq!(wires, [wire("0+")]);
}

/// A use of an edge that is not there.
#[test]
#[should_panic(expected = "index out of bounds: the len is 1 but the index is 1")]
fn a_use_of_no_edge() {
    split(&[wire("1+")], &[], &mut all_edges(&[(0, 0)]));
}

/// The Rust has no bound on wires or uses out.
#[test]
fn more_uses_than_the_bound() {
    let uses = wire(&"0+ ".repeat(1024));
    let wires = split(&[uses], &[1, 2], &mut all_edges(&[(0, 0)]));
    assert_eq!((wires.len(), wires.concat().len()), (1025, 1026));
}

#[test]
fn no_uses_and_no_list() {
    assert_eq!(split(&[], &[], &mut all_edges(&[])), [wire(""); 0]);
}

#[test]
fn k15_and_k16_join() {
    let join = |open: [&str; 2]| {
        let mut wires = Vec::new();
        let (new, open) = (vec![wire("0+ 0-")], open.map(wire).to_vec());
        connect_open_boundaries(&mut wires, new, (0, 2), &edges(&[]), open).map(|()| wires)
    };
    let joined = vec![wire("0- 1+ 2+ 0+ 3+ 4+")];
    assert_eq!(join(["1+ 2+", "3+ 4+"]), Some(joined));
    assert_eq!(join(["3+ 4+", "1+ 2+"]), None);
}

#[test]
fn k17_to_k19_kind_of_wire() {
    let kind = |apart: f64, area: f64| {
        let points = [0.0, area, apart].map(|x| Point2::new(x, 0.0));
        boundary_type(&PolylineCurve(points.to_vec()))
    };
    assert!(matches!(kind(0.03125, 1.0), BoundaryType::Positive));
    assert!(matches!(kind(0.032, 1.0), BoundaryType::NotClosed));
    assert!(matches!(kind(0.0, 0.0), BoundaryType::Negative));
}

#[test]
fn one_cut_mends_the_wires() {
    let (mut edges, mut points, mut lines) = (edges(&[]), vertices(), Vec::new());
    lines.resize(edges.len(), PolylineCurve(Vec::new()));
    let cut = vec![(3.0, Point3::new(0.5, 0.25, 0.0))];
    let new = cut_edge_by_intersections(1, cut, &mut edges, &mut lines, &mut points, 0.1);
    assert_eq!((edges[1].vertices, edges[5].vertices), ((0, 4), (4, 1)));
    assert_eq!(edges[1].curve.curve.range(), (0.0, 3.0));
    assert_eq!(edges[5].curve.curve.range(), (3.0, 8.0));
    let mut mended = wire("1+ 2+ 1-");
    insert_new_edges(&mut mended, 1, new);
    assert_eq!(mended, wire("1+ 5+ 2+ 5- 1-"));
}

/// The ends of an edge and the range of its curve.
type Piece = ((usize, usize), (f64, f64));

/// The line from vertex 0 to vertex 1 with the parameters 0 to 1, cut at
/// these: the pieces, the count of vertices, and the wires 0+ and 0- once they
/// are mended.
fn line_cut_at(ts: &[f64]) -> (Vec<Piece>, usize, [Wire; 2]) {
    let mut edges = all_edges(&[(0, 1)]);
    edges[0].curve.curve = edges[0].curve.curve.over(0.0, 1.0);
    let (mut points, mut lines) = (vertices()[..2].to_vec(), vec![PolylineCurve(Vec::new())]);
    let cuts = ts.iter().map(|&t| (t, Point3::new(t, 0.0, 0.0))).collect();
    let new = cut_edge_by_intersections(0, cuts, &mut edges, &mut lines, &mut points, 0.1);
    let mended = ["0+", "0-"].map(|notation| {
        let mut mended = wire(notation);
        insert_new_edges(&mut mended, 0, new.clone());
        mended
    });
    let told = |edge: &Edge<On<Point3>>| (edge.vertices, edge.curve.curve.range());
    (edges.iter().map(told).collect(), points.len(), mended)
}

/// Why the port's one cut refuses two: of the three pieces in a wire none begins
/// where the one before it ends, and vertex 4 of four vertices is not there.
#[test]
fn two_cuts_come_apart() {
    let (edges, vertices, mended) = line_cut_at(&[0.25, 0.5]);
    let pieces = [
        ((0, 2), (0.0, 0.25)),
        ((3, 4), (0.5, 1.0)),
        ((2, 1), (0.25, 0.5)),
    ];
    assert_eq!((&edges[..], vertices), (&pieces[..], 4));
    assert_eq!(mended, ["0+ 1+ 2+", "2- 1- 0-"].map(wire));
    let one = line_cut_at(&[0.25]);
    let pieces = vec![((0, 2), (0.0, 0.25)), ((2, 1), (0.25, 1.0))];
    assert_eq!(one, (pieces, 3, ["0+ 1+", "1- 0-"].map(wire)));
}

/// So from two cuts on: the pieces stand from the last to the second behind the
/// first, each from its own vertex to the next number, save that the second
/// piece ends where the line did.
#[test]
fn three_cuts_come_apart() {
    let (edges, vertices, mended) = line_cut_at(&[0.25, 0.5, 0.75]);
    let pieces = [
        ((0, 2), (0.0, 0.25)),
        ((4, 5), (0.75, 1.0)),
        ((3, 4), (0.5, 0.75)),
        ((2, 1), (0.25, 0.5)),
    ];
    assert_eq!((&edges[..], vertices), (&pieces[..], 5));
    assert_eq!(mended, ["0+ 1+ 2+ 3+", "3- 2- 1- 0-"].map(wire));
}

/// Over and over, from the last to the first, the Rust's one cut does not.
#[test]
fn one_cut_over_and_over_does_not_come_apart() {
    let cuts = [[0.25, 2.0, 3.0, 4.0], [0.5, 5.0, 6.0, 7.0]];
    let line = |front: u32, back: u32, t0: f64, t1: f64| records::Edge {
        front,
        back,
        curve: Curve::Span { number: 0, t0, t1 },
        preparation: records::Preparation::SingleBevel,
    };
    let before = records::Shell {
        vertices: vec![records::Vertex::Given(0.0, 0.0, 0.0); 2],
        edges: vec![line(0, 1, 0.0, 1.0)],
        wires: records::wires(&["0+", "0-"]),
    };
    let falling = [cuts[1], cuts[0]];
    let after = crate::healing::cut(&before, 0, &falling);
    let pieces = [(0, 3, 0.0, 0.25), (2, 1, 0.5, 1.0), (3, 2, 0.25, 0.5)];
    assert_eq!(after.edges, pieces.map(|(a, b, t, u)| line(a, b, t, u)));
    assert_eq!(after.wires, records::wires(&["0+ 2+ 1+", "1- 2- 0-"]));
    let along = crate::healing::cut_from_last(&before, 0, &cuts);
    let pieces = [(0, 2, 0.0, 0.25), (2, 3, 0.25, 0.5), (3, 1, 0.5, 1.0)];
    assert_eq!(along.edges, pieces.map(|(a, b, t, u)| line(a, b, t, u)));
    assert_eq!(along.wires, records::wires(&["0+ 1+ 2+", "2- 1- 0-"]));
    let points = [(2.0, 3.0, 4.0), (5.0, 6.0, 7.0)];
    let points = points.map(|(x, y, z)| records::Vertex::Given(x, y, z));
    assert_eq!(along.vertices[2..], points);
}

/// Its caller `take_vertices_to_intersections` goes by an edge without
/// intersections, so that the cut is never made with an empty list.
#[test]
#[should_panic(expected = "called `Option::unwrap()` on a `None` value")]
fn no_cut_panics() {
    line_cut_at(&[]);
}

/// The join of these open wires over edges with these ends; both vertices are
/// the same.
fn join_at(v: usize, ends: &[(usize, usize)], open: [&str; 2], new: &[&str]) -> Option<Vec<Wire>> {
    let new = new.iter().map(|notation| wire(notation)).collect();
    ways::joined(new, (v, v), &all_edges(ends), open.map(wire).to_vec())
}

/// The first open wire is empty and is turned by one.
#[test]
#[should_panic(expected = "mid <= self.len()")]
fn an_empty_first_open_wire_panics() {
    join_at(0, &[(0, 0)], ["", "0+"], &[]);
}

#[test]
fn empty_open_wires_are_not_joined() {
    assert_eq!(join_at(0, &[], ["", ""], &[]), None);
    assert_eq!(join_at(0, &[(0, 0)], ["0+", ""], &[]), None);
    assert_eq!(join_at(0, &[(0, 0)], ["0+", ""], &["0+"]), None);
    // v0 is at the second place of the second: the empty one becomes it.
    assert_eq!(join_at(1, &[(0, 1)], ["", "0+ 0-"], &["0-"]), None);
}

/// v0 is at the second place of the first: the empty one takes its place and
/// is turned by nothing.
#[test]
fn an_empty_second_open_wire_is_joined() {
    let joined = vec![wire("0- 0- 0+")];
    assert_eq!(join_at(1, &[(0, 1)], ["0+ 0-", ""], &["0-"]), Some(joined));
}
