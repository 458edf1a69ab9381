//! The ways to those of the functions that the port has calls for.

use super::*;

/// The polylines that the Rust carries along, one for each edge.
type Lines = Vec<PolylineCurve<Point3>>;

/// The candidate nearest to `u0`.
pub fn unwrapped(u: f64, u0: f64, period: f64) -> f64 {
    get_mindiff(u, u0, period)
}

/// The copy of `q` nearest to `p`, taken as the callers of the iterator do.
pub fn nearest(p: Point2, q: Point2, periods: (Option<f64>, Option<f64>)) -> Point2 {
    periodic_iterator(q, periods)
        .min_by(|q, r| p.distance2(*q).partial_cmp(&p.distance2(*r)).unwrap())
        .expect("there is a copy")
}

/// The number of a wire's kind.
pub fn kind(poly: &PolylineCurve<Point2>) -> u32 {
    match boundary_type(poly) {
        BoundaryType::Positive => 0,
        BoundaryType::Negative => 1,
        BoundaryType::NotClosed => 2,
    }
}

/// The numbers of the two open wires and of the closed ones, sorted as
/// `non_closed_wires_in_param_divisor` sorts the wires.
pub fn sorted(polys: &[PolylineCurve<Point2>]) -> Option<(Vec<usize>, Vec<usize>)> {
    let (mut open, mut closed) = (Vec::new(), Vec::new());
    for (number, poly) in polys.iter().enumerate() {
        match boundary_type(poly) {
            BoundaryType::NotClosed => open.push(number),
            _ => closed.push(number),
        }
    }
    (open.len() == 2).then_some((open, closed))
}

/// The nearest ends of two stretches. The second vertex of the pair that is
/// handed in is not read.
pub fn nearest_ends<C>(
    v0: usize,
    stretches: [&[EdgeIndex]; 2],
    vertices: &[Point3],
    edges: &[Edge<C>],
) -> Option<(usize, usize)> {
    let [first, second] = stretches;
    nearest_correction(
        (v0, usize::MAX),
        first,
        second,
        vertices,
        closure_take_front(edges),
    )
}

/// The divisor of the first wire that has one.
pub fn divisor<C>(
    wires: &[Wire],
    edges: &[Edge<C>],
    vertices: &[Point3],
) -> Option<(usize, usize)> {
    find_non_simple_wire_divisor(wires, edges, vertices)
}

/// One cut of an edge, and then every wire mended. Both are done by
/// `take_vertices_to_intersections`, for each use in the wires of one face:
/// where the list of intersections is empty it returns before the cut, which
/// would panic on such a list, and mends nothing. After all uses of the face
/// are gone through, the wires of all faces are mended, cut by cut.
pub fn cut<C>(
    index: usize,
    cut: Vec<(f64, Point3)>,
    (edges, lines, vertices): (&mut Vec<Edge<C>>, &mut Lines, &mut Vec<Point3>),
    wires: &mut [Wire],
) where
    C: Cut<Point = Point3> + ParameterDivision1D<Point = Point3>,
{
    let new = cut_edge_by_intersections(index, cut, edges, lines, vertices, 0.1);
    let mend = |wire: &mut Wire| insert_new_edges(wire, index, new.clone());
    wires.iter_mut().for_each(mend);
}

/// The new wires with the two open ones put in, in place of the face's wires.
pub fn connect<C>(
    wires: &mut Vec<Wire>,
    new: Vec<Wire>,
    ends: (usize, usize),
    edges: &[Edge<C>],
    open: Vec<Wire>,
) -> Option<()> {
    connect_open_boundaries(wires, new, ends, edges, open)
}

/// The new wires with the two open ones put in. Where there is nothing to be
/// had, the wires of the face stay as they were.
pub fn joined<C>(
    new: Vec<Wire>,
    ends: (usize, usize),
    edges: &[Edge<C>],
    open: Vec<Wire>,
) -> Option<Vec<Wire>> {
    let before = vec![Vec::new(); 3];
    let mut wires = before.clone();
    let found = connect(&mut wires, new, ends, edges, open);
    assert!(found.is_some() || wires == before, "none changes nothing");
    found.map(|()| wires)
}

/// The wires that the split builds once the vertices on the divisor are known.
/// These are the lines of `split_boundaries_by_divisor` from `duplicated_edges`
/// on, without the line that finds the vertices, which needs the surface. Of
/// an odd list the last vertex is a chunk of its own, and `create_new_edges`
/// panics as it reads its second.
pub fn split(
    [face, rebuilt]: [&[Wire]; 2],
    on_divisor: &[(f64, (usize, Point2))],
    surface: Surface,
    (edges, lines): (&mut Vec<Edge<On<Point3>>>, &mut Lines),
) -> Vec<Wire> {
    let mut marked = duplicated_edges(face.iter().flatten().map(|ei| ei.index));
    let new_edges = create_new_edges(on_divisor, lines, &surface, 0.1);
    let new_edges = new_edges.expect("a line on a surface is a seam");
    let (new_edge_range, new_edge_indices) = signup_new_edges(edges, new_edges);
    assert_eq!(lines.len(), edges.len(), "a polyline for each edge");
    marked.extend(new_edge_range);
    let edge_iter = rebuilt.iter().flatten().copied().chain(new_edge_indices);
    let vemap = create_vemap(edges, edge_iter);
    construct_boundaries(vemap, edges, &marked)
}
