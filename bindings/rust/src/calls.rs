//! The calls as a host in Rust makes them.

use crate::lent::{Cuts, Divisor, Edges, EdgesMut, Room, Stretch};
use crate::lent::{Tables, TablesMut, Wires, WiresMut};
use crate::raw::{self, DONE, NONE};
use crate::refusal::Refusal;

/// The number of eighths to the middle of a curve.
pub const MIDDLE: u32 = 4;

/// A period; a surface that does not repeat itself has none.
pub type Period = Option<f64>;

/// How many vertices, edges and uses there are after a call.
#[derive(Clone, Copy, Debug, Default, PartialEq, Eq)]
pub struct Counts {
    /// The vertices.
    pub vertices: usize,
    /// The edges.
    pub edges: usize,
    /// The uses in all wires together.
    pub uses: usize,
}

/// How many wires a split built, with how many uses, and how many edges there
/// are now.
#[derive(Clone, Copy, Debug, Default, PartialEq, Eq)]
pub struct Rebuilt {
    /// The wires.
    pub wires: usize,
    /// The uses in all of them together.
    pub uses: usize,
    /// The edges, new ones included.
    pub edges: usize,
}

/// The kind of a wire.
#[derive(Clone, Copy, Debug, PartialEq, Eq, Hash)]
#[repr(u32)]
pub enum BoundaryType {
    /// Closed, with an area above 0.
    Positive = 0,
    /// Closed, with an area of 0 or below.
    Negative = 1,
    /// Not closed.
    NotClosed = 2,
}

impl BoundaryType {
    /// The kind that the archive tells by this number.
    fn of(kind: u32) -> Result<BoundaryType, Refusal> {
        match kind {
            0 => Ok(BoundaryType::Positive),
            1 => Ok(BoundaryType::Negative),
            2 => Ok(BoundaryType::NotClosed),
            _ => Err(Refusal::UnknownKind(kind)),
        }
    }
}

/// A code that tells of a result or of a refusal.
fn done(code: i32) -> Result<(), Refusal> {
    match code {
        DONE => Ok(()),
        _ => Err(Refusal::of(code).unwrap_or(Refusal::Unknown(code))),
    }
}

/// A code that may also tell of "none": whether there is a result.
fn found(code: i32) -> Result<bool, Refusal> {
    if code == NONE {
        return Ok(false);
    }
    done(code).map(|()| true)
}

/// Cuts every edge with equal ends k eighths of the way along its curve, k from
/// 1 to 7, and mends every wire, in place. Both pieces have the preparation of
/// the edge that was cut; [`cut_parameter`] answers where it is cut.
///
/// K1 of document 01, the square edge (0, 0) with span 7 from 0 to 8 and wire
/// 0+, cut at the middle:
///
/// ```
/// use kaugrenna::{split_closed_edges, Counts, TablesMut, WiresMut, MIDDLE};
///
/// let (mut vertex_numbers, mut vertex_floats) = ([0; 6], [0.0; 14]);
/// let mut edge_numbers = [0, 0, 0, 7, 0, 0, 0, 0, 0, 0];
/// let mut edge_floats = [0.0; 12];
/// edge_floats[5] = 8.0;
/// let (mut uses, mut lengths) = ([0, 0], [1]);
/// let tables = TablesMut {
///     vertex_numbers: &mut vertex_numbers,
///     vertex_floats: &mut vertex_floats,
///     edge_numbers: &mut edge_numbers,
///     edge_floats: &mut edge_floats,
///     vertices: 1,
///     edges: 1,
/// };
/// let wires = WiresMut { uses: &mut uses, lengths: &mut lengths, count: 1 };
/// let counts = split_closed_edges(tables, wires, MIDDLE)?;
/// assert_eq!(counts, Counts { vertices: 2, edges: 2, uses: 2 });
/// assert_eq!(edge_numbers, [0, 1, 0, 7, 0, 1, 0, 0, 7, 0]);
/// assert_eq!((edge_floats[5], edge_floats[10], vertex_floats[13]), (4.0, 4.0, 4.0));
/// assert_eq!((uses, lengths), ([0, 2], [2]));
/// # Ok::<(), kaugrenna::Refusal>(())
/// ```
pub fn split_closed_edges(
    tables: TablesMut<'_>,
    wires: WiresMut<'_>,
    k: u32,
) -> Result<Counts, Refusal> {
    let mut counts = Counts::default();
    let out = [&mut counts.vertices, &mut counts.edges, &mut counts.uses];
    done(raw::split_closed_edges(tables, wires, k, out)).map(|()| counts)
}

/// The parameter k eighths of the way from t0 to t1, k from 1 to 7, at which
/// [`split_closed_edges`] cuts a curve; it is never outside t0 to t1.
///
/// ```
/// use kaugrenna::{cut_parameter, Refusal, MIDDLE};
/// assert_eq!(cut_parameter(0.0, 8.0, 1), Ok(1.0));
/// assert_eq!(cut_parameter(0.0, 8.0, MIDDLE), Ok(4.0));
/// assert_eq!(cut_parameter(0.0, 8.0, 8), Err(Refusal::EighthsOutOfRange));
/// ```
pub fn cut_parameter(t0: f64, t1: f64, k: u32) -> Result<f64, Refusal> {
    let mut t = 0.0;
    done(raw::cut_parameter(t0, t1, k, &mut t)).map(|()| t)
}

/// Cuts edge number `edge` at a parameter and point, and mends every wire, in
/// place. Both pieces have the preparation of the edge that was cut. No cut
/// changes nothing; two or more are refused, which [`cut_edge_at_points`]
/// takes.
pub fn cut_edge_by_intersections(
    tables: TablesMut<'_>,
    wires: WiresMut<'_>,
    cuts: Cuts<'_>,
    edge: u32,
) -> Result<Counts, Refusal> {
    let mut counts = Counts::default();
    let out = [&mut counts.vertices, &mut counts.edges, &mut counts.uses];
    let code = raw::cut_edge_by_intersections(tables, wires, cuts, edge, out);
    done(code).map(|()| counts)
}

/// Cuts edge number `edge` at several points, at most
/// [`MAX_CUTS`](crate::lent::MAX_CUTS) in strictly rising parameter, and mends
/// every wire, in place. The edge becomes a chain of pieces: the first keeps
/// its number, the new edges and the new vertices are numbered along the curve.
/// Each piece has the preparation of the edge that was cut. No cut changes
/// nothing, and one is made as by [`cut_edge_by_intersections`].
///
/// The rim of a cone, edge (0, 1) with span 7 from 0 to 8, meets three slots
/// at 2, 4 and 6; it is used by wire 0+ and, from the other side, by 0-:
///
/// ```
/// use kaugrenna::{cut_edge_at_points, Counts, Cuts, OwnedTables, OwnedWires};
///
/// let mut tables = OwnedTables {
///     vertex_numbers: vec![0; 15],
///     vertex_floats: vec![0.0; 35],
///     edge_numbers: vec![0; 20],
///     edge_floats: vec![0.0; 24],
///     vertices: 2,
///     edges: 1,
/// };
/// tables.edge_numbers[..5].copy_from_slice(&[0, 1, 0, 7, 0]);
/// tables.edge_floats[5] = 8.0;
/// let mut wires = OwnedWires { uses: vec![0; 8], lengths: vec![1, 1], count: 2 };
/// wires.uses[1] = 1;
/// let cuts = Cuts {
///     // The parameter of each cut, and its point.
///     floats: &[2.0, 0.5, 0.5, 0.0, 4.0, 0.0, 1.0, 0.0, 6.0, -0.5, 0.5, 0.0],
///     count: 3,
/// };
/// let counts = cut_edge_at_points(tables.lend_mut(), wires.lend_mut(), cuts, 0)?;
/// assert_eq!(counts, Counts { vertices: 5, edges: 4, uses: 8 });
/// let pieces = [[0, 2, 0, 7, 0], [2, 3, 0, 7, 0], [3, 4, 0, 7, 0], [4, 1, 0, 7, 0]];
/// assert_eq!(tables.edge_numbers, pieces.concat());
/// let ranges = [5, 10, 11, 16, 17, 22, 23].map(|cell| tables.edge_floats[cell]);
/// assert_eq!(ranges, [2.0, 2.0, 4.0, 4.0, 6.0, 6.0, 8.0]);
/// // 0+ 1+ 2+ 3+ and 3- 2- 1- 0-
/// assert_eq!(wires.uses, [0, 2, 4, 6, 7, 5, 3, 1]);
/// assert_eq!(wires.lengths, [4, 4]);
/// # Ok::<(), kaugrenna::Refusal>(())
/// ```
pub fn cut_edge_at_points(
    tables: TablesMut<'_>,
    wires: WiresMut<'_>,
    cuts: Cuts<'_>,
    edge: u32,
) -> Result<Counts, Refusal> {
    let mut counts = Counts::default();
    let out = [&mut counts.vertices, &mut counts.edges, &mut counts.uses];
    done(raw::cut_edge_at_points(tables, wires, cuts, edge, out)).map(|()| counts)
}

/// Of u moved by -2 to 2 periods, the number nearest to u0.
pub fn get_mindiff(u: f64, u0: f64, period: Period) -> Result<f64, Refusal> {
    let mut nearest = 0.0;
    done(raw::get_mindiff(u, u0, period.into(), &mut nearest)).map(|()| nearest)
}

/// Of the periodic copies of the uv point q, the one nearest to p.
pub fn nearest_copy(p: [f64; 2], q: [f64; 2], periods: [Period; 2]) -> Result<[f64; 2], Refusal> {
    let [mut u, mut v] = [0.0; 2];
    let periods = periods.map(raw::Period::from);
    done(raw::nearest_copy(p, q, periods, [&mut u, &mut v])).map(|()| [u, v])
}

/// The kind of a wire, from its first and last uv point and its area.
pub fn boundary_type(first: [f64; 2], last: [f64; 2], area: f64) -> Result<BoundaryType, Refusal> {
    let mut kind = 0;
    done(raw::boundary_type(first, last, area, &mut kind))?;
    BoundaryType::of(kind)
}

/// The numbers of the two open wires and of the closed ones, to the front of
/// their slices; how many are closed. None unless exactly two are open.
pub fn sort_wires(
    ends: &[f64],
    wires: usize,
    open: &mut [u32],
    closed: &mut [u32],
) -> Result<Option<usize>, Refusal> {
    let mut count = 0;
    let code = raw::sort_wires(ends, wires, open, closed, &mut count);
    found(code).map(|there| there.then_some(count))
}

/// From v0 the nearest front of the second stretch, and from there the nearest
/// of the first: a vertex of the first and one of the second. None for an
/// empty stretch.
pub fn nearest_correction(
    tables: Tables<'_>,
    first: Stretch<'_>,
    second: Stretch<'_>,
    v0: u32,
) -> Result<Option<[u32; 2]>, Refusal> {
    let [mut a, mut b] = [0; 2];
    let code = raw::nearest_correction(tables, first, second, v0, [&mut a, &mut b]);
    found(code).map(|there| there.then_some([a, b]))
}

/// Of the wires in order the first that uses an edge twice and can be divided:
/// the two vertices between which it is. None where no wire can.
pub fn find_non_simple_wire_divisor(
    tables: Tables<'_>,
    wires: Wires<'_>,
) -> Result<Option<[u32; 2]>, Refusal> {
    let [mut a, mut b] = [0; 2];
    let code = raw::find_non_simple_wire_divisor(tables, wires, [&mut a, &mut b]);
    found(code).map(|there| there.then_some([a, b]))
}

/// Rebuilds wires of a face along a divisor: its seams, which are square, are
/// appended to the edge table, and the wires that are built go to the room.
///
/// K10 of document 01, a pipe with a slit, divided from vertex 3 to vertex 1:
///
/// ```
/// use kaugrenna::{split_boundaries_by_divisor, Divisor, EdgesMut, Rebuilt, Room, Wires};
///
/// let mut numbers = [
///     0, 2, 0, 0, 0, 0, 1, 0, 0, 0, 1, 0, 0, 0, 0, // an edge along the pipe, a rim
///     2, 3, 0, 0, 0, 3, 2, 0, 0, 0, // the other rim
///     0, 0, 0, 0, 0, // room for the seam
/// ];
/// let (mut floats, mut uses, mut lengths) = ([0.0; 36], [0; 8], [0; 8]);
/// let edges = EdgesMut { numbers: &mut numbers, floats: &mut floats, count: 5, vertices: 4 };
/// let face = Wires { uses: &[2, 4, 0, 6, 8, 1], lengths: &[6], count: 1 };
/// let divisor = Divisor {
///     vertices: &[3, 1],
///     points: &[0.25, 0.5, 0.75, 1.0],
///     count: 2,
///     surface: 7,
/// };
/// let room = Room { uses: &mut uses, lengths: &mut lengths };
/// let rebuilt = split_boundaries_by_divisor(edges, [face, face], divisor, room)?;
/// assert_eq!(rebuilt, Rebuilt { wires: 2, uses: 8, edges: 6 });
/// assert_eq!(numbers[25..], [3, 1, 1, 7, 0]);
/// assert_eq!((uses, &lengths[..2]), ([0, 6, 10, 4, 2, 11, 8, 1], &[4, 4][..]));
/// # Ok::<(), kaugrenna::Refusal>(())
/// ```
pub fn split_boundaries_by_divisor(
    edges: EdgesMut<'_>,
    face_and_rebuilt: [Wires<'_>; 2],
    divisor: Divisor<'_>,
    room: Room<'_>,
) -> Result<Rebuilt, Refusal> {
    let mut rebuilt = Rebuilt::default();
    let out = [&mut rebuilt.wires, &mut rebuilt.uses, &mut rebuilt.edges];
    let code = raw::split_boundaries_by_divisor(edges, face_and_rebuilt, divisor, room, out);
    done(code).map(|()| rebuilt)
}

/// Joins two open wires with the first new wire that holds the first of `ends`,
/// in place: how many uses the new wires have now. None where something is not
/// found.
pub fn connect_open_boundaries(
    edges: Edges<'_>,
    open: [Stretch<'_>; 2],
    wires: WiresMut<'_>,
    ends: [u32; 2],
) -> Result<Option<usize>, Refusal> {
    let mut uses = 0;
    let code = raw::connect_open_boundaries(edges, open, wires, ends, &mut uses);
    found(code).map(|there| there.then_some(uses))
}

#[cfg(test)]
mod tests {
    use super::{done, found, BoundaryType};
    use crate::Refusal;

    #[test]
    fn codes_that_are_known() {
        assert_eq!(
            (done(0), found(0), found(-1)),
            (Ok(()), Ok(true), Ok(false))
        );
        for refusal in Refusal::ALL {
            assert_eq!(done(refusal.number()), Err(refusal));
            assert_eq!(found(refusal.number()), Err(refusal));
        }
    }

    #[test]
    fn codes_that_are_not_known() {
        for code in [19, 20, -2, i32::MAX, i32::MIN] {
            assert_eq!(done(code), Err(Refusal::Unknown(code)));
            assert_eq!(found(code), Err(Refusal::Unknown(code)));
        }
        assert_eq!(done(-1), Err(Refusal::Unknown(-1)));
    }

    #[test]
    fn kinds_of_wires() {
        let kinds = [
            BoundaryType::Positive,
            BoundaryType::Negative,
            BoundaryType::NotClosed,
        ];
        for kind in kinds {
            assert_eq!(BoundaryType::of(kind as u32), Ok(kind));
        }
        assert_eq!(BoundaryType::of(3), Err(Refusal::UnknownKind(3)));
    }
}
