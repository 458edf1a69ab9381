//! The archive's calls as they are: each answers the header's code and writes
//! to the places lent for its values. The safe layer stands on this one.
//!
//! Every call is a safe function, since the header asks four things only and
//! references give them: no pointer is null and each is aligned, also that of
//! an empty slice; beside each stands the length of its slice; what is
//! written is borrowed as `&mut` and so overlaps nothing else that is lent;
//! and no call keeps a pointer. Cells and counts may hold any bits.

pub mod c;

use crate::lent::{Cuts, Divisor, Edges, EdgesMut, Room, Stretch};
use crate::lent::{Tables, TablesMut, Wires, WiresMut};

/// The code of a result.
pub const DONE: i32 = 0;
/// The code of "none".
pub const NONE: i32 = -1;

/// A period as it is handed over: any kind, any number.
#[derive(Clone, Copy, Debug)]
pub struct Period {
    /// 0 for no period, 1 for one.
    pub kind: u32,
    /// The period; no input where there is none.
    pub size: f64,
}

impl From<Option<f64>> for Period {
    fn from(period: Option<f64>) -> Self {
        Period {
            kind: u32::from(period.is_some()),
            size: period.unwrap_or(0.0),
        }
    }
}

/// Makes a call. A slice goes over as its pointer, by the method that stands
/// before it, and its length; behind all slices come the plain arguments.
macro_rules! ask {
    ($name:ident($($pointer:ident $slice:expr),*; $($plain:expr),*)) => {
        c::$name($($slice.$pointer(), $slice.len(),)* $($plain),*)
    };
}

/// Makes one of the two calls that cut one edge, which take the same.
macro_rules! ask_to_cut {
    ($name:ident($tables:ident, $wires:ident, $cuts:ident, $edge:ident, $out:ident)) => {{
        let [vertices_out, edges_out, uses_out] = $out;
        ask!($name(
            as_mut_ptr $tables.vertex_numbers,
            as_mut_ptr $tables.vertex_floats,
            as_mut_ptr $tables.edge_numbers,
            as_mut_ptr $tables.edge_floats,
            as_mut_ptr $wires.uses,
            as_mut_ptr $wires.lengths,
            as_ptr $cuts.floats;
            $tables.vertices,
            $tables.edges,
            $wires.count,
            $edge,
            $cuts.count,
            vertices_out,
            edges_out,
            uses_out
        ))
    }};
}

/// Cuts every closed edge, k eighths of the way along its curve. `out`:
/// vertices, edges, uses.
pub fn split_closed_edges(
    tables: TablesMut<'_>,
    wires: WiresMut<'_>,
    k: u32,
    out: [&mut usize; 3],
) -> i32 {
    let [vertices_out, edges_out, uses_out] = out;
    // SAFETY: all six slices and the three places are `&mut` of their own.
    unsafe {
        ask!(kaugrenna_split_closed_edges(
            as_mut_ptr tables.vertex_numbers,
            as_mut_ptr tables.vertex_floats,
            as_mut_ptr tables.edge_numbers,
            as_mut_ptr tables.edge_floats,
            as_mut_ptr wires.uses,
            as_mut_ptr wires.lengths;
            tables.vertices,
            tables.edges,
            wires.count,
            k,
            vertices_out,
            edges_out,
            uses_out
        ))
    }
}

/// The parameter k eighths of the way from t0 to t1.
pub fn cut_parameter(t0: f64, t1: f64, k: u32, t_out: &mut f64) -> i32 {
    // SAFETY: the one place is a `&mut`.
    unsafe { c::kaugrenna_cut_parameter(t0, t1, k, t_out) }
}

/// Cuts edge number `edge` at one point. `out`: vertices, edges, uses.
pub fn cut_edge_by_intersections(
    tables: TablesMut<'_>,
    wires: WiresMut<'_>,
    cuts: Cuts<'_>,
    edge: u32,
    out: [&mut usize; 3],
) -> i32 {
    // SAFETY: the cuts are only read; the six slices and the three places that
    // are written are `&mut` of their own.
    unsafe {
        ask_to_cut!(kaugrenna_cut_edge_by_intersections(
            tables, wires, cuts, edge, out
        ))
    }
}

/// Cuts edge number `edge` at several points. `out`: vertices, edges, uses.
pub fn cut_edge_at_points(
    tables: TablesMut<'_>,
    wires: WiresMut<'_>,
    cuts: Cuts<'_>,
    edge: u32,
    out: [&mut usize; 3],
) -> i32 {
    // SAFETY: as for one point.
    unsafe { ask_to_cut!(kaugrenna_cut_edge_at_points(tables, wires, cuts, edge, out)) }
}

/// Unwraps u towards u0.
pub fn get_mindiff(u: f64, u0: f64, period: Period, out: &mut f64) -> i32 {
    // SAFETY: the one place is a `&mut`.
    unsafe { c::kaugrenna_get_mindiff(u, u0, period.kind, period.size, out) }
}

/// The copy of q nearest to p; periods of u and v. `out`: u, v.
pub fn nearest_copy(p: [f64; 2], q: [f64; 2], periods: [Period; 2], out: [&mut f64; 2]) -> i32 {
    let ([pu, pv], [qu, qv], [u, v]) = (p, q, periods);
    let [u_out, v_out] = out;
    // SAFETY: the two places are `&mut` of their own.
    unsafe {
        c::kaugrenna_nearest_copy(pu, pv, qu, qv, u.kind, u.size, v.kind, v.size, u_out, v_out)
    }
}

/// The kind of a wire, from its ends as u, v and its area.
pub fn boundary_type(first: [f64; 2], last: [f64; 2], area: f64, kind_out: &mut u32) -> i32 {
    let ([u0, v0], [u1, v1]) = (first, last);
    // SAFETY: the one place is a `&mut`.
    unsafe { c::kaugrenna_boundary_type(u0, v0, u1, v1, area, kind_out) }
}

/// Sorts so many wires, rows of [`END_FLOATS`](crate::lent::END_FLOATS).
pub fn sort_wires(
    ends: &[f64],
    wires: usize,
    open: &mut [u32],
    closed: &mut [u32],
    closed_out: &mut usize,
) -> i32 {
    // SAFETY: the ends are only read; the two slices and the place that are
    // written are `&mut` of their own.
    unsafe {
        c::kaugrenna_sort_wires(
            ends.as_ptr(),
            ends.len(),
            wires,
            open.as_mut_ptr(),
            open.len(),
            closed.as_mut_ptr(),
            closed.len(),
            closed_out,
        )
    }
}

/// Nearest ends of two stretches. `out`: of the first, of the second.
pub fn nearest_correction(
    tables: Tables<'_>,
    first: Stretch<'_>,
    second: Stretch<'_>,
    v0: u32,
    out: [&mut u32; 2],
) -> i32 {
    let [v0_out, v1_out] = out;
    // SAFETY: the slices are only read; the two places are `&mut` of their own.
    unsafe {
        ask!(kaugrenna_nearest_correction(
            as_ptr tables.vertex_numbers,
            as_ptr tables.vertex_floats,
            as_ptr tables.edge_numbers,
            as_ptr tables.edge_floats,
            as_ptr first.uses,
            as_ptr second.uses;
            tables.vertices,
            tables.edges,
            first.count,
            second.count,
            v0,
            v0_out,
            v1_out
        ))
    }
}

/// The first wire that can be divided. `out`: its two vertices.
pub fn find_non_simple_wire_divisor(
    tables: Tables<'_>,
    wires: Wires<'_>,
    out: [&mut u32; 2],
) -> i32 {
    let [v0_out, v1_out] = out;
    // SAFETY: the slices are only read; the two places are `&mut` of their own.
    unsafe {
        ask!(kaugrenna_find_non_simple_wire_divisor(
            as_ptr tables.vertex_numbers,
            as_ptr tables.vertex_floats,
            as_ptr tables.edge_numbers,
            as_ptr tables.edge_floats,
            as_ptr wires.uses,
            as_ptr wires.lengths;
            tables.vertices,
            tables.edges,
            wires.count,
            v0_out,
            v1_out
        ))
    }
}

/// Rebuilds wires along a divisor. `out`: wires, uses, edges.
pub fn split_boundaries_by_divisor(
    edges: EdgesMut<'_>,
    [face, rebuilt]: [Wires<'_>; 2],
    divisor: Divisor<'_>,
    room: Room<'_>,
    out: [&mut usize; 3],
) -> i32 {
    let [wires_out, uses_out, edges_out] = out;
    // SAFETY: wires and divisor are only read; the edge table, the room and
    // the three places are `&mut` of their own.
    unsafe {
        ask!(kaugrenna_split_boundaries_by_divisor(
            as_mut_ptr edges.numbers,
            as_mut_ptr edges.floats,
            as_ptr face.uses,
            as_ptr face.lengths,
            as_ptr rebuilt.uses,
            as_ptr rebuilt.lengths,
            as_ptr divisor.vertices,
            as_ptr divisor.points,
            as_mut_ptr room.uses,
            as_mut_ptr room.lengths;
            edges.vertices,
            edges.count,
            face.count,
            rebuilt.count,
            divisor.count,
            divisor.surface,
            wires_out,
            uses_out,
            edges_out
        ))
    }
}

/// Joins two open wires with the first new wire that holds v0.
pub fn connect_open_boundaries(
    edges: Edges<'_>,
    [first, second]: [Stretch<'_>; 2],
    wires: WiresMut<'_>,
    [v0, v1]: [u32; 2],
    uses_out: &mut usize,
) -> i32 {
    // SAFETY: edges and open wires are only read; the new wires and the place
    // are `&mut` of their own.
    unsafe {
        ask!(kaugrenna_connect_open_boundaries(
            as_ptr edges.numbers,
            as_ptr edges.floats,
            as_ptr first.uses,
            as_ptr second.uses,
            as_mut_ptr wires.uses,
            as_mut_ptr wires.lengths;
            edges.vertices,
            edges.count,
            first.count,
            second.count,
            wires.count,
            v0,
            v1,
            uses_out
        ))
    }
}
