//! The archive, called through the binding's lower layer.

use crate::port::{Closed, Cut, CutParameter, Join, Nearest, NearestCopy, Pass, Period, Port};
use crate::port::{Rows, Search, Sort, Split, Unwrap, WireEnds, Wires};
use kaugrenna::raw;
use kaugrenna::{Cuts, Divisor, Edges, EdgesMut, Room, Stretch, Tables, TablesMut, WiresMut};

/// The archive.
pub struct Library;

/// Bits as the floats that they are.
fn floats(bits: &[u64]) -> &[f64] {
    // SAFETY: both are 64 bits, aligned alike, and any bits are a float.
    unsafe { std::slice::from_raw_parts(bits.as_ptr().cast(), bits.len()) }
}

/// Bits as the floats that they are, to be written.
fn floats_mut(bits: &mut [u64]) -> &mut [f64] {
    // SAFETY: as above, and any float is bits; the borrow goes on.
    unsafe { std::slice::from_raw_parts_mut(bits.as_mut_ptr().cast(), bits.len()) }
}

/// The out places of a call, one by one.
fn places<T, const N: usize>(out: &mut [T]) -> [&mut T; N] {
    let out: &mut [T; N] = out.try_into().expect("as many places as the call has");
    out.each_mut()
}

fn period(period: Period) -> raw::Period {
    raw::Period {
        kind: period.kind,
        size: f64::from_bits(period.size),
    }
}

fn tables(rows: Rows<'_>) -> Tables<'_> {
    Tables {
        vertex_numbers: rows.vertex_numbers,
        vertex_floats: floats(rows.vertex_floats),
        edge_numbers: rows.edge_numbers,
        edge_floats: floats(rows.edge_floats),
        vertices: rows.vertices,
        edges: rows.edges,
    }
}

fn wires(wires: Wires<'_>) -> kaugrenna::Wires<'_> {
    kaugrenna::Wires {
        uses: wires.uses,
        lengths: wires.lengths,
        count: wires.wires,
    }
}

/// What a call that cuts edges is lent: the tables, the wires, the out places.
fn lent(pass: Pass<'_>) -> (TablesMut<'_>, WiresMut<'_>, [&mut usize; 3]) {
    let tables = TablesMut {
        vertex_numbers: pass.vertex_numbers,
        vertex_floats: floats_mut(pass.vertex_floats),
        edge_numbers: pass.edge_numbers,
        edge_floats: floats_mut(pass.edge_floats),
        vertices: pass.vertices,
        edges: pass.edges,
    };
    let wires = WiresMut {
        uses: pass.uses,
        lengths: pass.lengths,
        count: pass.wires,
    };
    (tables, wires, places(pass.out))
}

/// The cuts of an edge.
fn cuts<'a>(call: &Cut<'a>) -> Cuts<'a> {
    Cuts {
        floats: floats(call.cuts),
        count: call.cut_count,
    }
}

/// Two rows of uses, each with its count.
fn stretches<'a>(uses: [&'a [u32]; 2], counts: [usize; 2]) -> [Stretch<'a>; 2] {
    let stretch = |i: usize| Stretch {
        uses: uses[i],
        count: counts[i],
    };
    [stretch(0), stretch(1)]
}

impl Port for Library {
    fn split_closed_edges(&self, call: Closed<'_>) -> i32 {
        let (tables, wires, out) = lent(call.pass);
        raw::split_closed_edges(tables, wires, call.k, out)
    }

    fn cut_parameter(&self, call: CutParameter, out: &mut [u64]) -> i32 {
        let [t0, t1] = [call.t0, call.t1].map(f64::from_bits);
        let [out] = places(floats_mut(out));
        raw::cut_parameter(t0, t1, call.k, out)
    }

    fn get_mindiff(&self, call: Unwrap, out: &mut [u64]) -> i32 {
        let [u, u0] = [call.u, call.u0].map(f64::from_bits);
        let [out] = places(floats_mut(out));
        raw::get_mindiff(u, u0, period(call.period), out)
    }

    fn nearest_copy(&self, call: NearestCopy, out: &mut [u64]) -> i32 {
        let [p, q] = [call.p, call.q].map(|point| point.map(f64::from_bits));
        raw::nearest_copy(p, q, call.periods.map(period), places(floats_mut(out)))
    }

    fn boundary_type(&self, call: WireEnds, out: &mut [u32]) -> i32 {
        let [first, last] = [call.first, call.last].map(|point| point.map(f64::from_bits));
        let [kind_out] = places(out);
        raw::boundary_type(first, last, f64::from_bits(call.area), kind_out)
    }

    fn sort_wires(&self, call: Sort<'_>) -> i32 {
        let [closed_out] = places(call.out);
        let ends = floats(call.ends);
        raw::sort_wires(ends, call.wires, call.open, call.closed, closed_out)
    }

    fn nearest_correction(&self, call: Nearest<'_>) -> i32 {
        let counts = [call.first_count, call.second_count];
        let [first, second] = stretches([call.first, call.second], counts);
        let out = places(call.out);
        raw::nearest_correction(tables(call.rows), first, second, call.v0, out)
    }

    fn find_non_simple_wire_divisor(&self, call: Search<'_>) -> i32 {
        let out = places(call.out);
        raw::find_non_simple_wire_divisor(tables(call.rows), wires(call.wires), out)
    }

    fn cut_edge_by_intersections(&self, call: Cut<'_>) -> i32 {
        let (cuts, edge) = (cuts(&call), call.edge);
        let (tables, wires, out) = lent(call.pass);
        raw::cut_edge_by_intersections(tables, wires, cuts, edge, out)
    }

    fn cut_edge_at_points(&self, call: Cut<'_>) -> i32 {
        let (cuts, edge) = (cuts(&call), call.edge);
        let (tables, wires, out) = lent(call.pass);
        raw::cut_edge_at_points(tables, wires, cuts, edge, out)
    }

    fn connect_open_boundaries(&self, call: Join<'_>) -> i32 {
        let edges = Edges {
            numbers: call.rows.edge_numbers,
            floats: floats(call.rows.edge_floats),
            count: call.rows.edges,
            vertices: call.rows.vertices,
        };
        let counts = [call.first_count, call.second_count];
        let open = stretches([call.first, call.second], counts);
        let new = WiresMut {
            uses: call.uses,
            lengths: call.lengths,
            count: call.wires,
        };
        let [uses_out] = places(call.out);
        raw::connect_open_boundaries(edges, open, new, [call.v0, call.v1], uses_out)
    }

    fn split_boundaries_by_divisor(&self, call: Split<'_>) -> i32 {
        let edges = EdgesMut {
            numbers: call.edge_numbers,
            floats: floats_mut(call.edge_floats),
            count: call.edges,
            vertices: call.vertices,
        };
        let divisor = Divisor {
            vertices: call.divisor,
            points: floats(call.points),
            count: call.divisor_count,
            surface: call.surface,
        };
        let room = Room {
            uses: call.uses,
            lengths: call.lengths,
        };
        let both = [call.face, call.rebuilt].map(wires);
        raw::split_boundaries_by_divisor(edges, both, divisor, room, places(call.out))
    }
}
