//! The calls under test, as an implementation of them is handed its input.
//! Floats are handed over as their bits; `out` holds the out places of a call.

use crate::shell::{Lent, Tables};

/// The two tables as a call reads them.
#[derive(Clone, Copy, Default)]
pub struct Rows<'a> {
    pub vertex_numbers: &'a [u32],
    pub vertex_floats: &'a [u64],
    pub edge_numbers: &'a [u32],
    pub edge_floats: &'a [u64],
    pub vertices: usize,
    pub edges: usize,
}

impl Tables {
    /// The tables, lent to be read.
    pub fn rows(&self) -> Rows<'_> {
        Rows {
            vertex_numbers: &self.vertex_numbers,
            vertex_floats: &self.vertex_floats,
            edge_numbers: &self.edge_numbers,
            edge_floats: &self.edge_floats,
            vertices: self.vertices,
            edges: self.edges,
        }
    }
}

impl Rows<'_> {
    /// A copy of the tables.
    pub fn copy(&self) -> Tables {
        Tables {
            vertex_numbers: self.vertex_numbers.to_vec(),
            vertex_floats: self.vertex_floats.to_vec(),
            edge_numbers: self.edge_numbers.to_vec(),
            edge_floats: self.edge_floats.to_vec(),
            vertices: self.vertices,
            edges: self.edges,
        }
    }
}

/// Wires as a call reads them.
#[derive(Clone, Copy)]
pub struct Wires<'a> {
    pub uses: &'a [u32],
    pub lengths: &'a [u32],
    pub wires: usize,
}

impl Wires<'_> {
    /// The wires themselves. Only for an input that is not refused.
    pub fn read(&self) -> Vec<Vec<u32>> {
        let (mut rest, mut wires) = (self.uses, Vec::new());
        for &length in &self.lengths[..self.wires] {
            let (wire, behind) = rest.split_at(length as usize);
            wires.push(wire.to_vec());
            rest = behind;
        }
        wires
    }
}

impl Lent {
    /// The wires, lent to be read.
    pub fn wires(&self) -> Wires<'_> {
        Wires {
            uses: &self.uses,
            lengths: &self.lengths,
            wires: self.wires,
        }
    }
}

/// How a call is lent on: with these slices of it lent anew.
macro_rules! lent_on {
    ($call:ident: $($slice:ident),*) => {
        impl $call<'_> {
            /// The same call, lent on for a while.
            pub fn again(&mut self) -> $call<'_> {
                $call { $($slice: self.$slice,)* ..*self }
            }
        }
    };
}

lent_on!(Pass: vertex_numbers, vertex_floats, edge_numbers, edge_floats, uses, lengths, out);
lent_on!(Join: uses, lengths, out);
lent_on!(Split: edge_numbers, edge_floats, uses, lengths, out);

/// What a call that cuts edges is lent: a shell. `out` has three places:
/// vertices, edges and uses.
pub struct Pass<'a> {
    pub vertex_numbers: &'a mut [u32],
    pub vertex_floats: &'a mut [u64],
    pub edge_numbers: &'a mut [u32],
    pub edge_floats: &'a mut [u64],
    pub uses: &'a mut [u32],
    pub lengths: &'a mut [u32],
    pub vertices: usize,
    pub edges: usize,
    pub wires: usize,
    pub out: &'a mut [usize],
}

impl Pass<'_> {
    /// The tables, lent on to be read.
    pub fn rows(&self) -> Rows<'_> {
        Rows {
            vertex_numbers: self.vertex_numbers,
            vertex_floats: self.vertex_floats,
            edge_numbers: self.edge_numbers,
            edge_floats: self.edge_floats,
            vertices: self.vertices,
            edges: self.edges,
        }
    }

    /// The wires, lent on to be read.
    pub fn wires(&self) -> Wires<'_> {
        Wires {
            uses: self.uses,
            lengths: self.lengths,
            wires: self.wires,
        }
    }

    /// A copy of what is lent.
    pub fn copy(&self) -> Lent {
        Lent {
            tables: self.rows().copy(),
            uses: self.uses.to_vec(),
            lengths: self.lengths.to_vec(),
            wires: self.wires,
        }
    }
}

/// What one call of `split_closed_edges` is lent: a shell, and how many eighths
/// of the way along its curve each closed edge is cut.
pub struct Closed<'a> {
    pub pass: Pass<'a>,
    pub k: u32,
}

impl Closed<'_> {
    /// The same call, lent on for a while.
    pub fn again(&mut self) -> Closed<'_> {
        Closed {
            pass: self.pass.again(),
            ..*self
        }
    }
}

/// What one call of `cut_parameter` is handed: a range, and how many eighths of
/// the way from its first end to its last.
#[derive(Clone, Copy, Debug, PartialEq, Eq)]
pub struct CutParameter {
    pub t0: u64,
    pub t1: u64,
    pub k: u32,
}

/// A period: its kind (0 absent, 1 there) and its size, which is no input
/// where the period is absent.
#[derive(Clone, Copy, Debug, PartialEq, Eq)]
pub struct Period {
    pub kind: u32,
    pub size: u64,
}

/// What one call of `get_mindiff` is handed.
#[derive(Clone, Copy, Debug, PartialEq, Eq)]
pub struct Unwrap {
    pub u: u64,
    pub u0: u64,
    pub period: Period,
}

/// What one call of `nearest_copy` is handed: the copies of `q` are held
/// against `p`, each a point u, v with a period for either.
#[derive(Clone, Copy, Debug, PartialEq, Eq)]
pub struct NearestCopy {
    pub p: [u64; 2],
    pub q: [u64; 2],
    pub periods: [Period; 2],
}

/// What one call of `boundary_type` is handed: the ends of a wire as u, v,
/// and its area.
#[derive(Clone, Copy, Debug, PartialEq, Eq)]
pub struct WireEnds {
    pub first: [u64; 2],
    pub last: [u64; 2],
    pub area: u64,
}

/// What one call of `sort_wires` is lent: rows of five floats, and places for
/// the numbers of the open and of the closed wires. `out` has one place.
pub struct Sort<'a> {
    pub ends: &'a [u64],
    pub wires: usize,
    pub open: &'a mut [u32],
    pub closed: &'a mut [u32],
    pub out: &'a mut [usize],
}

/// What one call of `nearest_correction` is lent: the tables and two rows of
/// uses with their counts. `out` has two places.
pub struct Nearest<'a> {
    pub rows: Rows<'a>,
    pub first: &'a [u32],
    pub second: &'a [u32],
    pub first_count: usize,
    pub second_count: usize,
    pub v0: u32,
    pub out: &'a mut [u32],
}

/// What one call of `find_non_simple_wire_divisor` is lent. `out` has two
/// places.
pub struct Search<'a> {
    pub rows: Rows<'a>,
    pub wires: Wires<'a>,
    pub out: &'a mut [u32],
}

/// What one call of `cut_edge_by_intersections` or of `cut_edge_at_points` is
/// lent: a shell, and rows of four floats t, x, y, z with the edge they cut.
pub struct Cut<'a> {
    pub pass: Pass<'a>,
    pub cuts: &'a [u64],
    pub edge: u32,
    pub cut_count: usize,
}

impl Cut<'_> {
    /// The same call, lent on for a while.
    pub fn again(&mut self) -> Cut<'_> {
        Cut {
            pass: self.pass.again(),
            ..*self
        }
    }
}

/// What one call of `connect_open_boundaries` is lent: the edge table (the
/// vertex table stays with the host, so that its slices are empty here), the
/// two open wires with their counts, and the new wires. `out` has one place.
pub struct Join<'a> {
    pub rows: Rows<'a>,
    pub first: &'a [u32],
    pub second: &'a [u32],
    pub uses: &'a mut [u32],
    pub lengths: &'a mut [u32],
    pub first_count: usize,
    pub second_count: usize,
    pub wires: usize,
    pub v0: u32,
    pub v1: u32,
    pub out: &'a mut [usize],
}

impl Join<'_> {
    /// The new wires, lent on to be read.
    pub fn new_wires(&self) -> Wires<'_> {
        Wires {
            uses: self.uses,
            lengths: self.lengths,
            wires: self.wires,
        }
    }
}

/// What one call of `split_boundaries_by_divisor` is lent: the edge table,
/// which grows, the face's wires, the wires to be rebuilt, the vertices on the
/// divisor with two floats for each, and buffers for the answered wires. `out`
/// has three places: wires, uses and edges.
pub struct Split<'a> {
    pub edge_numbers: &'a mut [u32],
    pub edge_floats: &'a mut [u64],
    pub face: Wires<'a>,
    pub rebuilt: Wires<'a>,
    pub divisor: &'a [u32],
    pub points: &'a [u64],
    pub uses: &'a mut [u32],
    pub lengths: &'a mut [u32],
    pub vertices: usize,
    pub edges: usize,
    pub divisor_count: usize,
    pub surface: u32,
    pub out: &'a mut [usize],
}

impl Split<'_> {
    /// The edge table, lent on to be read. The vertex table stays with the
    /// host, so that its slices are empty here.
    pub fn rows(&self) -> Rows<'_> {
        Rows {
            edge_numbers: self.edge_numbers,
            edge_floats: self.edge_floats,
            vertices: self.vertices,
            edges: self.edges,
            ..Rows::default()
        }
    }
}

/// An implementation that can be held against the Rust. Each call answers 0
/// where its result is written, -1 for "none", else the refusal's number.
pub trait Port: Sync {
    /// Whether the call of this name is there at all.
    fn has(&self, _name: &str) -> bool {
        true
    }

    fn split_closed_edges(&self, call: Closed<'_>) -> i32;
    fn cut_parameter(&self, call: CutParameter, out: &mut [u64]) -> i32;
    fn get_mindiff(&self, call: Unwrap, out: &mut [u64]) -> i32;
    fn nearest_copy(&self, call: NearestCopy, out: &mut [u64]) -> i32;
    fn boundary_type(&self, call: WireEnds, out: &mut [u32]) -> i32;
    fn sort_wires(&self, call: Sort<'_>) -> i32;
    fn nearest_correction(&self, call: Nearest<'_>) -> i32;
    fn find_non_simple_wire_divisor(&self, call: Search<'_>) -> i32;
    fn cut_edge_by_intersections(&self, call: Cut<'_>) -> i32;
    fn cut_edge_at_points(&self, call: Cut<'_>) -> i32;
    fn connect_open_boundaries(&self, call: Join<'_>) -> i32;
    fn split_boundaries_by_divisor(&self, call: Split<'_>) -> i32;
}
