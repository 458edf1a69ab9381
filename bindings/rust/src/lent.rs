//! What a call is lent: slices of rows, and how many of the rows count.
//!
//! Any bits may stand in any cell and any number in any count: what a call
//! cannot use it refuses. A call that writes takes its slices as `&mut`, so
//! that they overlap nothing else.

/// Number cells in a vertex row: kind (0 given, 1 pending), curve kind, curve
/// or surface number.
pub const VERTEX_NUMBERS: usize = 3;
/// Float cells in a vertex row: given x, y, z; pending the six of its curve
/// and the parameter.
pub const VERTEX_FLOATS: usize = 7;
/// Number cells in an edge row: front, back, kind (0 span, 1 seam), curve or
/// surface number, preparation for the weld (see
/// [`Preparation`](crate::Preparation)).
pub const EDGE_NUMBERS: usize = 5;
/// Float cells in an edge row: u, v, u, v, t0, t1; a span has the last two.
pub const EDGE_FLOATS: usize = 6;
/// Float cells of a cut: parameter, x, y, z.
pub const CUT_FLOATS: usize = 4;
/// Float cells of a point on the divisor: u, v.
pub const POINT_FLOATS: usize = 2;
/// Float cells of a wire to be sorted: first u, v, last u, v, area.
pub const END_FLOATS: usize = 5;

/// The most vertices of a call, and the most edges.
pub const MAX_ROWS: usize = 4096;
/// The most wires that a call takes.
pub const MAX_WIRES: usize = 64;
/// The most uses in all wires of a call together, and in its result.
pub const MAX_USES: usize = 1024;
/// The most cuts of an edge in a call.
pub const MAX_CUTS: usize = 64;
/// The largest size of a float that is lent.
pub const MAX_SIZE: f64 = 1.0e15;

/// The kind of a curve that is a span of a numbered curve.
pub const SPAN: u32 = 0;
/// The kind of a curve that is a seam on a numbered surface.
pub const SEAM: u32 = 1;
/// The kind of a vertex that is given by its point.
pub const GIVEN: u32 = 0;
/// The kind of a vertex that is pending: a curve and a parameter.
pub const PENDING: u32 = 1;

/// The two tables, to be read.
#[derive(Clone, Copy, Debug)]
pub struct Tables<'a> {
    /// [`VERTEX_NUMBERS`] for each vertex.
    pub vertex_numbers: &'a [u32],
    /// [`VERTEX_FLOATS`] for each vertex.
    pub vertex_floats: &'a [f64],
    /// [`EDGE_NUMBERS`] for each edge.
    pub edge_numbers: &'a [u32],
    /// [`EDGE_FLOATS`] for each edge.
    pub edge_floats: &'a [f64],
    /// How many vertices there are.
    pub vertices: usize,
    /// How many edges there are.
    pub edges: usize,
}

/// The two tables, to be read and written; rows past the counts are room.
#[derive(Debug)]
pub struct TablesMut<'a> {
    /// [`VERTEX_NUMBERS`] for each vertex.
    pub vertex_numbers: &'a mut [u32],
    /// [`VERTEX_FLOATS`] for each vertex.
    pub vertex_floats: &'a mut [f64],
    /// [`EDGE_NUMBERS`] for each edge.
    pub edge_numbers: &'a mut [u32],
    /// [`EDGE_FLOATS`] for each edge.
    pub edge_floats: &'a mut [f64],
    /// How many vertices there are.
    pub vertices: usize,
    /// How many edges there are.
    pub edges: usize,
}

/// The edge table without the vertices, to be read.
#[derive(Clone, Copy, Debug)]
pub struct Edges<'a> {
    /// [`EDGE_NUMBERS`] for each edge.
    pub numbers: &'a [u32],
    /// [`EDGE_FLOATS`] for each edge.
    pub floats: &'a [f64],
    /// How many edges there are.
    pub count: usize,
    /// How many vertices the host has.
    pub vertices: usize,
}

/// The edge table without the vertices, to be read and written; rows past the
/// count are room.
#[derive(Debug)]
pub struct EdgesMut<'a> {
    /// [`EDGE_NUMBERS`] for each edge.
    pub numbers: &'a mut [u32],
    /// [`EDGE_FLOATS`] for each edge.
    pub floats: &'a mut [f64],
    /// How many edges there are.
    pub count: usize,
    /// How many vertices the host has.
    pub vertices: usize,
}

/// Wires, to be read.
#[derive(Clone, Copy, Debug)]
pub struct Wires<'a> {
    /// The uses of all wires, one after the other (see [`Use`](crate::Use)).
    pub uses: &'a [u32],
    /// The length of each wire.
    pub lengths: &'a [u32],
    /// How many wires there are.
    pub count: usize,
}

/// Wires, to be read and written; uses past those of the wires are room.
#[derive(Debug)]
pub struct WiresMut<'a> {
    /// The uses of all wires, one after the other (see [`Use`](crate::Use)).
    pub uses: &'a mut [u32],
    /// The length of each wire.
    pub lengths: &'a mut [u32],
    /// How many wires there are.
    pub count: usize,
}

/// Room for the wires of an answer, which has no wires yet.
#[derive(Debug)]
pub struct Room<'a> {
    /// Room for uses.
    pub uses: &'a mut [u32],
    /// Room for lengths.
    pub lengths: &'a mut [u32],
}

/// A row of uses: an open wire, or a stretch of a wire.
#[derive(Clone, Copy, Debug)]
pub struct Stretch<'a> {
    /// The uses.
    pub uses: &'a [u32],
    /// How many of them count.
    pub count: usize,
}

impl<'a> From<&'a [u32]> for Stretch<'a> {
    /// All uses of a slice.
    fn from(uses: &'a [u32]) -> Self {
        Stretch {
            uses,
            count: uses.len(),
        }
    }
}

/// The places at which an edge is to be cut; several in strictly rising
/// parameter.
#[derive(Clone, Copy, Debug)]
pub struct Cuts<'a> {
    /// [`CUT_FLOATS`] for each cut.
    pub floats: &'a [f64],
    /// How many cuts there are.
    pub count: usize,
}

/// The vertices on the divisor of a split, in order, and where they are.
#[derive(Clone, Copy, Debug)]
pub struct Divisor<'a> {
    /// The vertex numbers.
    pub vertices: &'a [u32],
    /// [`POINT_FLOATS`] for each of them.
    pub points: &'a [f64],
    /// How many there are.
    pub count: usize,
    /// The number of the surface on which the seams are drawn.
    pub surface: u32,
}
