//! The lent buffers of a call, the rows in them, and the way from rows to
//! records and back. Floats are held as their bits, so that every pattern is
//! moved and compared exactly.

use crate::random::Random;
use crate::records::{Curve, Edge, Preparation, Shell, Vertex};

/// Number cells in a vertex row: kind, curve kind, curve or surface number.
pub const VERTEX_NUMBERS: usize = 3;
/// Float cells in a vertex row.
pub const VERTEX_FLOATS: usize = 7;
/// Number cells in an edge row: front, back, kind, curve or surface number,
/// preparation.
pub const EDGE_NUMBERS: usize = 5;
/// The preparation among the number cells of an edge row.
pub const PREPARATION: usize = 4;
/// Float cells in an edge row.
pub const EDGE_FLOATS: usize = 6;

/// The names of the six buffers, in the order in which they are lent.
pub const NAMES: [&str; 6] = [
    "vertex_numbers",
    "vertex_floats",
    "edge_numbers",
    "edge_floats",
    "uses",
    "lengths",
];

/// What a call is lent of the two tables: four buffers and two counts.
#[derive(Clone, Debug, PartialEq, Eq)]
pub struct Tables {
    pub vertex_numbers: Vec<u32>,
    pub vertex_floats: Vec<u64>,
    pub edge_numbers: Vec<u32>,
    pub edge_floats: Vec<u64>,
    pub vertices: usize,
    pub edges: usize,
}

/// What a call over wires is lent: the tables, two buffers more, and the
/// count of the wires.
#[derive(Clone, Debug, PartialEq, Eq)]
pub struct Lent {
    pub tables: Tables,
    pub uses: Vec<u32>,
    pub lengths: Vec<u32>,
    pub wires: usize,
}

/// How long the six buffers must be for so many vertices, edges and uses.
pub fn needed([vertices, edges, uses]: [usize; 3], wires: usize) -> [usize; 6] {
    [
        vertices * VERTEX_NUMBERS,
        vertices * VERTEX_FLOATS,
        edges * EDGE_NUMBERS,
        edges * EDGE_FLOATS,
        uses,
        wires,
    ]
}

impl Tables {
    /// The lengths of the four buffers.
    pub fn sizes(&self) -> [usize; 4] {
        [
            self.vertex_numbers.len(),
            self.vertex_floats.len(),
            self.edge_numbers.len(),
            self.edge_floats.len(),
        ]
    }

    /// Buffers of the given lengths that hold poison, with no count set.
    pub fn poisoned(sizes: [usize; 4], random: &mut Random) -> Tables {
        Tables {
            vertex_numbers: numbers_poison(sizes[0], random),
            vertex_floats: (0..sizes[1]).map(|_| float_poison(random)).collect(),
            edge_numbers: numbers_poison(sizes[2], random),
            edge_floats: (0..sizes[3]).map(|_| float_poison(random)).collect(),
            vertices: 0,
            edges: 0,
        }
    }

    /// Drops the cells past the given lengths.
    pub fn shorten(&mut self, sizes: [usize; 4]) {
        self.vertex_numbers.truncate(sizes[0]);
        self.vertex_floats.truncate(sizes[1]);
        self.edge_numbers.truncate(sizes[2]);
        self.edge_floats.truncate(sizes[3]);
    }

    /// Writes the records over the rows from 0 on. Cells that a record of its
    /// kind does not have, and all cells behind, keep what they hold.
    pub fn write(&mut self, vertices: &[Vertex], edges: &[Edge]) {
        for (row, vertex) in vertices.iter().enumerate() {
            let numbers = &mut self.vertex_numbers[row * VERTEX_NUMBERS..][..VERTEX_NUMBERS];
            let floats = &mut self.vertex_floats[row * VERTEX_FLOATS..][..VERTEX_FLOATS];
            write_vertex(vertex, numbers, floats);
        }
        for (row, edge) in edges.iter().enumerate() {
            let numbers = &mut self.edge_numbers[row * EDGE_NUMBERS..][..EDGE_NUMBERS];
            let floats = &mut self.edge_floats[row * EDGE_FLOATS..][..EDGE_FLOATS];
            write_edge(edge, numbers, floats);
        }
    }

    /// The vertex of a row.
    pub fn vertex(&self, row: usize) -> Vertex {
        let numbers = &self.vertex_numbers[row * VERTEX_NUMBERS..][..VERTEX_NUMBERS];
        let floats = &self.vertex_floats[row * VERTEX_FLOATS..][..VERTEX_FLOATS];
        read_vertex(numbers, floats)
    }

    /// The edge of a row.
    pub fn edge(&self, row: usize) -> Edge {
        let numbers = &self.edge_numbers[row * EDGE_NUMBERS..][..EDGE_NUMBERS];
        let floats = &self.edge_floats[row * EDGE_FLOATS..][..EDGE_FLOATS];
        read_edge(numbers, floats)
    }

    /// The vertices below the count.
    pub fn vertices(&self) -> Vec<Vertex> {
        (0..self.vertices).map(|row| self.vertex(row)).collect()
    }

    /// The edges below the count.
    pub fn edges(&self) -> Vec<Edge> {
        (0..self.edges).map(|row| self.edge(row)).collect()
    }
}

impl Lent {
    /// The lengths of the six buffers.
    pub fn sizes(&self) -> [usize; 6] {
        let [vertex_numbers, vertex_floats, edge_numbers, edge_floats] = self.tables.sizes();
        let (uses, lengths) = (self.uses.len(), self.lengths.len());
        [
            vertex_numbers,
            vertex_floats,
            edge_numbers,
            edge_floats,
            uses,
            lengths,
        ]
    }

    /// Buffers of the given lengths that hold poison, with no count set.
    pub fn poisoned(sizes: [usize; 6], random: &mut Random) -> Lent {
        let [vertex_numbers, vertex_floats, edge_numbers, edge_floats, uses, lengths] = sizes;
        let of_tables = [vertex_numbers, vertex_floats, edge_numbers, edge_floats];
        Lent {
            tables: Tables::poisoned(of_tables, random),
            uses: numbers_poison(uses, random),
            lengths: numbers_poison(lengths, random),
            wires: 0,
        }
    }

    /// Buffers of the given lengths that hold the shell, and poison in every
    /// cell that is no part of it. Too short a buffer holds what it can.
    pub fn holding(shell: &Shell, sizes: [usize; 6], random: &mut Random) -> Lent {
        let least = needed(shell.counts(), shell.wires.len());
        let mut ample = sizes;
        for (size, need) in ample.iter_mut().zip(least) {
            *size = need.max(*size);
        }
        let mut lent = Lent::poisoned(ample, random);
        lent.write(shell);
        lent.shorten(sizes);
        lent.tables.vertices = shell.vertices.len();
        lent.tables.edges = shell.edges.len();
        lent.wires = shell.wires.len();
        lent
    }

    /// Drops the cells past the given lengths.
    pub fn shorten(&mut self, sizes: [usize; 6]) {
        let [vertex_numbers, vertex_floats, edge_numbers, edge_floats, uses, lengths] = sizes;
        let of_tables = [vertex_numbers, vertex_floats, edge_numbers, edge_floats];
        self.tables.shorten(of_tables);
        self.uses.truncate(uses);
        self.lengths.truncate(lengths);
    }

    /// The records below the counts. Only for an input that is not refused.
    pub fn read(&self) -> Shell {
        Shell {
            vertices: self.tables.vertices(),
            edges: self.tables.edges(),
            wires: self.wires().read(),
        }
    }

    /// Writes the records over the rows and the wires over the uses and
    /// lengths, from 0 on. All cells behind keep what they hold.
    pub fn write(&mut self, shell: &Shell) {
        self.tables.write(&shell.vertices, &shell.edges);
        let mut place = 0;
        for (wire, length) in shell.wires.iter().zip(&mut self.lengths) {
            self.uses[place..place + wire.len()].copy_from_slice(wire);
            *length = wire.len() as u32;
            place += wire.len();
        }
    }
}

/// The vertex in the cells of one row.
pub fn read_vertex(numbers: &[u32], floats: &[u64]) -> Vertex {
    let at = |cell: usize| f64::from_bits(floats[cell]);
    match numbers[0] {
        0 => Vertex::Given(at(0), at(1), at(2)),
        _ => Vertex::Pending(read_curve(numbers[1], numbers[2], floats), at(6)),
    }
}

/// The edge in the cells of one row.
pub fn read_edge(numbers: &[u32], floats: &[u64]) -> Edge {
    Edge {
        front: numbers[0],
        back: numbers[1],
        curve: read_curve(numbers[2], numbers[3], floats),
        preparation: read_preparation(numbers[PREPARATION]),
    }
}

/// The preparation of a number. Only for one that is not refused.
fn read_preparation(number: u32) -> Preparation {
    match number {
        0 => Preparation::Square,
        1 => Preparation::SingleBevel,
        _ => Preparation::DoubleBevel,
    }
}

/// The curve in the first six float cells of a row.
fn read_curve(kind: u32, number: u32, floats: &[u64]) -> Curve {
    let at = |cell: usize| f64::from_bits(floats[cell]);
    let (t0, t1) = (at(4), at(5));
    match kind {
        0 => Curve::Span { number, t0, t1 },
        _ => Curve::Seam {
            surface: number,
            p: [at(0), at(1)],
            q: [at(2), at(3)],
            t0,
            t1,
        },
    }
}

/// Writes a vertex over one row.
pub fn write_vertex(vertex: &Vertex, numbers: &mut [u32], floats: &mut [u64]) {
    match vertex {
        Vertex::Given(x, y, z) => {
            numbers[0] = 0;
            put(floats, &[*x, *y, *z]);
        }
        Vertex::Pending(curve, parameter) => {
            let (kind, number) = write_curve(curve, floats);
            numbers.copy_from_slice(&[1, kind, number]);
            put(&mut floats[6..], &[*parameter]);
        }
    }
}

/// Writes an edge over one row.
pub fn write_edge(edge: &Edge, numbers: &mut [u32], floats: &mut [u64]) {
    let (kind, number) = write_curve(&edge.curve, floats);
    let preparation = edge.preparation as u32;
    numbers.copy_from_slice(&[edge.front, edge.back, kind, number, preparation]);
}

/// Writes the floats of a curve and gives its kind and number.
fn write_curve(curve: &Curve, floats: &mut [u64]) -> (u32, u32) {
    let (t0, t1) = curve.range();
    put(&mut floats[4..], &[t0, t1]);
    match curve {
        Curve::Span { number, .. } => (0, *number),
        Curve::Seam { surface, p, q, .. } => {
            put(floats, &[p[0], p[1], q[0], q[1]]);
            (1, *surface)
        }
    }
}

/// Writes floats into the first cells.
fn put(cells: &mut [u64], floats: &[f64]) {
    for (cell, float) in cells.iter_mut().zip(floats) {
        *cell = float.to_bits();
    }
}

/// Numbers for cells that are no input.
pub fn numbers_poison(size: usize, random: &mut Random) -> Vec<u32> {
    (0..size).map(|_| number_poison(random)).collect()
}

/// A number for a cell that is no input: mostly one that would be refused.
fn number_poison(random: &mut Random) -> u32 {
    match random.below(4) {
        0 => u32::MAX,
        1 => 2,
        _ => random.word() as u32,
    }
}

/// Bits for a float cell that is no input: mostly not a number or too large.
pub fn float_poison(random: &mut Random) -> u64 {
    match random.below(4) {
        0 => 0x7ff0_0000_0000_0000 | random.word() >> 12,
        1 => 0xfff0_0000_0000_0000 | random.word() >> 12,
        2 => f64::NAN.to_bits(),
        _ => random.word(),
    }
}
