//! Tables and wires as a host may own them, and how they are lent.

use crate::lent::{Edges, EdgesMut, Tables, TablesMut, Wires, WiresMut};

/// The two tables; rows past the counts are room.
#[derive(Clone, Debug, Default)]
pub struct OwnedTables {
    /// [`VERTEX_NUMBERS`](crate::lent::VERTEX_NUMBERS) for each vertex.
    pub vertex_numbers: Vec<u32>,
    /// [`VERTEX_FLOATS`](crate::lent::VERTEX_FLOATS) for each vertex.
    pub vertex_floats: Vec<f64>,
    /// [`EDGE_NUMBERS`](crate::lent::EDGE_NUMBERS) for each edge.
    pub edge_numbers: Vec<u32>,
    /// [`EDGE_FLOATS`](crate::lent::EDGE_FLOATS) for each edge.
    pub edge_floats: Vec<f64>,
    /// How many vertices there are.
    pub vertices: usize,
    /// How many edges there are.
    pub edges: usize,
}

impl OwnedTables {
    /// Both tables, to be read.
    pub fn lend(&self) -> Tables<'_> {
        Tables {
            vertex_numbers: &self.vertex_numbers,
            vertex_floats: &self.vertex_floats,
            edge_numbers: &self.edge_numbers,
            edge_floats: &self.edge_floats,
            vertices: self.vertices,
            edges: self.edges,
        }
    }

    /// Both tables, to be read and written.
    pub fn lend_mut(&mut self) -> TablesMut<'_> {
        TablesMut {
            vertex_numbers: &mut self.vertex_numbers,
            vertex_floats: &mut self.vertex_floats,
            edge_numbers: &mut self.edge_numbers,
            edge_floats: &mut self.edge_floats,
            vertices: self.vertices,
            edges: self.edges,
        }
    }

    /// The edge table, to be read.
    pub fn edges(&self) -> Edges<'_> {
        Edges {
            numbers: &self.edge_numbers,
            floats: &self.edge_floats,
            count: self.edges,
            vertices: self.vertices,
        }
    }

    /// The edge table, to be read and written.
    pub fn edges_mut(&mut self) -> EdgesMut<'_> {
        EdgesMut {
            numbers: &mut self.edge_numbers,
            floats: &mut self.edge_floats,
            count: self.edges,
            vertices: self.vertices,
        }
    }
}

/// Wires; uses past those of the wires are room.
#[derive(Clone, Debug, Default)]
pub struct OwnedWires {
    /// The uses of all wires, one after the other (see [`Use`](crate::Use)).
    pub uses: Vec<u32>,
    /// The length of each wire.
    pub lengths: Vec<u32>,
    /// How many wires there are.
    pub count: usize,
}

impl OwnedWires {
    /// The wires, to be read.
    pub fn lend(&self) -> Wires<'_> {
        Wires {
            uses: &self.uses,
            lengths: &self.lengths,
            count: self.count,
        }
    }

    /// The wires, to be read and written.
    pub fn lend_mut(&mut self) -> WiresMut<'_> {
        WiresMut {
            uses: &mut self.uses,
            lengths: &mut self.lengths,
            count: self.count,
        }
    }
}
