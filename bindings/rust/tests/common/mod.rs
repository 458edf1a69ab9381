//! Shells as slices, with room behind them that holds marks.

use kaugrenna::lent::{EDGE_FLOATS, EDGE_NUMBERS, VERTEX_FLOATS, VERTEX_NUMBERS};
use kaugrenna::{Edges, EdgesMut, TablesMut, Use, Wires, WiresMut};
use kaugrenna::{OwnedTables, OwnedWires};

/// What a number cell holds that is no input.
pub const MARK: u32 = 0xa5a5_0001;
/// What a float cell holds that is no input: a NaN that signals.
pub const FLOAT_MARK: u64 = 0x7ff4_a5a5_0000_0001;

/// The edges of K9, and its wire.
pub const PIPE: [[u32; 2]; 5] = [[0, 2], [0, 1], [1, 0], [2, 3], [3, 2]];
pub const PIPE_WIRE: &str = "1+ 2+ 0+ 3+ 4+ 0-";

/// The uses of a wire in document 01's notation.
pub fn wire(notation: &str) -> Vec<u32> {
    let one = |word: &str| word.parse::<Use>().unwrap().number().unwrap();
    notation.split_whitespace().map(one).collect()
}

/// The bits of floats.
pub fn bits(floats: &[f64]) -> Vec<u64> {
    floats.iter().map(|float| float.to_bits()).collect()
}

/// Two tables and wires. Each edge is span 7 from 0 to 8, and square.
#[derive(Clone)]
pub struct Shell {
    pub tables: OwnedTables,
    pub wires: OwnedWires,
}

impl Shell {
    /// A shell with so many rows and uses of room in every slice.
    pub fn new(points: &[[f64; 3]], ends: &[[u32; 2]], wires: &[&str], room: usize) -> Shell {
        let rows = |count: usize, width: usize| (count + room) * width;
        let mark = f64::from_bits(FLOAT_MARK);
        let mut tables = OwnedTables {
            vertex_numbers: vec![MARK; rows(points.len(), VERTEX_NUMBERS)],
            vertex_floats: vec![mark; rows(points.len(), VERTEX_FLOATS)],
            edge_numbers: vec![MARK; rows(ends.len(), EDGE_NUMBERS)],
            edge_floats: vec![mark; rows(ends.len(), EDGE_FLOATS)],
            vertices: points.len(),
            edges: ends.len(),
        };
        for (row, point) in points.iter().enumerate() {
            tables.vertex_numbers[row * VERTEX_NUMBERS] = 0;
            tables.vertex_floats[row * VERTEX_FLOATS..][..3].copy_from_slice(point);
        }
        for (row, [front, back]) in ends.iter().enumerate() {
            let numbers = &mut tables.edge_numbers[row * EDGE_NUMBERS..][..EDGE_NUMBERS];
            numbers.copy_from_slice(&[*front, *back, 0, 7, 0]);
            tables.edge_floats[row * EDGE_FLOATS + 4..][..2].copy_from_slice(&[0.0, 8.0]);
        }
        let mut wires = OwnedWires {
            uses: wires.iter().flat_map(|notation| wire(notation)).collect(),
            lengths: wires.iter().map(|text| wire(text).len() as u32).collect(),
            count: wires.len(),
        };
        wires.uses.extend(vec![MARK; room]);
        wires.lengths.extend(vec![MARK; room]);
        Shell { tables, wires }
    }

    /// K9's edges and vertices with the given wires.
    pub fn pipe(wires: &[&str], room: usize) -> Shell {
        let points = [[1.0, 0.0], [-1.0, 0.0], [1.0, 4.0], [-1.0, 4.0]];
        let points = points.map(|[x, z]| [x, 0.0, z]);
        Shell::new(&points, &PIPE, wires, room)
    }

    /// Gives the edge this preparation, or what is none.
    pub fn prepare(&mut self, edge: usize, preparation: u32) {
        self.tables.edge_numbers[edge * EDGE_NUMBERS + 4] = preparation;
    }

    /// Tables and wires, to be written.
    pub fn lend(&mut self) -> (TablesMut<'_>, WiresMut<'_>) {
        (self.tables.lend_mut(), self.wires.lend_mut())
    }

    /// The edge table to be read, and the wires to be written.
    pub fn lend_wires(&mut self) -> (Edges<'_>, WiresMut<'_>) {
        (self.tables.edges(), self.wires.lend_mut())
    }

    /// The edge table to be written, and the wires to be read.
    pub fn lend_edges(&mut self) -> (EdgesMut<'_>, Wires<'_>) {
        (self.tables.edges_mut(), self.wires.lend())
    }

    /// Every cell of every slice.
    pub fn cells(&self) -> [Vec<u64>; 6] {
        let wide = |cells: &[u32]| cells.iter().map(|&cell| u64::from(cell)).collect();
        [
            wide(&self.tables.vertex_numbers),
            bits(&self.tables.vertex_floats),
            wide(&self.tables.edge_numbers),
            bits(&self.tables.edge_floats),
            wide(&self.wires.uses),
            wide(&self.wires.lengths),
        ]
    }
}

/// The room for the wires of a split, and its divisor.
#[derive(Clone)]
pub struct Split {
    pub shell: Shell,
    pub list: Vec<u32>,
    pub points: Vec<f64>,
    pub uses: Vec<u32>,
    pub lengths: Vec<u32>,
}

impl Split {
    /// A split of a face that is rebuilt whole, along these vertices.
    pub fn new(shell: Shell, list: &[u32]) -> Split {
        Split {
            shell,
            list: list.to_vec(),
            points: (0..2 * list.len()).map(|place| place as f64).collect(),
            uses: vec![MARK; 9],
            lengths: vec![MARK; 9],
        }
    }

    /// Makes the call.
    pub fn ask(&mut self) -> Result<kaugrenna::Rebuilt, kaugrenna::Refusal> {
        let (edges, face) = self.shell.lend_edges();
        let divisor = kaugrenna::Divisor {
            vertices: &self.list,
            points: &self.points,
            count: self.list.len(),
            surface: 3,
        };
        let room = kaugrenna::Room {
            uses: &mut self.uses,
            lengths: &mut self.lengths,
        };
        kaugrenna::split_boundaries_by_divisor(edges, [face, face], divisor, room)
    }
}
