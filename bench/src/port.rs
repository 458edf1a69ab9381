//! The port's calls over lent slices, made ready beforehand, through the safe
//! Rust module.

use kaugrenna::lent::END_FLOATS;
use kaugrenna::{Cuts, Divisor, OwnedTables, OwnedWires, Refusal, Room};
use oracle::healing::prepared::{Groups, Ready};
use oracle::healing::Rebuilt;
use oracle::random::Random;
use oracle::records::Shell;
use oracle::shell::{needed, Lent};

/// The slices of a shell.
#[derive(Clone)]
pub struct Slices {
    pub tables: OwnedTables,
    pub wires: OwnedWires,
}

impl Slices {
    /// A shell, with room for so many more rows and uses.
    pub fn of(shell: &Shell, rows: usize, uses: usize) -> Slices {
        let [vertices, edges, used] = shell.counts();
        let room = [vertices + rows, edges + rows, used + uses];
        let sizes = needed(room, shell.wires.len());
        let lent = Lent::holding(shell, sizes, &mut Random::new(4, 0, 0));
        let floats = |bits: &[u64]| bits.iter().map(|&bits| f64::from_bits(bits)).collect();
        let tables = OwnedTables {
            vertex_floats: floats(&lent.tables.vertex_floats),
            edge_floats: floats(&lent.tables.edge_floats),
            vertex_numbers: lent.tables.vertex_numbers,
            edge_numbers: lent.tables.edge_numbers,
            vertices,
            edges,
        };
        let wires = OwnedWires {
            uses: lent.uses,
            lengths: lent.lengths,
            count: shell.wires.len(),
        };
        Slices { tables, wires }
    }

    fn renew(&mut self, from: &Slices) {
        let (tables, old) = (&mut self.tables, &from.tables);
        tables.vertex_numbers.copy_from_slice(&old.vertex_numbers);
        tables.vertex_floats.copy_from_slice(&old.vertex_floats);
        tables.edge_numbers.copy_from_slice(&old.edge_numbers);
        tables.edge_floats.copy_from_slice(&old.edge_floats);
        self.renew_wires(from);
    }

    fn renew_wires(&mut self, from: &Slices) {
        self.wires.uses.copy_from_slice(&from.wires.uses);
        self.wires.lengths.copy_from_slice(&from.wires.lengths);
    }

    /// The records of so many vertices and edges, and the wires.
    fn read(&self, vertices: usize, edges: usize, wires: &OwnedWires) -> Shell {
        let bits = |floats: &[f64]| floats.iter().map(|float| float.to_bits()).collect();
        let tables = oracle::shell::Tables {
            vertex_numbers: self.tables.vertex_numbers.clone(),
            vertex_floats: bits(&self.tables.vertex_floats),
            edge_numbers: self.tables.edge_numbers.clone(),
            edge_floats: bits(&self.tables.edge_floats),
            vertices,
            edges,
        };
        let lent = Lent {
            tables,
            uses: wires.uses.clone(),
            lengths: wires.lengths.clone(),
            wires: wires.count,
        };
        lent.read()
    }
}

/// What every input must have, or there is nothing to be timed.
const ACCEPTED: &str = "the input is accepted";
const RESULT: &str = "there is a result";

/// The closed-edge pass.
pub struct Pass {
    slices: Slices,
    k: u32,
    said: Result<kaugrenna::Counts, Refusal>,
}

impl Pass {
    pub fn of(shell: &Shell, more: usize, k: u32) -> Self {
        Pass {
            slices: Slices::of(shell, more, more),
            k,
            said: Err(Refusal::Malformed),
        }
    }
}

impl Ready for Pass {
    type Answer = Shell;

    fn renew(&mut self, from: &Self) {
        self.slices.renew(&from.slices);
    }

    fn run(&mut self) {
        let Slices { tables, wires } = &mut self.slices;
        self.said = kaugrenna::split_closed_edges(tables.lend_mut(), wires.lend_mut(), self.k);
    }

    fn answer(&self) -> Shell {
        let counts = self.said.expect(ACCEPTED);
        let wires = &self.slices.wires;
        self.slices.read(counts.vertices, counts.edges, wires)
    }
}

/// One cut, of an edge that is used twice.
pub struct OneCut {
    slices: Slices,
    edge: u32,
    cut: [f64; 4],
    said: Result<kaugrenna::Counts, Refusal>,
}

impl OneCut {
    pub fn of(shell: &Shell, edge: u32, cut: [f64; 4]) -> Self {
        OneCut {
            slices: Slices::of(shell, 1, 2),
            edge,
            cut,
            said: Err(Refusal::Malformed),
        }
    }
}

impl Ready for OneCut {
    type Answer = Shell;

    fn renew(&mut self, from: &Self) {
        self.slices.renew(&from.slices);
    }

    fn run(&mut self) {
        let cuts = Cuts {
            floats: &self.cut,
            count: 1,
        };
        let (tables, wires) = (self.slices.tables.lend_mut(), self.slices.wires.lend_mut());
        self.said = kaugrenna::cut_edge_by_intersections(tables, wires, cuts, self.edge);
    }

    fn answer(&self) -> Shell {
        let counts = self.said.expect(ACCEPTED);
        let wires = &self.slices.wires;
        self.slices.read(counts.vertices, counts.edges, wires)
    }
}

/// Several cuts of edge 0.
pub struct SeveralCuts {
    slices: Slices,
    cuts: Vec<f64>,
    count: usize,
    said: Result<kaugrenna::Counts, Refusal>,
}

impl SeveralCuts {
    /// With room for so many uses more.
    pub fn of(shell: &Shell, cuts: &[[f64; 4]], uses: usize) -> Self {
        SeveralCuts {
            slices: Slices::of(shell, cuts.len(), uses),
            cuts: cuts.concat(),
            count: cuts.len(),
            said: Err(Refusal::Malformed),
        }
    }
}

impl Ready for SeveralCuts {
    type Answer = Shell;

    fn renew(&mut self, from: &Self) {
        self.slices.renew(&from.slices);
    }

    fn run(&mut self) {
        let cuts = Cuts {
            floats: &self.cuts,
            count: self.count,
        };
        let (tables, wires) = (self.slices.tables.lend_mut(), self.slices.wires.lend_mut());
        self.said = kaugrenna::cut_edge_at_points(tables, wires, cuts, 0);
    }

    fn answer(&self) -> Shell {
        let counts = self.said.expect(ACCEPTED);
        let wires = &self.slices.wires;
        self.slices.read(counts.vertices, counts.edges, wires)
    }
}

/// Unwrapping, with a period.
pub struct Unwrap {
    pub u: f64,
    pub u0: f64,
    pub period: f64,
    pub said: Result<f64, Refusal>,
}

impl Ready for Unwrap {
    type Answer = u64;

    fn run(&mut self) {
        self.said = kaugrenna::get_mindiff(self.u, self.u0, Some(self.period));
    }

    fn answer(&self) -> u64 {
        self.said.expect(ACCEPTED).to_bits()
    }
}

/// Nearest copy.
pub struct NearestCopy {
    pub p: [f64; 2],
    pub q: [f64; 2],
    pub periods: [Option<f64>; 2],
    pub said: Result<[f64; 2], Refusal>,
}

impl Ready for NearestCopy {
    type Answer = [u64; 2];

    fn run(&mut self) {
        self.said = kaugrenna::nearest_copy(self.p, self.q, self.periods);
    }

    fn answer(&self) -> [u64; 2] {
        self.said.expect(ACCEPTED).map(f64::to_bits)
    }
}

/// Kind of wire.
pub struct WireKind {
    pub first: [f64; 2],
    pub last: [f64; 2],
    pub area: f64,
    pub said: Result<kaugrenna::BoundaryType, Refusal>,
}

impl Ready for WireKind {
    type Answer = u32;

    fn run(&mut self) {
        self.said = kaugrenna::boundary_type(self.first, self.last, self.area);
    }

    fn answer(&self) -> u32 {
        self.said.expect(ACCEPTED) as u32
    }
}

/// Sorting of wires.
pub struct Sort {
    ends: Vec<f64>,
    open: [u32; 2],
    closed: Vec<u32>,
    said: Result<Option<usize>, Refusal>,
}

impl Sort {
    pub fn of(ends: &[[f64; END_FLOATS]]) -> Self {
        Sort {
            ends: ends.concat(),
            open: [u32::MAX; 2],
            closed: vec![u32::MAX; ends.len()],
            said: Err(Refusal::Malformed),
        }
    }
}

impl Ready for Sort {
    type Answer = Groups;

    fn run(&mut self) {
        let wires = self.ends.len() / END_FLOATS;
        self.said = kaugrenna::sort_wires(&self.ends, wires, &mut self.open, &mut self.closed);
    }

    fn answer(&self) -> Groups {
        let closed = self.said.expect(ACCEPTED).expect(RESULT);
        Some([self.open.to_vec(), self.closed[..closed].to_vec()])
    }
}

/// Nearest ends.
pub struct NearestEnds {
    slices: Slices,
    v0: u32,
    said: Result<Option<[u32; 2]>, Refusal>,
}

impl NearestEnds {
    /// Over a shell whose two wires are the stretches.
    pub fn of(shell: &Shell, v0: u32) -> Self {
        NearestEnds {
            slices: Slices::of(shell, 0, 0),
            v0,
            said: Err(Refusal::Malformed),
        }
    }
}

impl Ready for NearestEnds {
    type Answer = Option<[u32; 2]>;

    fn run(&mut self) {
        let Slices { tables, wires } = &self.slices;
        let (first, second) = wires.uses.split_at(wires.lengths[0] as usize);
        let tables = tables.lend();
        self.said = kaugrenna::nearest_correction(tables, first.into(), second.into(), self.v0);
    }

    fn answer(&self) -> Option<[u32; 2]> {
        Some(self.said.expect(ACCEPTED).expect(RESULT))
    }
}

/// The non-simple search.
pub struct Search {
    slices: Slices,
    said: Result<Option<[u32; 2]>, Refusal>,
}

impl Search {
    pub fn of(shell: &Shell) -> Self {
        Search {
            slices: Slices::of(shell, 0, 0),
            said: Err(Refusal::Malformed),
        }
    }
}

impl Ready for Search {
    type Answer = Option<[u32; 2]>;

    fn run(&mut self) {
        let Slices { tables, wires } = &self.slices;
        self.said = kaugrenna::find_non_simple_wire_divisor(tables.lend(), wires.lend());
    }

    fn answer(&self) -> Option<[u32; 2]> {
        Some(self.said.expect(ACCEPTED).expect(RESULT))
    }
}

/// A split of a face that is rebuilt whole, with just the room that it needs.
pub struct Split {
    slices: Slices,
    list: Vec<u32>,
    points: Vec<f64>,
    surface: u32,
    built: OwnedWires,
    said: Result<kaugrenna::Rebuilt, Refusal>,
}

impl Split {
    pub fn of(shell: &Shell, list: &[(u32, [f64; 2])], surface: u32) -> Self {
        let slices = Slices::of(shell, list.len() / 2, 0);
        let room = vec![u32::MAX; slices.wires.uses.len() + list.len()];
        let built = OwnedWires {
            uses: room.clone(),
            lengths: room,
            count: 0,
        };
        Split {
            slices,
            list: list.iter().map(|&(vertex, _)| vertex).collect(),
            points: list.iter().flat_map(|&(_, point)| point).collect(),
            surface,
            built,
            said: Err(Refusal::Malformed),
        }
    }
}

impl Ready for Split {
    type Answer = Rebuilt;

    fn renew(&mut self, from: &Self) {
        self.slices.renew(&from.slices);
    }

    fn run(&mut self) {
        let divisor = Divisor {
            vertices: &self.list,
            points: &self.points,
            count: self.list.len(),
            surface: self.surface,
        };
        let room = Room {
            uses: &mut self.built.uses,
            lengths: &mut self.built.lengths,
        };
        let Slices { tables, wires } = &mut self.slices;
        let (edges, both) = (tables.edges_mut(), [wires.lend(); 2]);
        self.said = kaugrenna::split_boundaries_by_divisor(edges, both, divisor, room);
    }

    fn answer(&self) -> Rebuilt {
        let rebuilt = self.said.expect(ACCEPTED);
        let built = OwnedWires {
            count: rebuilt.wires,
            ..self.built.clone()
        };
        let shell = self.slices.read(0, rebuilt.edges, &built);
        (shell.edges, shell.wires)
    }
}

/// A join, with just the room that it needs.
pub struct Join {
    slices: Slices,
    open: [Vec<u32>; 2],
    ends: [u32; 2],
    said: Result<Option<usize>, Refusal>,
}

impl Join {
    /// Over a shell whose first two wires are open and the others new.
    pub fn of(shell: &Shell, ends: [u32; 2]) -> Self {
        let open = [shell.wires[0].clone(), shell.wires[1].clone()];
        let new = Shell {
            wires: shell.wires[2..].to_vec(),
            ..shell.clone()
        };
        Join {
            slices: Slices::of(&new, 0, open.concat().len()),
            open,
            ends,
            said: Err(Refusal::Malformed),
        }
    }
}

impl Ready for Join {
    type Answer = Option<Vec<Vec<u32>>>;

    fn renew(&mut self, from: &Self) {
        self.slices.renew_wires(&from.slices);
    }

    fn run(&mut self) {
        let Slices { tables, wires } = &mut self.slices;
        let (edges, new) = (tables.edges(), wires.lend_mut());
        let open = self.open.each_ref().map(|uses| uses[..].into());
        self.said = kaugrenna::connect_open_boundaries(edges, open, new, self.ends);
    }

    fn answer(&self) -> Option<Vec<Vec<u32>>> {
        self.said.expect(ACCEPTED).expect(RESULT);
        Some(self.slices.read(0, 0, &self.slices.wires).wires)
    }
}
