//! The split of a face's wires by the vertices on a divisor.

mod limits;
mod made;
mod small;

use super::tables::edge_table;
use super::Families;
use crate::cells::{Cells, Kind, Slice};
use crate::compare::{read, written, Case, Expected, Input, Lending};
use crate::describe;
use crate::model::split::{breach, Answered, Splitting};
use crate::port::{Port, Split, Wires};
use crate::random::Random;
use crate::records::Edge;
use crate::shell::{float_poison, numbers_poison, Tables, EDGE_FLOATS, EDGE_NUMBERS, NAMES};
use std::fmt::Write as _;

/// Wires with the cells that hold them.
#[derive(Clone, Debug, Default, PartialEq, Eq)]
pub struct WireCells {
    pub uses: Vec<u32>,
    pub lengths: Vec<u32>,
    pub wires: usize,
}

impl WireCells {
    /// Cells that hold just these wires.
    fn of(wires: &[Vec<u32>]) -> WireCells {
        WireCells {
            uses: wires.concat(),
            lengths: wires.iter().map(|wire| wire.len() as u32).collect(),
            wires: wires.len(),
        }
    }

    /// The wires, lent to be read.
    fn lent(&self) -> Wires<'_> {
        Wires {
            uses: &self.uses,
            lengths: &self.lengths,
            wires: self.wires,
        }
    }

    /// The wires in notation.
    fn describe(&self, name: &str) -> String {
        let (wires, uses) = (self.wires, self.uses.len());
        format!("  {name}: {wires} wires, {uses} cells\n") + &describe::wires(self.lent())
    }
}

/// What a call is lent. The tables have a count of vertices, but no vertex
/// rows: the split is not lent them.
#[derive(Clone, Debug, PartialEq, Eq)]
pub struct SplitWires {
    pub tables: Tables,
    pub face: WireCells,
    pub rebuilt: WireCells,
    pub divisor: Vec<u32>,
    pub points: Vec<u64>,
    pub divisor_count: usize,
    pub surface: u32,
    pub uses: Vec<u32>,
    pub lengths: Vec<u32>,
}

/// A vertex on the divisor and its point.
type Place = (u32, [f64; 2]);

/// The places of the two buffers for the answer among the slices.
const ANSWERED: [usize; 2] = [8, 9];

impl Input for SplitWires {
    const NAME: &'static str = "split_boundaries_by_divisor";
    const NUMBER: u64 = 10;
    const ANSWERS: &'static [i32] = &[0, 1, 2, 3, 4, 5, 6, 9, 10, 11, 12];
    const SCALARS: usize = 6;
    const SLICES: &'static [Lending] = &[
        written(NAMES[2], Kind::Number),
        written(NAMES[3], Kind::Float),
        read("face_uses", Kind::Number),
        read("face_lengths", Kind::Number),
        read("rebuilt_uses", Kind::Number),
        read("rebuilt_lengths", Kind::Number),
        read("divisor", Kind::Number),
        read("points", Kind::Float),
        written(NAMES[4], Kind::Number),
        written(NAMES[5], Kind::Number),
    ];
    const OUT: (Kind, usize) = (Kind::Count, 3);

    fn scalars(&self) -> Vec<u64> {
        let counts = [
            self.tables.vertices,
            self.tables.edges,
            self.face.wires,
            self.rebuilt.wires,
            self.divisor_count,
        ];
        let mut scalars = counts.map(|count| count as u64).to_vec();
        scalars.push(self.surface.into());
        scalars
    }

    fn slices(&self) -> Vec<Cells> {
        vec![
            Cells::Numbers(self.tables.edge_numbers.clone()),
            Cells::Floats(self.tables.edge_floats.clone()),
            Cells::Numbers(self.face.uses.clone()),
            Cells::Numbers(self.face.lengths.clone()),
            Cells::Numbers(self.rebuilt.uses.clone()),
            Cells::Numbers(self.rebuilt.lengths.clone()),
            Cells::Numbers(self.divisor.clone()),
            Cells::Floats(self.points.clone()),
            Cells::Numbers(self.uses.clone()),
            Cells::Numbers(self.lengths.clone()),
        ]
    }

    fn put_together(scalars: &[u64], slices: Vec<Cells>) -> Result<Self, String> {
        let count = |place: usize| scalars[place] as usize;
        let mut slices = slices.into_iter();
        let mut next = || slices.next().expect("ten slices");
        let tables = Tables {
            edge_numbers: next().numbers(),
            edge_floats: next().floats(),
            edges: count(1),
            ..edge_table(count(0), &[])
        };
        let mut wires = |wires: usize| WireCells {
            uses: next().numbers(),
            lengths: next().numbers(),
            wires,
        };
        Ok(SplitWires {
            tables,
            face: wires(count(2)),
            rebuilt: wires(count(3)),
            divisor: next().numbers(),
            points: next().floats(),
            divisor_count: count(4),
            surface: u32::try_from(scalars[5]).map_err(|_| "a surface number is too large")?,
            uses: next().numbers(),
            lengths: next().numbers(),
        })
    }

    fn ask(&self, port: &dyn Port, slices: Vec<Slice<'_>>, out: Slice<'_>) -> i32 {
        let mut slices = slices.into_iter();
        let mut next = || slices.next().expect("ten slices");
        let (edge_numbers, edge_floats) = (next().numbers(), next().floats());
        let mut wires = |wires: usize| Wires {
            uses: next().numbers(),
            lengths: next().numbers(),
            wires,
        };
        port.split_boundaries_by_divisor(Split {
            edge_numbers,
            edge_floats,
            face: wires(self.face.wires),
            rebuilt: wires(self.rebuilt.wires),
            divisor: next().numbers(),
            points: next().floats(),
            uses: next().numbers(),
            lengths: next().numbers(),
            vertices: self.tables.vertices,
            edges: self.tables.edges,
            divisor_count: self.divisor_count,
            surface: self.surface,
            out: out.counts(),
        })
    }

    fn describe(&self) -> String {
        let (vertices, edges) = (self.tables.vertices, self.tables.edges);
        let (count, lent) = (self.divisor_count, self.divisor.len());
        let list = &self.divisor[..count.min(lent)];
        let mut text = format!(
            "{vertices} vertices, {edges} edges, surface {}\n",
            self.surface
        );
        let room = [self.uses.len(), self.lengths.len()];
        let _ = writeln!(text, "  room for {} uses and {} lengths", room[0], room[1]);
        let _ = writeln!(text, "  list of {count} of {lent}: {list:?}");
        for (row, point) in self.points.chunks_exact(2).enumerate().take(count) {
            let point = describe::floats(&["u", "v"], point);
            let _ = writeln!(text, "  point {row}: {point}");
        }
        text += &self.face.describe("face");
        text += &self.rebuilt.describe("rebuilt");
        text + &describe::tables(&self.tables)
    }

    fn breach(&self, answer: i32, out: &[u64], after: &[Cells]) -> Option<&'static str> {
        let [Cells::Numbers(uses), Cells::Numbers(lengths)] = ANSWERED.map(|row| &after[row])
        else {
            panic!("two rows of numbers");
        };
        let told = Answered {
            answer,
            counts: [0, 1, 2].map(|place| out[place] as usize),
            uses,
            lengths,
        };
        breach(&self.splitting(), &told)
    }
}

impl SplitWires {
    /// What the model takes.
    fn splitting(&self) -> Splitting<'_> {
        Splitting {
            tables: &self.tables,
            face: self.face.lent(),
            rebuilt: self.rebuilt.lent(),
            divisor: &self.divisor,
            points: &self.points,
            divisor_count: self.divisor_count,
            room: [self.uses.len(), self.lengths.len()],
        }
    }

    /// Edges and wires in buffers of just the result's length and so many
    /// cells more in each of those that are written.
    fn over(
        (vertices, edges): (usize, &[Edge]),
        [face, rebuilt]: [&[Vec<u32>]; 2],
        list: &[Place],
        spare: usize,
    ) -> SplitWires {
        let random = &mut Random::new(10, 10, 10);
        let new = list.len() / 2;
        let mut tables = edge_table(vertices, edges);
        let more = numbers_poison(new * EDGE_NUMBERS + spare, random);
        tables.edge_numbers.extend(more);
        let more = (0..new * EDGE_FLOATS + spare).map(|_| float_poison(random));
        tables.edge_floats.extend(more);
        let rebuilt = WireCells::of(rebuilt);
        let room = rebuilt.uses.len() + 2 * new + spare;
        SplitWires {
            tables,
            face: WireCells::of(face),
            rebuilt,
            divisor: list.iter().map(|place| place.0).collect(),
            points: list
                .iter()
                .flat_map(|place| place.1.map(f64::to_bits))
                .collect(),
            divisor_count: list.len(),
            surface: 7,
            uses: numbers_poison(room, random),
            lengths: numbers_poison(room, random),
        }
    }

    /// A call that is done: the new edges that stand behind the others, and
    /// the answered wires.
    fn done(&self, new: &[Edge], wires: &[Vec<u32>]) -> Expected<Self> {
        let mut after = self.clone();
        let mut edges = self.tables.edges();
        edges.extend(new);
        after.tables.write(&[], &edges);
        let uses = wires.concat();
        after.uses[..uses.len()].copy_from_slice(&uses);
        for (length, wire) in after.lengths.iter_mut().zip(wires) {
            *length = wire.len() as u32;
        }
        let counts = [wires.len(), uses.len(), edges.len()];
        Expected {
            answer: 0,
            out: counts.map(|count| count as u64).to_vec(),
            after,
        }
    }

    /// A random split, of few uses where it shall be little.
    pub fn made(random: &mut Random, little: bool) -> SplitWires {
        made::made(random, little)
    }

    /// The vertices on the divisor with their points. Only for an input that
    /// is not refused.
    fn places(&self) -> Vec<Place> {
        let point = |place: usize| [0, 1].map(|cell| f64::from_bits(self.points[2 * place + cell]));
        let place = |place: usize| (self.divisor[place], point(place));
        (0..self.divisor_count).map(place).collect()
    }
}

impl Families for SplitWires {
    const TIMES: usize = 3;

    fn limits() -> Vec<Case<Self>> {
        limits::cases()
    }

    fn small(visit: &mut dyn FnMut(&Self) -> bool) {
        small::each(visit);
    }

    fn random(random: &mut Random) -> Self {
        made::made(random, false)
    }

    fn damaged(random: &mut Random) -> Self {
        let little = !random.once_in(16);
        let mut input = made::made(random, little);
        for _ in 0..1 + random.below(2) {
            made::damage(&mut input, random);
        }
        input
    }

    fn noise(random: &mut Random) -> Self {
        made::noise(random)
    }

    #[cfg(rust_at_hand)]
    fn expected(&self) -> Expected<Self> {
        use crate::healing::{split_by_divisor, Stuck};
        use crate::model::split::split_refused;
        if let Some(number) = split_refused(&self.splitting()) {
            return Expected::unchanged(self, number);
        }
        let (face, rebuilt) = (self.face.lent().read(), self.rebuilt.lent().read());
        let before = self.tables.edges();
        let wires = [&face[..], &rebuilt[..]];
        match split_by_divisor(&before, wires, &self.places(), self.surface) {
            Ok((edges, wires)) => {
                let (kept, new) = edges.split_at(before.len());
                assert_eq!(kept, before, "edges are only added");
                self.done(new, &wires)
            }
            Err(Stuck::DeadEnd) => Expected::unchanged(self, 11),
            Err(Stuck::Crowd) => Expected::unchanged(self, 12),
        }
    }
}
