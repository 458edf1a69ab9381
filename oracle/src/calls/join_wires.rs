//! The join of two open wires with one of the new wires.

mod limits;
mod small;

use super::tables::edge_table;
use super::Families;
use crate::cells::{Cells, Kind, Slice};
use crate::compare::{read, written, Case, Expected, Input, Lending, NONE};
use crate::describe;
use crate::inputs::{any_count, any_size, damage_tables, edge, noise, parameters};
use crate::inputs::{spoil_number, spoil_one_of};
use crate::model::join::Joining;
use crate::model::search::Stretches;
use crate::model::{MOST_EDGES, MOST_USES, MOST_VERTICES};
use crate::port::{Join, Port, Rows};
use crate::random::Random;
use crate::records::Edge;
use crate::shell::{float_poison, numbers_poison, Lent, Tables, NAMES};

/// What a call is lent. The tables have a count of vertices, but no vertex
/// rows: the join is not lent them.
#[derive(Clone, Debug, PartialEq, Eq)]
pub struct JoinWires {
    pub new: Lent,
    pub first: Vec<u32>,
    pub second: Vec<u32>,
    pub first_count: usize,
    pub second_count: usize,
    pub v0: u32,
    pub v1: u32,
}

impl Input for JoinWires {
    const NAME: &'static str = "connect_open_boundaries";
    const NUMBER: u64 = 9;
    const ANSWERS: &'static [i32] = &[0, NONE, 1, 2, 3, 4, 5, 6, 15];
    const SCALARS: usize = 7;
    const SLICES: &'static [Lending] = &[
        read(NAMES[2], Kind::Number),
        read(NAMES[3], Kind::Float),
        read("first", Kind::Number),
        read("second", Kind::Number),
        written(NAMES[4], Kind::Number),
        written(NAMES[5], Kind::Number),
    ];
    const OUT: (Kind, usize) = (Kind::Count, 1);

    fn scalars(&self) -> Vec<u64> {
        let counts = [
            self.new.tables.vertices,
            self.new.tables.edges,
            self.first_count,
            self.second_count,
            self.new.wires,
        ];
        let mut scalars = counts.map(|count| count as u64).to_vec();
        scalars.extend([self.v0, self.v1].map(u64::from));
        scalars
    }

    fn slices(&self) -> Vec<Cells> {
        let tables = &self.new.tables;
        vec![
            Cells::Numbers(tables.edge_numbers.clone()),
            Cells::Floats(tables.edge_floats.clone()),
            Cells::Numbers(self.first.clone()),
            Cells::Numbers(self.second.clone()),
            Cells::Numbers(self.new.uses.clone()),
            Cells::Numbers(self.new.lengths.clone()),
        ]
    }

    fn put_together(scalars: &[u64], slices: Vec<Cells>) -> Result<Self, String> {
        let count = |place: usize| scalars[place] as usize;
        let vertex = |place: usize| {
            u32::try_from(scalars[place]).map_err(|_| "a vertex number is too large")
        };
        let mut slices = slices.into_iter();
        let mut next = || slices.next().expect("six slices");
        let tables = Tables {
            edge_numbers: next().numbers(),
            edge_floats: next().floats(),
            edges: count(1),
            ..edge_table(count(0), &[])
        };
        Ok(JoinWires {
            first: next().numbers(),
            second: next().numbers(),
            new: Lent {
                tables,
                uses: next().numbers(),
                lengths: next().numbers(),
                wires: count(4),
            },
            first_count: count(2),
            second_count: count(3),
            v0: vertex(5)?,
            v1: vertex(6)?,
        })
    }

    fn ask(&self, port: &dyn Port, slices: Vec<Slice<'_>>, out: Slice<'_>) -> i32 {
        let mut slices = slices.into_iter();
        let mut next = || slices.next().expect("six slices");
        port.connect_open_boundaries(Join {
            rows: Rows {
                vertex_numbers: &[],
                vertex_floats: &[],
                edge_numbers: next().numbers(),
                edge_floats: next().floats(),
                vertices: self.new.tables.vertices,
                edges: self.new.tables.edges,
            },
            first: next().numbers(),
            second: next().numbers(),
            uses: next().numbers(),
            lengths: next().numbers(),
            first_count: self.first_count,
            second_count: self.second_count,
            wires: self.new.wires,
            v0: self.v0,
            v1: self.v1,
            out: out.counts(),
        })
    }

    fn describe(&self) -> String {
        format!(
            "from {} to {}\n  first, {}\n  second, {}\n  {}",
            self.v0,
            self.v1,
            describe::uses(&self.first, self.first_count),
            describe::uses(&self.second, self.second_count),
            describe::lent(&self.new)
        )
    }
}

impl JoinWires {
    /// What the model takes.
    #[cfg_attr(not(rust_at_hand), allow(dead_code))]
    fn joining(&self) -> Joining<'_> {
        Joining {
            lent: &self.new,
            open: Stretches {
                first: &self.first,
                second: &self.second,
                first_count: self.first_count,
                second_count: self.second_count,
                v0: self.v0,
            },
            v1: self.v1,
        }
    }

    /// Open wires that are lent in full, new wires in a buffer of so many uses
    /// with so many lengths behind theirs, and the two vertices.
    fn over(
        tables: Tables,
        [first, second]: [Vec<u32>; 2],
        new: &[Vec<u32>],
        [v0, v1]: [u32; 2],
        (uses, more): (usize, usize),
    ) -> JoinWires {
        let random = &mut Random::new(9, 9, 9);
        let mut cells = new.concat();
        cells.extend(numbers_poison(uses.saturating_sub(cells.len()), random));
        let mut lengths: Vec<u32> = new.iter().map(|wire| wire.len() as u32).collect();
        lengths.extend(numbers_poison(more, random));
        JoinWires {
            new: Lent {
                tables,
                uses: cells,
                lengths,
                wires: new.len(),
            },
            first_count: first.len(),
            second_count: second.len(),
            first,
            second,
            v0,
            v1,
        }
    }

    /// A call that is done, and the new wires that stand there afterwards.
    fn done(&self, wires: &[Vec<u32>]) -> Expected<Self> {
        let (mut after, uses) = (self.clone(), wires.concat());
        after.new.uses[..uses.len()].copy_from_slice(&uses);
        for (length, wire) in after.new.lengths.iter_mut().zip(wires) {
            *length = wire.len() as u32;
        }
        Expected {
            answer: 0,
            out: vec![uses.len() as u64],
            after,
        }
    }

    /// Random wires over a random edge table, few of each where it shall be
    /// little.
    pub fn made(random: &mut Random, little: bool) -> JoinWires {
        let (vertices, edges) = edges(random, little);
        let wires = Wires::made(random, &edges, little);
        let [v0, v1] = wires.ends(random, &edges, vertices);
        let joined = wires.uses() + wires.open.concat().len();
        let room = match random.below(8) {
            0 => wires.uses(),
            1 => joined.saturating_sub(1),
            2..=4 => joined,
            _ => joined + random.below(8),
        };
        let more = random.below(3);
        let tables = edge_table(vertices, &edges);
        let mut input = JoinWires::over(tables, wires.open, &wires.new, [v0, v1], (room, more));
        let tables = &mut input.new.tables;
        tables
            .edge_numbers
            .extend(numbers_poison(random.below(5), random));
        let spare = (0..random.below(7)).map(|_| float_poison(random));
        tables.edge_floats.extend(spare);
        input.first.extend(numbers_poison(random.below(3), random));
        input.second.extend(numbers_poison(random.below(3), random));
        input
    }

    /// Spoils one thing.
    fn damage(&mut self, random: &mut Random) {
        let short = |random: &mut Random, size: usize| size.saturating_sub(1 + random.below(4));
        let Lent {
            tables,
            uses,
            lengths,
            wires,
        } = &mut self.new;
        match random.below(14) {
            thing @ (0 | 1 | 3) => damage_tables(random, tables, thing),
            2 => parameters(random, tables),
            4 => spoil_number(random, &mut self.first),
            5 => spoil_number(random, &mut self.second),
            6 => spoil_number(random, uses),
            7 => spoil_number(random, lengths),
            8 => self.v0 = random.pick(&[0, 1, 5, 4096, u32::MAX]),
            9 => self.v1 = random.pick(&[0, 1, 5, 4096, u32::MAX]),
            10 => {
                let counts = [
                    &mut tables.vertices,
                    &mut tables.edges,
                    &mut self.first_count,
                    &mut self.second_count,
                    wires,
                ];
                spoil_one_of(random, counts);
            }
            11 => uses.truncate(short(random, uses.len())),
            12 => lengths.truncate(short(random, lengths.len())),
            _ => {
                let mut sizes = tables.sizes();
                let buffer = 2 + random.below(2);
                sizes[buffer] = short(random, sizes[buffer]);
                tables.shorten(sizes);
            }
        }
    }
}

/// A count of vertices and edges between them, now and then as many as the
/// bounds allow.
fn edges(random: &mut Random, little: bool) -> (usize, Vec<Edge>) {
    let size = |random: &mut Random, most: usize| match little || !random.once_in(24) {
        true => 1 + random.below(if little { 4 } else { 8 }),
        false => any_size(random, most),
    };
    let (vertices, count) = (size(random, MOST_VERTICES), size(random, MOST_EDGES));
    let count = if vertices == 0 { 0 } else { count };
    let loops = random.pick(&[0, 1, 1, 4]);
    let edges = (0..count).map(|_| edge(random, vertices, loops));
    (vertices, edges.collect())
}

/// The wires of an input.
struct Wires {
    open: [Vec<u32>; 2],
    new: Vec<Vec<u32>>,
}

impl Wires {
    /// Wires over these edges, now and then as many as the bounds allow.
    fn made(random: &mut Random, edges: &[Edge], little: bool) -> Wires {
        let count = match little || !random.once_in(16) {
            true => 1 + random.below(3),
            false => random.pick(&[0, 1, 8, 61, 62, 62, 63]),
        };
        let longest = match little || !random.once_in(12) {
            true => 6,
            false => random.pick(&[20, 64, 340, 513, 1024]),
        };
        let few = random.pick(&[4, edges.len()]).min(edges.len());
        let mut left = if random.once_in(24) { 1025 } else { MOST_USES };
        let mut wire = |least: usize| -> Vec<u32> {
            let length = (least + random.below(longest)).min(left);
            let length = if few == 0 { 0 } else { length };
            left -= length;
            let any = |_| random.below(2 * few) as u32;
            (0..length).map(any).collect()
        };
        let open = [wire(1), wire(1)];
        let new: Vec<Vec<u32>> = (0..count).map(|_| wire(0)).collect();
        let mut wires = Wires { open, new };
        if random.once_in(32) {
            wires.open[random.below(2)].clear();
        }
        if random.once_in(32) {
            wires.fill(left, random);
        }
        wires
    }

    /// Adds uses of the first edges until the bound is reached.
    fn fill(&mut self, left: usize, random: &mut Random) {
        let uses = self.uses() + self.open.concat().len();
        if let (Some(last), true) = (self.new.last_mut(), uses > 0) {
            last.extend((0..left).map(|_| random.below(2) as u32));
        }
    }

    /// The uses of all new wires.
    fn uses(&self) -> usize {
        self.new.iter().map(Vec::len).sum()
    }

    /// Two vertices, mostly fronts of the wires.
    fn ends(&self, random: &mut Random, edges: &[Edge], vertices: usize) -> [u32; 2] {
        let front = |number: u32| {
            let edge = edges[number as usize / 2];
            [edge.front, edge.back][number as usize % 2]
        };
        let mut one_of = |wire: &[u32]| match wire.is_empty() || random.once_in(12) {
            true => random.below(vertices.max(1)) as u32,
            false => front(random.pick(wire)),
        };
        let ([first, second], new) = (&self.open, self.new.concat());
        let from = [
            one_of(&first[..first.len().min(1)]),
            one_of(&second[..second.len().min(1)]),
            one_of(first),
            one_of(&new),
        ];
        let to = [one_of(second), one_of(second), one_of(first), one_of(&new)];
        [random.pick(&from), random.pick(&to)]
    }
}

impl Families for JoinWires {
    const TIMES: usize = 4;

    fn limits() -> Vec<Case<Self>> {
        limits::cases()
    }

    fn small(visit: &mut dyn FnMut(&Self) -> bool) {
        small::each(visit);
    }

    fn random(random: &mut Random) -> Self {
        JoinWires::made(random, false)
    }

    fn damaged(random: &mut Random) -> Self {
        let little = !random.once_in(16);
        let mut input = JoinWires::made(random, little);
        for _ in 0..1 + random.below(2) {
            input.damage(random);
        }
        input
    }

    fn noise(random: &mut Random) -> Self {
        let mut new = noise(random);
        (new.tables.vertex_numbers, new.tables.vertex_floats) = (Vec::new(), Vec::new());
        let uses = |random: &mut Random| -> Vec<u32> {
            let any = random.once_in(4);
            let cell = |random: &mut Random| match any {
                true => random.word() as u32,
                false => random.below(5) as u32,
            };
            (0..random.below(12)).map(|_| cell(random)).collect()
        };
        let counts = [0; 4].map(|_| any_count(random));
        let [first_count, second_count, v0, v1] = counts.map(|any| random.pick(&[0, 1, 1, any]));
        JoinWires {
            new,
            first: uses(random),
            second: uses(random),
            first_count,
            second_count,
            v0: v0 as u32,
            v1: v1 as u32,
        }
    }

    #[cfg(rust_at_hand)]
    fn expected(&self) -> Expected<Self> {
        use crate::healing;
        use crate::model::join::{join_cause_6, join_refused, joins};
        let joining = self.joining();
        if let Some(number) = join_refused(&joining) {
            return Expected::unchanged(self, number);
        }
        let (edges, new) = (self.new.tables.edges(), self.new.wires().read());
        let open = [
            &self.first[..self.first_count],
            &self.second[..self.second_count],
        ];
        let joined = healing::join(&edges, open, &new, [self.v0, self.v1]);
        assert_eq!(joined.is_some(), joins(&joining, &new), "whether they join");
        let Some(wires) = joined else {
            return Expected::unchanged(self, NONE);
        };
        assert_eq!(wires.concat().len(), joining.result_uses(), "uses out");
        assert_eq!(wires.len(), new.len(), "wires out");
        match join_cause_6(&joining) {
            true => Expected::unchanged(self, 6),
            false => self.done(&wires),
        }
    }
}
