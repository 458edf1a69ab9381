//! Nearest ends: the nearest fronts of two stretches of uses.

use super::tables::{in_turn, make_pending, records, sample_edges, spans, spoil_pairs, tables};
use super::tables::{POINTS, SPOILS};
use super::Families;
use crate::cells::{Cells, Kind, Slice};
use crate::compare::{read, Case, Input, Lending, NONE};
use crate::inputs::{any_count, damage_tables, noise, parameters, spoil_number, spoil_one_of};
use crate::model::search::Stretches;
use crate::port::{Nearest, Port};
use crate::random::Random;
use crate::records::{wire, Vertex};
use crate::shell::{needed, numbers_poison, Lent, Tables, NAMES};
use crate::{describe, records::Shell};

/// What a call is lent.
#[derive(Clone, Debug, PartialEq, Eq)]
pub struct NearestEnds {
    pub tables: Tables,
    pub first: Vec<u32>,
    pub second: Vec<u32>,
    pub first_count: usize,
    pub second_count: usize,
    pub v0: u32,
}

impl Input for NearestEnds {
    const NAME: &'static str = "nearest_correction";
    const NUMBER: u64 = 6;
    const ANSWERS: &'static [i32] = &[0, NONE, 1, 2, 3, 4, 5, 7];
    const SCALARS: usize = 5;
    const SLICES: &'static [Lending] = &[
        read(NAMES[0], Kind::Number),
        read(NAMES[1], Kind::Float),
        read(NAMES[2], Kind::Number),
        read(NAMES[3], Kind::Float),
        read("first", Kind::Number),
        read("second", Kind::Number),
    ];
    const OUT: (Kind, usize) = (Kind::Number, 2);

    fn scalars(&self) -> Vec<u64> {
        vec![
            self.tables.vertices as u64,
            self.tables.edges as u64,
            self.first_count as u64,
            self.second_count as u64,
            self.v0.into(),
        ]
    }

    fn slices(&self) -> Vec<Cells> {
        let mut slices = self.tables.slices();
        slices.push(Cells::Numbers(self.first.clone()));
        slices.push(Cells::Numbers(self.second.clone()));
        slices
    }

    fn put_together(scalars: &[u64], slices: Vec<Cells>) -> Result<Self, String> {
        let [vertices, edges, first_count, second_count] = [0, 1, 2, 3].map(|i| scalars[i]);
        let counts = [vertices as usize, edges as usize];
        let mut slices = slices.into_iter();
        let mut next = || slices.next().expect("six slices");
        Ok(NearestEnds {
            tables: Tables::put_together(counts, &mut next),
            first: next().numbers(),
            second: next().numbers(),
            first_count: first_count as usize,
            second_count: second_count as usize,
            v0: u32::try_from(scalars[4]).map_err(|_| "a vertex number is too large")?,
        })
    }

    fn ask(&self, port: &dyn Port, slices: Vec<Slice<'_>>, out: Slice<'_>) -> i32 {
        let mut slices = slices.into_iter();
        let mut next = || slices.next().expect("six slices");
        port.nearest_correction(Nearest {
            rows: self.tables.lent(&mut next),
            first: next().numbers(),
            second: next().numbers(),
            first_count: self.first_count,
            second_count: self.second_count,
            v0: self.v0,
            out: out.numbers(),
        })
    }

    fn describe(&self) -> String {
        format!(
            "{} vertices, {} edges, buffers {:?}\n  from {}\n  first, {}\n  second, {}\n{}",
            self.tables.vertices,
            self.tables.edges,
            self.tables.sizes(),
            self.v0,
            describe::uses(&self.first, self.first_count),
            describe::uses(&self.second, self.second_count),
            describe::tables(&self.tables)
        )
    }
}

impl NearestEnds {
    /// The uses and the vertex, as the model takes them.
    #[cfg_attr(not(rust_at_hand), allow(dead_code))]
    fn stretches(&self) -> Stretches<'_> {
        Stretches {
            first: &self.first,
            second: &self.second,
            first_count: self.first_count,
            second_count: self.second_count,
            v0: self.v0,
        }
    }

    /// Tables and two stretches that are lent in full.
    fn over(tables: Tables, v0: u32, first: Vec<u32>, second: Vec<u32>) -> NearestEnds {
        NearestEnds {
            tables,
            first_count: first.len(),
            second_count: second.len(),
            first,
            second,
            v0,
        }
    }

    /// Random tables and stretches, few of each where it shall be little.
    pub fn made(random: &mut Random, little: bool) -> NearestEnds {
        let (vertices, edges) = records(random, little);
        let most = match little || !random.once_in(32) {
            true => 7,
            false => random.pick(&[64, 512, 513]),
        };
        let v0 = random.below(vertices.len().max(1)) as u32;
        let stretch = |random: &mut Random| -> Vec<u32> {
            let count = if edges.is_empty() { 1 } else { most };
            let few = 2 * edges.len();
            (0..random.below(count))
                .map(|_| random.below(few) as u32)
                .collect()
        };
        let (first, second) = (stretch(random), stretch(random));
        let shell = Shell {
            vertices,
            edges,
            wires: Vec::new(),
        };
        let sizes = needed(shell.counts(), 0).map(|size| size + random.below(3));
        let tables = Lent::holding(&shell, sizes, random).tables;
        let mut input = NearestEnds::over(tables, v0, first, second);
        input.first.extend(numbers_poison(random.below(3), random));
        input.second.extend(numbers_poison(random.below(3), random));
        input
    }

    /// Random tables and stretches with one to three damages.
    pub fn spoiled(random: &mut Random, little: bool) -> NearestEnds {
        let mut input = NearestEnds::made(random, little);
        for _ in 0..1 + random.below(3) {
            match random.below(11) {
                cell @ 0..5 => damage_tables(random, &mut input.tables, cell),
                5 => spoil_number(random, &mut input.first),
                6 => spoil_number(random, &mut input.second),
                7 => input.v0 = random.pick(&[0, 1, 5, 4096, u32::MAX]),
                8 => {
                    let tables = &mut input.tables;
                    let counts = [
                        &mut tables.vertices,
                        &mut tables.edges,
                        &mut input.first_count,
                        &mut input.second_count,
                    ];
                    spoil_one_of(random, counts);
                }
                9 => {
                    let mut sizes = input.tables.sizes();
                    let short = random.below(4);
                    sizes[short] = sizes[short].saturating_sub(1 + random.below(4));
                    input.tables.shorten(sizes);
                }
                _ => parameters(random, &mut input.tables),
            }
        }
        input
    }
}

/// The sample: K9's tables, two stretches and the vertex to start from.
fn sample(v0: u32, first: &str, second: &str) -> NearestEnds {
    let tables = tables(&POINTS, &sample_edges());
    NearestEnds::over(tables, v0, wire(first), wire(second))
}

/// Results that are written out.
fn results() -> Vec<Case<NearestEnds>> {
    let gives = |name, v0, first: &str, second: &str, found: [u64; 2]| {
        Case::told(name, sample(v0, first, second), &found)
    };
    let none =
        |name, first: &str, second: &str| Case::unchanged(name, sample(0, first, second), NONE);
    let at = |name, points: &[Vertex], first: &str, second: &str, found: [u64; 2]| {
        let tables = tables(points, &sample_edges());
        let input = NearestEnds::over(tables, 0, wire(first), wire(second));
        Case::told(name, input, &found)
    };
    let mut coincident = POINTS;
    coincident[1] = coincident[0];
    let tiny = 1.0e-170;
    let lost = [
        Vertex::Given(0.0, 0.0, 0.0),
        Vertex::Given(3.0 * tiny, 0.0, 0.0),
        Vertex::Given(tiny, 0.0, 0.0),
        Vertex::Given(0.0, 0.0, 0.0),
    ];
    // From vertex 0 the squares are 1.0e16 and 1.0e16 + 1: both 1.0e16.
    let rounded = [
        Vertex::Given(0.0, 0.0, 0.0),
        Vertex::Given(1.0e8, 1.0, 0.0),
        Vertex::Given(1.0e8, 0.0, 0.0),
        Vertex::Given(9.0, 0.0, 0.0),
    ];
    // From vertex 0 to 1 the squares are 1, 1 and 1.0e16 in this order, so
    // that their sum is 1.0e16 + 2; to 2 they are 1.0e16, 1 and 1, each of
    // which is lost.
    let ordered = [
        Vertex::Given(0.0, 0.0, 0.0),
        Vertex::Given(1.0, 1.0, 1.0e8),
        Vertex::Given(1.0e8, 1.0, 1.0),
        Vertex::Given(9.0, 0.0, 0.0),
    ];
    vec![
        // The stretches of K9's wire, 0+ 3+ 4+ 0- 1+ 2+ once it is turned.
        gives("K9's stretches", 2, "3+ 4+", "1+ 2+", [2, 0]),
        gives("K9's own start", 3, "3+ 4+", "1+ 2+", [3, 1]),
        gives("the start is in no stretch", 0, "3+ 4+", "2+", [3, 1]),
        gives("a use of one each", 0, "0+", "0-", [0, 2]),
        gives("both stretches the same use", 3, "1-", "1-", [1, 1]),
        gives("a self loop", 3, "5+ 5-", "5-", [3, 3]),
        gives("a vertex twice", 0, "1+ 3+ 4+", "2+ 3+ 2+", [0, 1]),
        at("coincident vertices", &coincident, "2+ 1+", "2+ 1+", [1, 1]),
        at("lost squares", &lost, "2+ 0+", "2+ 3+ 0+", [1, 1]),
        at("equal after rounding", &rounded, "3+ 2+", "2+ 3+", [1, 1]),
        at(
            "squares in the order x, y, z",
            &ordered,
            "2+",
            "2+ 3+",
            [1, 2],
        ),
        none("no first stretch", "", "1+"),
        none("no second stretch", "1+", ""),
        none("no stretches", "", ""),
    ]
}

/// Refusals that are written out.
fn refusals() -> Vec<Case<NearestEnds>> {
    let no = |name, number, change: fn(&mut NearestEnds)| {
        let mut input = sample(3, "3+ 4+", "1+ 2+");
        change(&mut input);
        Case::unchanged(name, input, number)
    };
    let mut long = sample(3, &"3+ ".repeat(512), &"1+ ".repeat(512));
    let longest = Case::told("1024 uses", long.clone(), &[2, 0]);
    long.second.push(0);
    long.second_count += 1;
    vec![
        longest,
        Case::unchanged("1025 uses", long, 1),
        no("a first count above what was lent", 1, |n| {
            n.first_count = 3;
        }),
        no("a second count above what was lent", 1, |n| {
            n.second_count = 3;
        }),
        no("both counts the largest", 1, |n| {
            (n.first_count, n.second_count) = (usize::MAX, usize::MAX);
        }),
        no("counts whose sum wraps", 1, |n| {
            (n.first_count, n.second_count) = (usize::MAX, 1);
        }),
        no("the start at the vertex count", 2, |n| n.v0 = 4),
        no("the largest start", 2, |n| n.v0 = u32::MAX),
        no("a first use at the edge count", 3, |n| n.first[1] = 12),
        no("the largest second use", 3, |n| n.second[0] = u32::MAX),
        no("a bad use beside a bad start", 2, |n| {
            (n.v0, n.first[0]) = (4, 99);
        }),
        no("pending and no stretches", 7, |n| {
            make_pending(&mut n.tables, 1);
            (n.first_count, n.second_count) = (0, 0);
        }),
        no("pending and a bad use", 3, |n| {
            make_pending(&mut n.tables, 1);
            n.first[0] = 12;
        }),
        no("no stretches and a bad start", 2, |n| {
            (n.first_count, n.second_count, n.v0) = (0, 0, 4);
        }),
    ]
}

/// The sample with something done to its tables.
fn spoils() -> Vec<Case<NearestEnds>> {
    let spoil = |&(name, number, change): &super::tables::Spoil| {
        let mut input = sample(3, "3+ 4+", "1+ 2+");
        change(&mut input.tables);
        match number {
            0 => Case::told(name, input, &[3, 1]),
            _ => Case::unchanged(name, input, number),
        }
    };
    SPOILS.iter().map(spoil).collect()
}

/// The points of the vertices that are gone through in full.
fn layouts() -> [[Vertex; 3]; 4] {
    let at = |x: f64, y: f64, z: f64| Vertex::Given(x, y, z);
    [
        [at(0.0, 0.0, 0.0), at(1.0, 0.0, 0.0), at(0.0, 1.0, 0.0)],
        [at(0.0, 0.0, 0.0), at(0.0, 0.0, -0.0), at(1.0, 1.0, 1.0)],
        [at(1.0e8, 0.0, 0.0), at(0.0, 1.0, 0.0), at(0.0, 0.0, 0.0)],
        [at(0.0, 0.0, 0.0), at(2.0, 0.0, 0.0), at(1.0, 0.0, 1.0e-170)],
    ]
}

/// Every list of up to two uses of three edges.
fn short_lists() -> Vec<Vec<u32>> {
    let mut lists = vec![vec![]];
    for first in 0..6 {
        lists.push(vec![first]);
        lists.extend((0..6).map(|second| vec![first, second]));
    }
    lists
}

impl Families for NearestEnds {
    const TIMES: usize = 3;

    fn limits() -> Vec<Case<Self>> {
        [results(), refusals(), spoils()]
            .into_iter()
            .flatten()
            .collect()
    }

    fn small(visit: &mut dyn FnMut(&Self) -> bool) {
        for [first, second] in spoil_pairs() {
            let mut input = sample(3, "3+ 4+", "1+ 2+");
            first(&mut input.tables);
            second(&mut input.tables);
            if !visit(&input) {
                return;
            }
        }
        let lists = short_lists();
        let edges = in_turn(&spans(&[(0, 1), (2, 0), (1, 1)]), 0);
        for points in layouts() {
            let tables = tables(&points, &edges);
            for first in &lists {
                for second in &lists {
                    let start = (first.len() + 2 * second.len()) as u32 % 3;
                    for v0 in [start, (start + 1) % 3] {
                        let (first, second) = (first.clone(), second.clone());
                        let input = NearestEnds::over(tables.clone(), v0, first, second);
                        if !visit(&input) {
                            return;
                        }
                    }
                }
            }
        }
    }

    fn random(random: &mut Random) -> Self {
        NearestEnds::made(random, false)
    }

    fn damaged(random: &mut Random) -> Self {
        NearestEnds::spoiled(random, false)
    }

    fn noise(random: &mut Random) -> Self {
        let lent = noise(random);
        NearestEnds {
            tables: lent.tables,
            first: lent.uses,
            second: lent.lengths,
            first_count: any_count(random),
            second_count: any_count(random),
            v0: any_count(random) as u32,
        }
    }

    #[cfg(rust_at_hand)]
    fn expected(&self) -> crate::compare::Expected<Self> {
        use crate::compare::Expected;
        use crate::{healing, model};
        let refused = model::search::nearest_refused(&self.tables, &self.stretches());
        if let Some(number) = refused {
            return Expected::unchanged(self, number);
        }
        let (first, second) = (
            &self.first[..self.first_count],
            &self.second[..self.second_count],
        );
        let (vertices, edges) = (self.tables.vertices(), self.tables.edges());
        let found = healing::nearest_correction(self.v0, [first, second], &vertices, &edges);
        let nothing = first.is_empty() || second.is_empty();
        assert_eq!(found.is_none(), nothing, "only an empty stretch has none");
        match found {
            Some(found) => Expected::told(self, &found.map(u64::from)),
            None => Expected::unchanged(self, NONE),
        }
    }
}
