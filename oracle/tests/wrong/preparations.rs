//! Wrong checks of the preparations of edges, for every call that is lent
//! edges.

use super::{behind, step, Mutant};
use oracle::port::{Join, Nearest, Rows, Split, Wires};
use oracle::reference::tables::{causes, join_causes, nearest_causes, split_causes};
use oracle::shell::{EDGE_NUMBERS, PREPARATION};

/// What a wrong check knows of a call.
struct Asked<'a> {
    /// The number cells of the edge rows.
    cells: &'a [u32],
    /// How many edges there are.
    edges: usize,
    /// Every slice of uses.
    uses: &'a [&'a [u32]],
    /// The causes that the call meets with these number cells.
    causes: &'a dyn Fn(&[u32]) -> Vec<i32>,
}

impl Asked<'_> {
    /// The causes that the call meets.
    fn met(&self) -> Vec<i32> {
        (self.causes)(self.cells)
    }

    /// Those that it would meet with other preparations, each made of the row
    /// and the number that is there.
    fn seen(&self, other: impl Fn(usize, u32) -> u32) -> Vec<i32> {
        let mut cells = self.cells.to_vec();
        for (row, cells) in cells.chunks_exact_mut(EDGE_NUMBERS).enumerate() {
            cells[PREPARATION] = other(row, cells[PREPARATION]);
        }
        (self.causes)(&cells)
    }

    /// Those that it would meet if every number were a preparation.
    fn unlooked(&self) -> Vec<i32> {
        self.seen(|_, number| number.min(2))
    }

    /// Whether an edge is used.
    fn is_used(&self, row: usize) -> bool {
        let mut uses = self.uses.iter().copied().flatten();
        uses.any(|&number| number as usize / 2 == row)
    }
}

/// The causes that a wrong check tells.
type Told = fn(&Asked) -> Vec<i32>;

/// The causes that are told of tables and wires.
fn of_shell(rows: &Rows, wires: &Wires, told: Told) -> Vec<i32> {
    told(&Asked {
        cells: rows.edge_numbers,
        edges: rows.edges,
        uses: &[wires.uses],
        causes: &|edge_numbers| {
            let rows = Rows {
                edge_numbers,
                ..*rows
            };
            causes(&rows, wires)
        },
    })
}

/// The causes that are told of nearest ends.
fn of_nearest(call: &Nearest, told: Told) -> Vec<i32> {
    told(&Asked {
        cells: call.rows.edge_numbers,
        edges: call.rows.edges,
        uses: &[call.first, call.second],
        causes: &|edge_numbers| {
            let rows = Rows {
                edge_numbers,
                ..call.rows
            };
            let out = &mut [0; 2];
            nearest_causes(&Nearest { rows, out, ..*call })
        },
    })
}

/// The causes that are told of a join.
fn of_join(call: &Join, told: Told) -> Vec<i32> {
    told(&Asked {
        cells: call.rows.edge_numbers,
        edges: call.rows.edges,
        uses: &[call.first, call.second, call.uses],
        causes: &|edge_numbers| {
            let rows = Rows {
                edge_numbers,
                ..call.rows
            };
            join_causes(&Join {
                rows,
                uses: &mut call.uses.to_vec(),
                lengths: &mut call.lengths.to_vec(),
                out: &mut [0],
                ..*call
            })
        },
    })
}

/// The causes that are told of a split.
fn of_split(call: &Split, told: Told) -> Vec<i32> {
    told(&Asked {
        cells: call.edge_numbers,
        edges: call.edges,
        uses: &[call.face.uses, call.rebuilt.uses],
        causes: &|edge_numbers| {
            split_causes(&Split {
                edge_numbers: &mut edge_numbers.to_vec(),
                edge_floats: &mut call.edge_floats.to_vec(),
                uses: &mut [],
                lengths: &mut [],
                out: &mut [0; 3],
                ..*call
            })
        },
    })
}

/// A port whose calls tell the causes that a wrong check makes.
macro_rules! told {
    ($name:literal, $told:expr) => {
        step($name, |r| {
            r.tables.causes = |rows, wires| of_shell(rows, wires, $told);
            r.tables.nearest_causes = |call| of_nearest(call, $told);
            r.tables.join_causes = |call| of_join(call, $told);
            r.tables.split_causes = |call| of_split(call, $told);
        })
    };
}

/// Preparations that pass or are refused wrongly.
pub fn wrong_numbers() -> Vec<Mutant> {
    vec![
        told!("an unknown preparation passes", |asked| asked.unlooked()),
        told!("preparation 3 passes", |asked| {
            asked.seen(|_, number| number - u32::from(number == 3))
        }),
        told!("the largest preparation passes", |asked| {
            asked.seen(|_, number| if number == u32::MAX { 0 } else { number })
        }),
        told!("a single bevel is unknown", |asked| {
            asked.seen(|_, number| if number == 1 { 3 } else { number })
        }),
        told!("a double bevel is unknown", |asked| {
            asked.seen(|_, number| if number == 2 { 3 } else { number })
        }),
    ]
}

/// Rows whose preparations are looked at and should not be, or the other way
/// round.
pub fn wrong_sight() -> Vec<Mutant> {
    vec![
        told!("preparations of unused edges not looked at", |asked| {
            asked.seen(|row, number| if asked.is_used(row) { number } else { 0 })
        }),
        told!("preparations of used edges not looked at", |asked| {
            asked.seen(|row, number| if asked.is_used(row) { 0 } else { number })
        }),
        told!("the first preparation alone looked at", |asked| {
            asked.seen(|row, number| if row == 0 { number } else { 0 })
        }),
        told!("preparations past the edges looked at", |asked| {
            let mut rows = asked.cells.chunks_exact(EDGE_NUMBERS).skip(asked.edges);
            let unknown = rows.any(|row| row[PREPARATION] > 2);
            [asked.met(), vec![1; usize::from(unknown)]].concat()
        }),
        behind("four numbers are enough for an edge", |b| {
            b.pass = |answer, _, call| four_enough(answer, call.pass.edge_numbers, call.pass.edges);
            b.cut = |answer, _, call| four_enough(answer, call.pass.edge_numbers, call.pass.edges);
            b.several = b.cut;
            b.nearest = |answer, call| four_enough(answer, call.rows.edge_numbers, call.rows.edges);
            b.search = |answer, call| four_enough(answer, call.rows.edge_numbers, call.rows.edges);
            b.join = |answer, _, call| four_enough(answer, call.rows.edge_numbers, call.rows.edges);
            b.split = |answer, _, call| four_enough(answer, call.edge_numbers, call.edges);
        }),
    ]
}

/// The answer, which is no refusal where just four numbers are lent for each
/// edge.
fn four_enough(answer: i32, cells: &[u32], edges: usize) -> i32 {
    match edges.checked_mul(4) {
        Some(four @ 1..) if answer == 1 && four == cells.len() => 0,
        _ => answer,
    }
}

/// Unknown preparations in a wrong order with other causes.
pub fn wrong_order() -> Vec<Mutant> {
    vec![
        told!("2 before an unknown preparation", |asked| {
            match asked.unlooked() {
                others if others.iter().min() == Some(&2) => others,
                _ => asked.met(),
            }
        }),
        told!("an unknown preparation earns 2", |asked| {
            let (mut others, met) = (asked.unlooked(), asked.met());
            let unknown = met.contains(&1) && !others.contains(&1);
            others.extend(unknown.then_some(2));
            others
        }),
        told!("an unknown preparation after all others", |asked| {
            match asked.unlooked() {
                others if others.is_empty() => asked.met(),
                others => others,
            }
        }),
    ]
}

/// All of them.
pub fn lists() -> Vec<Vec<Mutant>> {
    vec![wrong_numbers(), wrong_sight(), wrong_order()]
}
