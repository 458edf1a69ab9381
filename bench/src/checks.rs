//! The checks of causes 1 to 5 alone: a call of one cut that has no cut to
//! make, beside the same tests written plainly in Rust, over the same slices.
//! The Rust library has no checks, so this tells how much of a ratio they are.

use crate::port::Slices;
use kaugrenna::lent::{EDGE_FLOATS, EDGE_NUMBERS, VERTEX_FLOATS, VERTEX_NUMBERS};
use kaugrenna::Cuts;
use oracle::healing::prepared::Ready;
use oracle::records::Shell;
use oracle::shell::PREPARATION;

/// Whether a shell is accepted, and whether each of its damaged copies is.
type Accepted = Vec<bool>;

/// What is asked: whether a shell has no cause.
struct Asked {
    slices: Slices,
    is_sound: fn(&mut Slices) -> bool,
    said: bool,
}

impl Asked {
    fn of(shell: &Shell, is_sound: fn(&mut Slices) -> bool) -> Self {
        Asked {
            slices: Slices::of(shell, 1, 2),
            is_sound,
            said: false,
        }
    }

    fn accepted(&self) -> Accepted {
        let damaged = DAMAGES.map(|damage| (self.is_sound)(&mut damaged(&self.slices, damage)));
        std::iter::once(self.said).chain(damaged).collect()
    }
}

/// The port, by a call that has no cut to make.
pub struct OfPort(Asked);

impl OfPort {
    pub fn of(shell: &Shell) -> Self {
        OfPort(Asked::of(shell, port_accepts))
    }
}

impl Ready for OfPort {
    type Answer = Accepted;

    fn run(&mut self) {
        self.0.said = port_accepts(&mut self.0.slices);
    }

    fn answer(&self) -> Accepted {
        self.0.accepted()
    }
}

/// The same tests in Rust.
pub struct OfRust(Asked);

impl OfRust {
    pub fn of(shell: &Shell) -> Self {
        OfRust(Asked::of(shell, is_sound))
    }
}

impl Ready for OfRust {
    type Answer = Accepted;

    fn run(&mut self) {
        self.0.said = is_sound(&mut self.0.slices);
    }

    fn answer(&self) -> Accepted {
        self.0.accepted()
    }
}

/// A damage that is a cause.
#[derive(Clone, Copy)]
enum Damage {
    Kind,
    Preparation,
    End,
    Use,
    Float,
    Range,
}

const DAMAGES: [Damage; 6] = [
    Damage::Kind,
    Damage::Preparation,
    Damage::End,
    Damage::Use,
    Damage::Float,
    Damage::Range,
];

/// A copy with this damage, in a last row or a first use.
fn damaged(slices: &Slices, damage: Damage) -> Slices {
    let mut slices = slices.clone();
    let (tables, uses) = (&mut slices.tables, &mut slices.wires.uses);
    let (vertex, edge) = (tables.vertices - 1, tables.edges - 1);
    match damage {
        Damage::Kind => tables.vertex_numbers[VERTEX_NUMBERS * vertex] = 2,
        Damage::Preparation => tables.edge_numbers[EDGE_NUMBERS * edge + PREPARATION] = 3,
        Damage::End => tables.edge_numbers[EDGE_NUMBERS * edge + 1] = tables.vertices as u32,
        Damage::Use => uses[0] = 2 * tables.edges as u32,
        Damage::Float => tables.vertex_floats[VERTEX_FLOATS * vertex + 2] = f64::NAN,
        Damage::Range => tables.edge_floats[EDGE_FLOATS * edge + 5] = -1.0e15,
    }
    slices
}

fn port_accepts(slices: &mut Slices) -> bool {
    let none = Cuts {
        floats: &[],
        count: 0,
    };
    let (tables, wires) = (slices.tables.lend_mut(), slices.wires.lend_mut());
    kaugrenna::cut_edge_by_intersections(tables, wires, none, 0).is_ok()
}

// ---- the tests in Rust

/// The most vertices, and the most edges; the most wires; the most uses.
const ROWS: usize = 4096;
const WIRES: usize = 64;
const USES: usize = 1024;

fn is_sized(x: &f64) -> bool {
    x.abs() <= 1.0e15
}

fn is_curve(kind: u32, floats: &[f64]) -> bool {
    let (t0, t1) = (floats[4], floats[5]);
    let is_range = -1.0e15 <= t0 && t0 <= t1 && t1 <= 1.0e15;
    is_range && (kind == 0 || kind == 1 && floats[..4].iter().all(is_sized))
}

fn is_edge(vertices: u32, numbers: &[u32], floats: &[f64]) -> bool {
    let has_ends = numbers[0] < vertices && numbers[1] < vertices;
    has_ends && numbers[PREPARATION] <= 2 && is_curve(numbers[2], floats)
}

fn is_vertex(numbers: &[u32], floats: &[f64]) -> bool {
    match numbers[0] {
        0 => floats[..3].iter().all(is_sized),
        1 => {
            let is_within = floats[4] <= floats[6] && floats[6] <= floats[5];
            is_curve(numbers[1], floats) && is_within
        }
        _ => false,
    }
}

/// Rows of a table, as many as it has; none where it is not lent.
fn rows<'a, const N: usize, const M: usize>(
    numbers: &'a [u32],
    floats: &'a [f64],
    count: usize,
) -> Option<impl Iterator<Item = (&'a [u32], &'a [f64])>> {
    let numbers = numbers.get(..count.checked_mul(N)?)?.chunks_exact(N);
    let floats = floats.get(..count.checked_mul(M)?)?.chunks_exact(M);
    Some(numbers.zip(floats))
}

fn is_sound(slices: &mut Slices) -> bool {
    are_sound(slices).unwrap_or(false)
}

/// Whether the tables and the wires have no cause, where they are lent at all.
fn are_sound(Slices { tables, wires }: &Slices) -> Option<bool> {
    let (vertices, edges) = (tables.vertices, tables.edges);
    if vertices > ROWS || edges > ROWS || wires.count > WIRES {
        return None;
    }
    let mut vertex_rows = rows::<VERTEX_NUMBERS, VERTEX_FLOATS>(
        &tables.vertex_numbers,
        &tables.vertex_floats,
        vertices,
    )?;
    let mut edge_rows =
        rows::<EDGE_NUMBERS, EDGE_FLOATS>(&tables.edge_numbers, &tables.edge_floats, edges)?;
    let lengths = wires.lengths.get(..wires.count)?.iter();
    let used: usize = lengths.map(|&length| length as usize).sum();
    let uses = wires.uses.get(..used).filter(|_| used <= USES)?;
    let sound = vertex_rows.all(|(numbers, floats)| is_vertex(numbers, floats))
        && edge_rows.all(|(numbers, floats)| is_edge(vertices as u32, numbers, floats))
        && uses.iter().all(|&used| used / 2 < edges as u32);
    Some(sound)
}
