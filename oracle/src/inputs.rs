//! Random inputs: good shells in buffers of many lengths, damaged copies of
//! them, and plain noise.

use crate::model::{MOST_EDGES, MOST_USES, MOST_VERTICES, MOST_WIRES};
use crate::random::Random;
use crate::records::{Curve, Edge, Preparation, Shell, Vertex};
use crate::shell::{needed, Lent, Tables};
use crate::shell::{EDGE_FLOATS, EDGE_NUMBERS, PREPARATION, VERTEX_FLOATS, VERTEX_NUMBERS};

/// How large a shell shall be.
pub struct Sizes {
    pub vertices: usize,
    pub edges: usize,
    pub wires: usize,
    pub uses: usize,
}

/// Sizes from nothing up to the bounds, now and then one past a bound.
pub fn any_sizes(random: &mut Random) -> Sizes {
    Sizes {
        vertices: any_size(random, MOST_VERTICES),
        edges: any_size(random, MOST_EDGES),
        wires: any_size(random, MOST_WIRES),
        uses: any_size(random, MOST_USES),
    }
}

/// A size that is mostly small.
pub fn any_size(random: &mut Random, most: usize) -> usize {
    match random.below(64) {
        0 => most,
        1 => most + 1,
        2 => most - random.below(8),
        3..=4 => random.below(most + 1),
        5..=15 => random.below(64),
        _ => random.below(7),
    }
}

/// Sizes for tables of at most 64 cells a buffer, also after the call.
pub fn little_sizes(random: &mut Random) -> Sizes {
    Sizes {
        vertices: 1 + random.below(4),
        edges: 1 + random.below(4),
        wires: random.below(4),
        uses: random.below(8),
    }
}

/// A shell that no cause turns away, save one that its sizes earn.
pub fn shell(random: &mut Random, sizes: &Sizes) -> Shell {
    shell_of(random, sizes, vertex)
}

/// The same with vertices of a given make.
pub fn shell_of(random: &mut Random, sizes: &Sizes, vertex: fn(&mut Random) -> Vertex) -> Shell {
    let edges = if sizes.vertices == 0 { 0 } else { sizes.edges };
    let closed_share = random.pick(&[0, 1, 2, 4, 8]);
    Shell {
        vertices: (0..sizes.vertices).map(|_| vertex(random)).collect(),
        edges: (0..edges)
            .map(|_| edge(random, sizes.vertices, closed_share))
            .collect(),
        wires: wires(random, sizes, edges),
    }
}

/// An edge of any preparation that is closed in so many eighths of all cases,
/// or by chance.
pub fn edge(random: &mut Random, vertices: usize, closed_share: usize) -> Edge {
    let front = random.below(vertices);
    let back = match random.below(8) < closed_share {
        true => front,
        false => (front + 1 + random.below(vertices)) % vertices,
    };
    Edge {
        front: front as u32,
        back: back as u32,
        curve: curve(random),
        preparation: random.pick(&Preparation::ALL),
    }
}

/// Wires with so many uses, spread evenly or heaped up in one.
fn wires(random: &mut Random, sizes: &Sizes, edges: usize) -> Vec<Vec<u32>> {
    let mut wires = vec![Vec::new(); sizes.wires];
    if sizes.wires == 0 || edges == 0 {
        return wires;
    }
    let heap = random.once_in(4).then(|| random.below(sizes.wires));
    let few = if random.once_in(4) { 2 } else { edges };
    for _ in 0..sizes.uses {
        let wire = heap.unwrap_or_else(|| random.below(sizes.wires));
        let edge = random.below(few.min(edges));
        wires[wire].push((2 * edge + random.below(2)) as u32);
    }
    wires
}

/// A given or pending vertex.
pub fn vertex(random: &mut Random) -> Vertex {
    if random.once_in(2) {
        return Vertex::Given(float(random), float(random), float(random));
    }
    let curve = curve(random);
    let (t0, t1) = curve.range();
    let share = random.below(1024) as f64 / 1024.0;
    let inner = (t0 + (t1 - t0) * share).clamp(t0, t1);
    Vertex::Pending(curve, random.pick(&[t0, t1, inner]))
}

/// A span or a seam.
fn curve(random: &mut Random) -> Curve {
    let number = random.word() as u32 >> random.below(32);
    let (t0, t1) = range(random);
    match random.below(2) {
        0 => Curve::Span { number, t0, t1 },
        _ => Curve::Seam {
            surface: number,
            p: [float(random), float(random)],
            q: [float(random), float(random)],
            t0,
            t1,
        },
    }
}

/// A range in rising order; its ends are now and then equal or next to it.
pub fn range(random: &mut Random) -> (f64, f64) {
    let (a, b) = (float(random), float(random));
    match random.below(16) {
        0 => (a, a),
        1 => (0.0, 1.0),
        2 if a < 1.0e15 => (a, a.next_up()),
        3 => random.pick(&[(0.0, -0.0), (-0.0, 0.0), (-0.0, -0.0)]),
        _ if a > b => (b, a),
        _ => (a, b),
    }
}

/// Floats at which rules change.
const CORNERS: [f64; 14] = [
    0.0,
    -0.0,
    5.0e-324,
    -5.0e-324,
    1.5e-323,
    f64::MIN_POSITIVE,
    1.0e15,
    -1.0e15,
    999_999_999_999_999.9,
    0.1,
    0.3,
    1.0,
    -1.0,
    8.0,
];

/// A float of at most 1.0e15 in size.
pub fn float(random: &mut Random) -> f64 {
    match random.below(4) {
        0 => random.pick(&CORNERS),
        1 => random.below(17) as f64 - 8.0,
        2 => random.below(1 << 20) as f64 / 131_071.0,
        _ => loop {
            let any = f64::from_bits(random.word());
            if any.abs() <= 1.0e15 {
                break any;
            }
        },
    }
}

/// The shell in buffers for the closed-edge pass.
pub fn lend(random: &mut Random, shell: &Shell) -> Lent {
    let closed = |edge: &Edge| edge.front == edge.back;
    let more = shell.edges.iter().filter(|edge| closed(edge)).count();
    let used = shell.wires.iter().flatten();
    let doubled = used.filter(|&&number| closed(&shell.edges[number as usize / 2]));
    let [vertices, edges, uses] = shell.counts();
    let result = [vertices + more, edges + more, uses + doubled.count()];
    lend_for(random, shell, result)
}

/// The shell in buffers that are ample, just long enough for the input or for
/// a result of such counts, or one cell too short.
pub fn lend_for(random: &mut Random, shell: &Shell, result: [usize; 3]) -> Lent {
    let wires = shell.wires.len();
    let mut sizes = match random.below(8) {
        0 => needed(shell.counts(), wires),
        1..=3 => needed(result, wires),
        _ => needed(result, wires).map(|size| size + random.below(8)),
    };
    if random.once_in(4) {
        let short = random.below(6);
        sizes[short] = sizes[short].saturating_sub(1);
    }
    Lent::holding(shell, sizes, random)
}

/// A good shell with one to three damages.
pub fn damaged(random: &mut Random) -> Lent {
    let sizes = match random.once_in(32) {
        true => any_sizes(random),
        false => little_sizes(random),
    };
    damaged_of(random, &sizes)
}

/// A good shell of the given sizes with one to three damages.
pub fn damaged_of(random: &mut Random, sizes: &Sizes) -> Lent {
    let shell = shell(random, sizes);
    let mut lent = lend(random, &shell);
    for _ in 0..1 + random.below(3) {
        damage(random, &mut lent);
    }
    lent
}

/// Spoils one thing.
pub fn damage(random: &mut Random, lent: &mut Lent) {
    match random.below(10) {
        cell @ 0..5 => damage_tables(random, &mut lent.tables, cell),
        5 => spoil_number(random, &mut lent.uses),
        6 => spoil_number(random, &mut lent.lengths),
        7 => spoil_count(random, lent),
        8 => {
            let mut sizes = lent.sizes();
            let short = random.below(6);
            sizes[short] = sizes[short].saturating_sub(1 + random.below(4));
            lent.shorten(sizes);
        }
        _ => parameters(random, &mut lent.tables),
    }
}

/// Spoils one of five things in the tables.
pub fn damage_tables(random: &mut Random, tables: &mut Tables, thing: usize) {
    match thing {
        0 => kind(random, tables),
        1 => spoil_number(random, &mut tables.edge_numbers),
        2 => spoil_number(random, &mut tables.vertex_numbers),
        3 => spoil_float(random, &mut tables.edge_floats),
        _ => spoil_float(random, &mut tables.vertex_floats),
    }
}

/// Spoils a kind cell or the preparation of some row.
fn kind(random: &mut Random, tables: &mut Tables) {
    let any = random.word() as u32;
    let value = random.pick(&[0, 1, 1, 2, 2, 3, 3, u32::MAX, any]);
    let row = random.below(6);
    let cell = match random.below(4) {
        0 => tables.edge_numbers.get_mut(row * EDGE_NUMBERS + 2),
        1 => tables
            .edge_numbers
            .get_mut(row * EDGE_NUMBERS + PREPARATION),
        2 => tables.vertex_numbers.get_mut(row * VERTEX_NUMBERS),
        _ => tables.vertex_numbers.get_mut(row * VERTEX_NUMBERS + 1),
    };
    if let Some(cell) = cell {
        *cell = value;
    }
}

/// Spoils some cell of numbers.
pub fn spoil_number(random: &mut Random, cells: &mut [u32]) {
    if cells.is_empty() {
        return;
    }
    let place = random.below(cells.len());
    cells[place] = match random.below(3) {
        0 => random.below(9) as u32,
        1 => cells[place].wrapping_add(1),
        _ => random.word() as u32,
    };
}

/// Spoils some float cell.
pub fn spoil_float(random: &mut Random, cells: &mut [u64]) {
    if cells.is_empty() {
        return;
    }
    let place = random.below(cells.len());
    cells[place] = match random.below(3) {
        0 => random.word(),
        1 => random.pick(&STRANGE).to_bits(),
        _ => 0x7ff0_0000_0000_0001 | random.word() & 0x800f_ffff_ffff_ffff,
    };
}

/// Floats at and past the edge of what may be handed in.
pub const STRANGE: [f64; 8] = [
    f64::INFINITY,
    f64::NEG_INFINITY,
    f64::NAN,
    1.0e15,
    -1.0e15,
    1_000_000_000_000_000.1,
    -1_000_000_000_000_000.1,
    -0.0,
];

/// Spoils one of the counts.
fn spoil_count(random: &mut Random, lent: &mut Lent) {
    let Lent { tables, wires, .. } = lent;
    spoil_one_of(random, [&mut tables.vertices, &mut tables.edges, wires]);
}

/// Spoils one of some counts.
pub fn spoil_one_of<const N: usize>(random: &mut Random, mut counts: [&mut usize; N]) {
    let value = random.pick(&COUNTS);
    let near = random.below(3);
    let count = &mut counts[random.below(N)];
    **count = match near {
        0 => count.wrapping_add(1),
        1 => count.saturating_sub(1),
        _ => value,
    };
}

/// Counts at which a product with a row width may wrap, and others.
pub const COUNTS: [usize; 12] = [
    0,
    1,
    64,
    65,
    4096,
    4097,
    1 << 32,
    1 << 61,
    1 << 62,
    usize::MAX / 3,
    usize::MAX / 7 + 1,
    usize::MAX,
];

/// Exchanges t0 and t1 in some row, or moves a pending parameter.
pub fn parameters(random: &mut Random, tables: &mut Tables) {
    let row = random.below(5);
    let (cells, start, width) = match random.below(3) {
        0 => (&mut tables.edge_floats, row * EDGE_FLOATS, EDGE_FLOATS),
        _ => (
            &mut tables.vertex_floats,
            row * VERTEX_FLOATS,
            VERTEX_FLOATS,
        ),
    };
    let Some(cells) = cells.get_mut(start..start + width) else {
        return;
    };
    match (random.below(3), width) {
        (0, VERTEX_FLOATS) => cells[6] = f64::from_bits(cells[5]).next_up().to_bits(),
        (1, VERTEX_FLOATS) => cells[6] = f64::from_bits(cells[4]).next_down().to_bits(),
        _ => cells.swap(4, 5),
    }
}

/// Cells of random bits, any count against any length of a buffer. Half of
/// the time numbers and floats are small, so that later causes are met.
pub fn noise(random: &mut Random) -> Lent {
    let tame = random.once_in(2);
    let least = if tame { 16 } else { 0 };
    let sizes = [least; 6].map(|least| least + random.below(48));
    let mut lent = Lent::poisoned(sizes, random);
    let number = |random: &mut Random, most: usize| match tame && !random.once_in(32) {
        true => random.below(most) as u32,
        false => random.word() as u32,
    };
    let float = |random: &mut Random| match tame && !random.once_in(32) {
        true => (random.below(4) as f64).to_bits(),
        false => random.word(),
    };
    let tables = &mut lent.tables;
    let numbers = tables.edge_numbers.iter_mut();
    let numbers = numbers.chain(&mut tables.vertex_numbers);
    numbers.for_each(|cell| *cell = number(random, 2));
    let rows = tables.edge_numbers.chunks_exact_mut(EDGE_NUMBERS);
    rows.for_each(|row| row[PREPARATION] = number(random, 3));
    let floats = tables.edge_floats.iter_mut();
    let floats = floats.chain(&mut tables.vertex_floats);
    floats.for_each(|cell| *cell = float(random));
    lent.uses
        .iter_mut()
        .for_each(|cell| *cell = number(random, 5));
    lent.lengths
        .iter_mut()
        .for_each(|cell| *cell = number(random, 5));
    let mut count = || any_count(random);
    (tables.vertices, tables.edges, lent.wires) = (count(), count(), count());
    lent
}

/// A small count, or any other.
pub fn any_count(random: &mut Random) -> usize {
    match random.below(6) {
        0 => random.pick(&COUNTS),
        1 => random.word() as usize,
        _ => random.below(5),
    }
}
