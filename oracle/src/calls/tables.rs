//! What the calls share that read the tables: the way from slices to tables
//! and back, the sample in which one thing is spoiled at a time, and points
//! that are hard to tell apart.

use crate::cells::{Cells, Slice};
use crate::inputs::{any_size, edge, float};
use crate::model::{MOST_EDGES, MOST_VERTICES};
use crate::port::Rows;
use crate::random::Random;
use crate::records::{Curve, Edge, Preparation, Shell, Vertex};
use crate::shell::{needed, write_vertex, Lent, Tables};
use crate::shell::{EDGE_FLOATS, EDGE_NUMBERS, PREPARATION, VERTEX_FLOATS, VERTEX_NUMBERS};

impl Tables {
    /// What the four slices hold.
    pub fn slices(&self) -> Vec<Cells> {
        vec![
            Cells::Numbers(self.vertex_numbers.clone()),
            Cells::Floats(self.vertex_floats.clone()),
            Cells::Numbers(self.edge_numbers.clone()),
            Cells::Floats(self.edge_floats.clone()),
        ]
    }

    /// The tables of two counts and the next four slices.
    pub fn put_together(counts: [usize; 2], next: &mut impl FnMut() -> Cells) -> Tables {
        Tables {
            vertex_numbers: next().numbers(),
            vertex_floats: next().floats(),
            edge_numbers: next().numbers(),
            edge_floats: next().floats(),
            vertices: counts[0],
            edges: counts[1],
        }
    }

    /// The next four slices as these tables, to be read.
    pub fn lent<'a>(&self, next: &mut impl FnMut() -> Slice<'a>) -> Rows<'a> {
        Rows {
            vertex_numbers: next().numbers(),
            vertex_floats: next().floats(),
            edge_numbers: next().numbers(),
            edge_floats: next().floats(),
            vertices: self.vertices,
            edges: self.edges,
        }
    }
}

// --- the sample ---

/// The vertices of K9.
pub const POINTS: [Vertex; 4] = [
    Vertex::Given(1.0, 0.0, 0.0),
    Vertex::Given(-1.0, 0.0, 0.0),
    Vertex::Given(1.0, 0.0, 4.0),
    Vertex::Given(-1.0, 0.0, 4.0),
];

/// The ends of K9's edges, and those of a seam that is in no wire.
const ENDS: [(u32, u32); 6] = [(0, 2), (0, 1), (1, 0), (2, 3), (3, 2), (3, 3)];

/// Square spans between the given ends.
pub fn spans(ends: &[(u32, u32)]) -> Vec<Edge> {
    let edge = |(number, &(front, back)): (usize, &(u32, u32))| Edge {
        front,
        back,
        curve: Curve::Span {
            number: number as u32,
            t0: 0.0,
            t1: 8.0,
        },
        preparation: Preparation::Square,
    };
    ends.iter().enumerate().map(edge).collect()
}

/// The same edges with the three preparations in turn.
pub fn in_turn(edges: &[Edge], turn: usize) -> Vec<Edge> {
    let edge = |(row, edge): (usize, &Edge)| edge.prepared(Preparation::in_turn(turn + row));
    edges.iter().enumerate().map(edge).collect()
}

/// K9's edges, and the unused seam as edge 5.
pub fn sample_edges() -> Vec<Edge> {
    let mut edges = spans(&ENDS);
    edges[5].curve = Curve::Seam {
        surface: 3,
        p: [0.5, 1.5],
        q: [2.5, 3.5],
        t0: 0.0,
        t1: 1.0,
    };
    edges
}

/// Tables that hold just these records.
pub fn tables(vertices: &[Vertex], edges: &[Edge]) -> Tables {
    let shell = Shell {
        vertices: vertices.to_vec(),
        edges: edges.to_vec(),
        wires: Vec::new(),
    };
    let sizes = needed(shell.counts(), 0);
    Lent::holding(&shell, sizes, &mut Random::new(7, 7, 7)).tables
}

/// Tables that hold just these edges and have no vertex rows, but a count of
/// vertices.
pub fn edge_table(vertices: usize, edges: &[Edge]) -> Tables {
    Tables {
        vertices,
        ..tables(&[], edges)
    }
}

/// A change of the sample's tables, its name, and the number that it earns;
/// 0 where the answer stays the same.
pub type Spoil = (&'static str, i32, fn(&mut Tables));

/// Sets a number cell of a vertex.
fn vertex_number(tables: &mut Tables, row: usize, cell: usize, value: u32) {
    tables.vertex_numbers[row * VERTEX_NUMBERS + cell] = value;
}

/// Sets a number cell of an edge.
fn edge_number(tables: &mut Tables, row: usize, cell: usize, value: u32) {
    tables.edge_numbers[row * EDGE_NUMBERS + cell] = value;
}

/// Sets a float cell of a vertex.
fn vertex_float(tables: &mut Tables, row: usize, cell: usize, value: f64) {
    tables.vertex_floats[row * VERTEX_FLOATS + cell] = value.to_bits();
}

/// Sets a float cell of an edge.
fn edge_float(tables: &mut Tables, row: usize, cell: usize, value: f64) {
    tables.edge_floats[row * EDGE_FLOATS + cell] = value.to_bits();
}

/// Makes a vertex a pending one, halfway on a span from 0 to 2.
pub fn make_pending(tables: &mut Tables, row: usize) {
    let curve = Curve::Span {
        number: 5,
        t0: 0.0,
        t1: 2.0,
    };
    write_vertex(
        &Vertex::Pending(curve, 1.0),
        &mut tables.vertex_numbers[row * VERTEX_NUMBERS..][..VERTEX_NUMBERS],
        &mut tables.vertex_floats[row * VERTEX_FLOATS..][..VERTEX_FLOATS],
    );
}

/// The last of at most six edge rows, whatever the count has become.
fn last_row(tables: &Tables) -> usize {
    tables.edges.clamp(1, 6) - 1
}

/// What is done to the preparations of the sample's edges, or of others: edge 1
/// is used, and the last is not.
pub const OF_PREPARATIONS: [Spoil; 7] = [
    ("preparation 3 in a used edge row", 1, |t| {
        edge_number(t, 1, PREPARATION, 3)
    }),
    ("preparation 3 in an unused edge row", 1, |t| {
        edge_number(t, last_row(t), PREPARATION, 3)
    }),
    ("largest preparation", 1, |t| {
        edge_number(t, 0, PREPARATION, u32::MAX)
    }),
    ("largest preparation of an unused edge", 1, |t| {
        edge_number(t, last_row(t), PREPARATION, u32::MAX)
    }),
    ("preparation 3 and a front too large before it", 1, |t| {
        edge_number(t, 0, 0, t.vertices as u32);
        edge_number(t, last_row(t), PREPARATION, 3);
    }),
    ("preparation 3 and a back too large behind it", 1, |t| {
        edge_number(t, 0, PREPARATION, 3);
        edge_number(t, last_row(t), 1, t.vertices as u32);
    }),
    ("one number of each edge row too few", 1, |t| {
        t.edge_numbers.truncate(t.edges * (EDGE_NUMBERS - 1))
    }),
];

/// What is done to the sample's tables.
pub const SPOILS: [Spoil; 39] = [
    OF_PREPARATIONS[0],
    OF_PREPARATIONS[1],
    OF_PREPARATIONS[2],
    OF_PREPARATIONS[3],
    OF_PREPARATIONS[4],
    OF_PREPARATIONS[5],
    OF_PREPARATIONS[6],
    ("kind 2 in an edge row", 1, |t| edge_number(t, 0, 2, 2)),
    ("kind 2 in an unused edge row", 1, |t| {
        edge_number(t, 5, 2, 2)
    }),
    ("kind 2 in a vertex row", 1, |t| vertex_number(t, 3, 0, 2)),
    ("kind 2 in a pending curve", 1, |t| {
        make_pending(t, 1);
        vertex_number(t, 1, 1, 2);
    }),
    ("4097 vertices", 1, |t| t.vertices = 4097),
    ("largest vertex count", 1, |t| t.vertices = usize::MAX),
    ("largest edge count", 1, |t| t.edges = usize::MAX),
    ("edge count whose rows wrap", 1, |t| t.edges = 1 << 62),
    ("one vertex number too few", 1, |t| {
        t.vertex_numbers.truncate(4 * VERTEX_NUMBERS - 1)
    }),
    ("one vertex float too few", 1, |t| {
        t.vertex_floats.truncate(4 * VERTEX_FLOATS - 1)
    }),
    ("one edge number too few", 1, |t| {
        t.edge_numbers.truncate(6 * EDGE_NUMBERS - 1)
    }),
    ("one edge float too few", 1, |t| {
        t.edge_floats.truncate(6 * EDGE_FLOATS - 1)
    }),
    ("front at the vertex count", 2, |t| edge_number(t, 0, 0, 4)),
    ("largest back of an unused edge", 2, |t| {
        edge_number(t, 5, 1, u32::MAX)
    }),
    ("no vertices", 2, |t| t.vertices = 0),
    ("no edges", 3, |t| t.edges = 0),
    ("NaN for t0 of a span", 4, |t| edge_float(t, 0, 4, f64::NAN)),
    ("NaN for v of an unused seam", 4, |t| {
        edge_float(t, 5, 3, f64::NAN)
    }),
    ("infinite y of a vertex", 4, |t| {
        vertex_float(t, 1, 1, f64::INFINITY)
    }),
    ("z just above the greatest size", 4, |t| {
        vertex_float(t, 3, 2, 1.0e15_f64.next_up())
    }),
    ("NaN for a pending parameter", 4, |t| {
        make_pending(t, 2);
        vertex_float(t, 2, 6, f64::NAN);
    }),
    ("unused edge, t0 above t1", 5, |t| edge_float(t, 5, 4, 1.5)),
    ("used edge, t0 above t1", 5, |t| edge_float(t, 0, 5, -0.5)),
    ("pending above t1", 5, |t| {
        make_pending(t, 0);
        vertex_float(t, 0, 6, 2.5);
    }),
    ("the first vertex pending", 7, |t| make_pending(t, 0)),
    ("the last vertex pending", 7, |t| make_pending(t, 3)),
    ("NaN for u beside a span", 0, |t| {
        edge_float(t, 0, 0, f64::NAN)
    }),
    ("NaN behind a given vertex", 0, |t| {
        vertex_float(t, 0, 3, f64::NAN)
    }),
    ("curve kind 2 beside a given vertex", 0, |t| {
        vertex_number(t, 0, 1, 2)
    }),
    ("each preparation", 0, |t| {
        (0..6).for_each(|row| edge_number(t, row, PREPARATION, row as u32 % 3))
    }),
    ("preparation 3 behind the edges", 0, |t| {
        t.edges = 5;
        edge_number(t, 5, PREPARATION, 3);
    }),
    ("least float for y of all vertices", 0, |t| {
        (0..4).for_each(|row| vertex_float(t, row, 1, 5.0e-324))
    }),
];

/// Spoils of which any two can be made of one sample, in any order.
pub fn spoil_pairs() -> impl Iterator<Item = [fn(&mut Tables); 2]> {
    let apart = SPOILS.iter().filter(|(name, number, _)| {
        let shortens = name.starts_with("one ");
        *number > 0 && !shortens
    });
    let all: Vec<fn(&mut Tables)> = apart.map(|(_, _, change)| *change).collect();
    let others = all.clone();
    all.into_iter()
        .flat_map(move |a| others.clone().into_iter().map(move |b| [a, b]))
}

// --- points that are hard to tell apart ---

/// Makers of given vertices.
const MAKERS: [fn(&mut Random) -> Vertex; 6] = [
    |random| given(random, |random| random.below(3) as f64 - 1.0),
    |random| given(random, |random| random.pick(&[0.0, 1.0])),
    |random| given(random, |random| random.pick(&TINY)),
    |random| given(random, |random| random.pick(&WIDE)),
    |random| given(random, float),
    |random| given(random, |random| random.below(1000) as f64 / 7.0),
];

/// Numbers whose squared differences are lost below the least float, or just
/// not.
const TINY: [f64; 8] = [
    0.0, -0.0, 1.0e-170, 3.0e-170, 1.0e-162, 2.0e-162, 1.5e-162, 5.0e-324,
];

/// Numbers that differ by less than their squares can hold.
const WIDE: [f64; 9] = [
    1.0e15,
    -1.0e15,
    999_999_999_999_999.9,
    1.0e8,
    100_000_000.000_000_01,
    1.0e8 + 1.0,
    0.01,
    1.0,
    0.0,
];

/// The origin, or a point with the same three coordinates in any order, with
/// any signs, and now and then the next float: all of these are about as far
/// from the origin, and rounding decides which is nearest.
fn around(random: &mut Random, mut place: [f64; 3]) -> Vertex {
    if random.once_in(3) {
        return Vertex::Given(0.0, 0.0, 0.0);
    }
    place.rotate_left(random.below(3));
    if random.once_in(2) {
        place.swap(0, 1);
    }
    let [x, y, z] = place.map(|x| match random.below(6) {
        0 => x.next_up(),
        1 => x.next_down(),
        2 => -x,
        _ => x,
    });
    Vertex::Given(x, y, z)
}

/// So many vertices of one make.
fn vertices(random: &mut Random, count: usize) -> Vec<Vertex> {
    if random.once_in(2) {
        let vertex = random.pick(&MAKERS);
        return (0..count).map(|_| vertex(random)).collect();
    }
    let place = [0; 3].map(|_| (1 + random.below(24)) as f64 / 10.0);
    (0..count).map(|_| around(random, place)).collect()
}

/// A given vertex.
fn given(random: &mut Random, coordinate: fn(&mut Random) -> f64) -> Vertex {
    Vertex::Given(coordinate(random), coordinate(random), coordinate(random))
}

/// Vertices and edges, now and then as many as the bounds allow. In one of
/// sixteen cases one vertex is pending.
pub fn records(random: &mut Random, little: bool) -> (Vec<Vertex>, Vec<Edge>) {
    let size = |random: &mut Random, most: usize| match little || !random.once_in(24) {
        true => 1 + random.below(if little { 5 } else { 8 }),
        false => {
            let any = any_size(random, most);
            random.pick(&[any, any, 20, 64, 300, 1100])
        }
    };
    let (count, edges) = (size(random, MOST_VERTICES), size(random, MOST_EDGES));
    let edges = if count == 0 { 0 } else { edges };
    let mut made = vertices(random, count);
    if random.once_in(16) && count > 0 {
        let curve = Curve::Span {
            number: 1,
            t0: 0.0,
            t1: 1.0,
        };
        made[random.below(count)] = Vertex::Pending(curve, 0.5);
    }
    let loops = random.pick(&[0, 1, 1, 4]);
    let edges = (0..edges).map(|_| edge(random, count, loops)).collect();
    (made, edges)
}
