//! The ways in which a case is written down, and the sample in which one
//! thing is spoiled at a time.

use crate::calls::split_closed_edges::{SplitClosed, MIDDLE};
use crate::compare::{Case, Expected};
use crate::random::Random;
use crate::records::{self, Curve, Edge, Preparation, Shell, Vertex};
use crate::shell::{needed, Lent, Tables};
use crate::shell::{EDGE_FLOATS, EDGE_NUMBERS, VERTEX_FLOATS, VERTEX_NUMBERS};

/// A span.
pub fn span(number: u32, t0: f64, t1: f64) -> Curve {
    Curve::Span { number, t0, t1 }
}

/// A square edge.
pub fn edge(front: u32, back: u32, curve: Curve) -> Edge {
    Edge {
        front,
        back,
        curve,
        preparation: Preparation::Square,
    }
}

/// A shell whose wires are in notation.
pub fn shell(vertices: &[Vertex], edges: &[Edge], wires: &[&str]) -> Shell {
    Shell {
        vertices: vertices.to_vec(),
        edges: edges.to_vec(),
        wires: records::wires(wires),
    }
}

/// Buffers with some room behind the given counts.
pub fn ample(counts: [usize; 3], wires: usize) -> [usize; 6] {
    needed(counts, wires).map(|size| size + 5)
}

/// A shell in buffers of the given lengths.
pub fn held(shell: &Shell, sizes: [usize; 6]) -> Lent {
    Lent::holding(shell, sizes, &mut Random::new(7, 7, 7))
}

/// A call that is done, and the shell that must stand there afterwards.
pub fn done(name: &'static str, before: &Shell, after: &Shell) -> Case<SplitClosed> {
    done_at(name, MIDDLE, before, after)
}

/// The same with a k.
pub fn done_at(name: &'static str, k: u32, before: &Shell, after: &Shell) -> Case<SplitClosed> {
    let lent = held(before, ample(after.counts(), after.wires.len()));
    let input = SplitClosed { lent, k };
    let mut expected = input.clone();
    expected.lent.write(after);
    Case {
        name,
        input,
        expected: Expected {
            answer: 0,
            out: words(after.counts()),
            after: expected,
        },
    }
}

/// One vertex, one edge and one wire in buffers for two of each, every cell
/// written out: vertex rows, edge rows, uses and the length.
pub fn cells(
    vertices: ([u32; 6], [f64; 14]),
    edges: ([u32; 10], [f64; 12]),
    (uses, length): ([u32; 2], u32),
) -> Lent {
    Lent {
        tables: Tables {
            vertex_numbers: vertices.0.to_vec(),
            vertex_floats: vertices.1.map(f64::to_bits).to_vec(),
            edge_numbers: edges.0.to_vec(),
            edge_floats: edges.1.map(f64::to_bits).to_vec(),
            vertices: 1,
            edges: 1,
        },
        uses: uses.to_vec(),
        lengths: vec![length],
        wires: 1,
    }
}

/// K1 cell by cell, with an edge of a preparation. The cells that hold 77
/// belong to no record.
pub fn k1_cells(preparation: u32) -> Lent {
    let k = 77.0;
    cells(
        (
            [0, 77, 77, 77, 77, 77],
            [0.0, 0.0, 0.0, k, k, k, k, k, k, k, k, k, k, k],
        ),
        (
            [0, 0, 0, 7, preparation, 77, 77, 77, 77, 77],
            [k, k, k, k, 0.0, 8.0, k, k, k, k, k, k],
        ),
        ([0, 77], 1),
    )
}

/// Counts as they stand in the out places.
pub fn words(counts: [usize; 3]) -> Vec<u64> {
    counts.map(|count| count as u64).to_vec()
}

/// A call that is refused.
pub fn refused(name: &'static str, number: i32, lent: Lent) -> Case<SplitClosed> {
    Case::unchanged(name, SplitClosed::in_the_middle(lent), number)
}

/// The sample with one change, for which it is refused.
pub fn spoiled(name: &'static str, number: i32, change: impl Fn(&mut Lent)) -> Case<SplitClosed> {
    let mut lent = sample("").input.lent;
    change(&mut lent);
    refused(name, number, lent)
}

/// The sample with one change of a cell that is kept as it is.
pub fn unharmed(name: &'static str, change: impl Fn(&mut Lent)) -> Case<SplitClosed> {
    let mut case = sample(name);
    change(&mut case.input.lent);
    change(&mut case.expected.after.lent);
    case
}

/// Three vertices, one of each kind, and three edges, one of each preparation:
/// an open span, a closed seam and an unused open span.
pub fn sample(name: &'static str) -> Case<SplitClosed> {
    sample_at(name, MIDDLE)
}

/// The same with a k; the seam runs from 0 to 1.
pub fn sample_at(name: &'static str, k: u32) -> Case<SplitClosed> {
    let t = f64::from(k) / 8.0;
    let seam = |surface: u32, first: f64, t0: f64, t1: f64| Curve::Seam {
        surface,
        p: [first, first + 1.0],
        q: [first + 2.0, first + 3.0],
        t0,
        t1,
    };
    let mut vertices = vec![
        Vertex::Given(1.0, 2.0, 3.0),
        Vertex::Pending(span(5, 0.0, 2.0), 1.0),
        Vertex::Pending(seam(6, 0.0, 0.0, 1.0), 0.25),
    ];
    let open = edge(0, 1, span(9, 0.0, 1.0)).prepared(Preparation::SingleBevel);
    let unused = edge(2, 0, span(10, -1.0, 3.0));
    let closed = |front: u32, back: u32, t0: f64, t1: f64| {
        edge(front, back, seam(4, 0.5, t0, t1)).prepared(Preparation::DoubleBevel)
    };
    let before = shell(
        &vertices,
        &[open, closed(1, 1, 0.0, 1.0), unused],
        &["0+ 1+ 0-", "", "1-"],
    );
    vertices.push(Vertex::Pending(seam(4, 0.5, 0.0, 1.0), t));
    let after = shell(
        &vertices,
        &[open, closed(1, 3, 0.0, t), unused, closed(3, 1, t, 1.0)],
        &["0+ 1+ 3+ 0-", "", "3- 1-"],
    );
    done_at(name, k, &before, &after)
}

/// Sets a number cell of an edge of the sample.
pub fn edge_number(row: usize, cell: usize, value: u32) -> impl Fn(&mut Lent) {
    move |lent| lent.tables.edge_numbers[row * EDGE_NUMBERS + cell] = value
}

/// Sets a float cell of an edge of the sample.
pub fn edge_float(row: usize, cell: usize, value: f64) -> impl Fn(&mut Lent) {
    move |lent| lent.tables.edge_floats[row * EDGE_FLOATS + cell] = value.to_bits()
}

/// Sets a number cell of a vertex of the sample.
pub fn vertex_number(row: usize, cell: usize, value: u32) -> impl Fn(&mut Lent) {
    move |lent| lent.tables.vertex_numbers[row * VERTEX_NUMBERS + cell] = value
}

/// Sets a float cell of a vertex of the sample.
pub fn vertex_float(row: usize, cell: usize, value: f64) -> impl Fn(&mut Lent) {
    move |lent| lent.tables.vertex_floats[row * VERTEX_FLOATS + cell] = value.to_bits()
}
