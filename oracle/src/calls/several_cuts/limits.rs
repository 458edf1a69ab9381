//! Named cuts of an edge at several points, at the corners and bounds of
//! document 02, each with its answer written out by hand.

mod arrays;
mod bounds;
mod refusals;
mod rising;

use super::{SeveralCuts, CUT};
use crate::calls::cut_edge::CutEdge;
use crate::compare::{Case, Expected};
use crate::limits::ways::{self, ample, edge, edge_number, held, sample, span};
use crate::records::{wire, Edge, Preparation, Shell, Vertex};
use crate::shell::{Lent, Tables, PREPARATION};

/// All cases.
pub fn cases() -> Vec<Case<SeveralCuts>> {
    [
        issue(),
        results(),
        preparations(),
        vec![
            cell_by_cell("two cuts cell by cell", 0),
            cell_by_cell("two single bevel cuts cell by cell", 1),
            cell_by_cell("two double bevel cuts cell by cell", 2),
        ],
        rising::cases(),
        bounds::cases(),
        arrays::cases(),
        refusals::cases(),
    ]
    .into_iter()
    .flatten()
    .collect()
}

/// The vertices of the line and of the ring.
const ORIGIN: Vertex = Vertex::Given(0.0, 0.0, 0.0);

/// The cuts at these parameters: the point of row i is (i + 1, -0, t).
fn at(ts: &[f64]) -> Vec<[f64; CUT]> {
    let cut = |(row, &t): (usize, &f64)| [t, row as f64 + 1.0, -0.0, t];
    ts.iter().enumerate().map(cut).collect()
}

/// Their new vertices.
fn new_vertices(ts: &[f64]) -> Vec<Vertex> {
    let vertex = |[_, x, y, z]: [f64; CUT]| Vertex::Given(x, y, z);
    at(ts).into_iter().map(vertex).collect()
}

/// A call that is done, and the shell that stands there afterwards.
fn done(
    name: &'static str,
    before: &Shell,
    (edge, ts): (u32, &[f64]),
    after: &Shell,
) -> Case<SeveralCuts> {
    let lent = held(before, ample(after.counts(), after.wires.len()));
    let input = SeveralCuts::over(lent, edge, &at(ts));
    let expected = input.done(after);
    Case {
        name,
        input,
        expected,
    }
}

/// A shell of some vertices at the origin, the last ones being those of cuts
/// at these parameters.
fn with_vertices(first: usize, ts: &[f64], edges: &[Edge], wires: &[&str]) -> Shell {
    let vertices = [vec![ORIGIN; first], new_vertices(ts)].concat();
    ways::shell(&vertices, edges, wires)
}

/// A span 7 from 0 to 8 between these vertices, cut at these parameters: the
/// pieces behind the first are edges 1, 2, ... and end at the back.
fn cut_at(
    name: &'static str,
    ends: (u32, u32),
    ts: &[f64],
    wires: &[&str],
    after: &[&str],
) -> Case<SeveralCuts> {
    let count = ends.0.max(ends.1) as usize + 1;
    let whole = edge(ends.0, ends.1, span(7, 0.0, 8.0));
    let before = with_vertices(count, &[], &[whole], wires);
    let (mut pieces, mut from) = (Vec::new(), (ends.0, 0.0));
    for (row, &t) in ts.iter().enumerate() {
        let new = (count + row) as u32;
        pieces.push(edge(from.0, new, span(7, from.1, t)));
        from = (new, t);
    }
    pieces.push(edge(from.0, ends.1, span(7, from.1, 8.0)));
    done(
        name,
        &before,
        (0, ts),
        &with_vertices(count, ts, &pieces, after),
    )
}

/// The corners that A.1 and its readings name.
fn issue() -> Vec<Case<SeveralCuts>> {
    let line = |front, back, t0, t1| edge(front, back, span(7, t0, t1));
    let before = with_vertices(2, &[], &[line(0, 1, 0.0, 8.0)], &["0-"]);
    let pieces = [
        line(0, 2, 0.0, 2.0),
        line(2, 3, 2.0, 5.0),
        line(3, 1, 5.0, 8.0),
    ];
    let ts = [2.0, 5.0];
    let after = with_vertices(2, &ts, &pieces, &["2- 1- 0-"]);
    let ring = with_vertices(1, &[], &[line(0, 0, 0.0, 8.0)], &["0+ 0-"]);
    let slots = [1.0, 4.0, 6.0];
    let arcs = [
        line(0, 1, 0.0, 1.0),
        line(1, 2, 1.0, 4.0),
        line(2, 3, 4.0, 6.0),
        line(3, 0, 6.0, 8.0),
    ];
    let wires = ["0+ 1+ 2+ 3+ 3- 2- 1- 0-"];
    let rims = with_vertices(1, &slots, &arcs, &wires);
    vec![
        done("edge (0, 1) reversed, two cuts", &before, (0, &ts), &after),
        done("a closed edge, three cuts", &ring, (0, &slots), &rims),
        cut_at(
            "at t0 and at t1",
            (0, 1),
            &[0.0, 8.0],
            &["0+"],
            &["0+ 1+ 2+"],
        ),
        cut_at(
            "at t0, between and at t1",
            (0, 0),
            &[0.0, 3.0, 8.0],
            &["0-", "0+"],
            &["3- 2- 1- 0-", "0+ 1+ 2+ 3+"],
        ),
    ]
}

/// Results that are written out.
fn results() -> Vec<Case<SeveralCuts>> {
    let two = [2.0, 5.0];
    vec![
        unharmed("the sample's edge 0", |_| {}),
        cut_at(
            "one cut",
            (0, 1),
            &[3.0],
            &["0+", "0-"],
            &["0+ 1+", "1- 0-"],
        ),
        cut_at("two cuts forward", (0, 1), &two, &["0+"], &["0+ 1+ 2+"]),
        cut_at(
            "both directions, twice",
            (1, 0),
            &two,
            &["0+ 0- 0- 0+"],
            &["0+ 1+ 2+ 2- 1- 0- 2- 1- 0- 0+ 1+ 2+"],
        ),
        cut_at("in no wire", (0, 1), &two, &["", ""], &["", ""]),
        cut_at(
            "in three wires",
            (0, 1),
            &two,
            &["0+", "0-", "0+ 0-"],
            &["0+ 1+ 2+", "2- 1- 0-", "0+ 1+ 2+ 2- 1- 0-"],
        ),
        cut_at("no wires", (0, 1), &two, &[], &[]),
        cut_at(
            "five cuts",
            (1, 0),
            &[1.0, 2.0, 3.0, 6.0, 7.0],
            &["0-"],
            &["5- 4- 3- 2- 1- 0-"],
        ),
        the_seam(),
        the_last_edge(),
        the_first_edge(),
    ]
}

/// The sample's closed seam is cut in place of its span.
fn the_seam() -> Case<SeveralCuts> {
    let before = sample("").input.lent.read();
    let curve = before.edges[1].curve;
    let (mut after, ts) = (before.clone(), [0.0, 0.75]);
    after.vertices.extend(new_vertices(&ts));
    let piece = |front: u32, back: u32, t0: f64, t1: f64| {
        edge(front, back, curve.over(t0, t1)).prepared(Preparation::DoubleBevel)
    };
    after.edges[1] = piece(1, 3, 0.0, 0.0);
    after.edges.push(piece(3, 4, 0.0, 0.75));
    after.edges.push(piece(4, 1, 0.75, 1.0));
    after.wires = ["0+ 1+ 3+ 4+ 0-", "", "4- 3- 1-"].map(wire).to_vec();
    done("a closed seam", &before, (1, &ts), &after)
}

/// Three lines with these wires, of which one is cut at 0.25 and 0.5.
fn of_three(name: &'static str, row: usize, wires: &[&str], after: &[&str]) -> Case<SeveralCuts> {
    let line = |number: usize, front, back, t0, t1| {
        edge(front, back, span(number as u32 + 4, t0, t1)).prepared(Preparation::ALL[number])
    };
    let lines = [0, 1, 2].map(|number| line(number, 0, 1, 0.0, 1.0));
    let ts = [0.25, 0.5];
    let mut pieces = lines.to_vec();
    pieces[row] = line(row, 0, 2, 0.0, 0.25);
    pieces.push(line(row, 2, 3, 0.25, 0.5));
    pieces.push(line(row, 3, 1, 0.5, 1.0));
    let before = with_vertices(2, &[], &lines, wires);
    done(
        name,
        &before,
        (row as u32, &ts),
        &with_vertices(2, &ts, &pieces, after),
    )
}

/// The last of three edges is cut; the wires use the others too.
fn the_last_edge() -> Case<SeveralCuts> {
    let wires = ["0+ 2- 1+ 2+", "1- 0-"];
    of_three(
        "the last edge",
        2,
        &wires,
        &["0+ 4- 3- 2- 1+ 2+ 3+ 4+", "1- 0-"],
    )
}

/// The first of three edges is cut.
fn the_first_edge() -> Case<SeveralCuts> {
    let wires = ["1+ 0+ 2-", "", "0-"];
    of_three(
        "the first edge",
        0,
        &wires,
        &["1+ 0+ 3+ 4+ 2-", "", "4- 3- 0-"],
    )
}

/// A line of each preparation is cut beside lines of the two others: all pieces
/// have its preparation, and the others keep theirs. And a cell that is no
/// input.
fn preparations() -> Vec<Case<SeveralCuts>> {
    let cut = |name, row: usize, after: &str| of_three(name, row, &["0+ 1- 2+ 0- 1+ 2-"], &[after]);
    vec![
        cut(
            "a square line beside bevels",
            0,
            "0+ 3+ 4+ 1- 2+ 4- 3- 0- 1+ 2-",
        ),
        cut(
            "a single bevel beside others",
            1,
            "0+ 4- 3- 1- 2+ 0- 1+ 3+ 4+ 2-",
        ),
        cut(
            "a double bevel beside others",
            2,
            "0+ 1- 2+ 3+ 4+ 0- 1+ 4- 3- 2-",
        ),
        // Row 4 becomes the last new edge; the cells behind it are kept.
        unharmed("preparation 3 behind the edges", |c| {
            edge_number(5, PREPARATION, 3)(&mut c.0.lent)
        }),
    ]
}

/// The closed-edge pass's sample, whose edge 0 is cut at 0.25 and 0.5.
fn spoilt(change: impl Fn(&mut SeveralCuts)) -> SeveralCuts {
    // The sample's buffers have room for one row less.
    let lent = sample("").input.lent.read();
    let lent = held(&lent, ample([5, 5, 8], 3));
    let mut input = SeveralCuts::over(lent, 0, &at(&[0.25, 0.5]));
    change(&mut input);
    input
}

/// That sample after its cuts.
fn sample_after() -> Shell {
    let mut after = sample("").input.lent.read();
    after.vertices.extend(new_vertices(&[0.25, 0.5]));
    let piece = |front: u32, back: u32, t0: f64, t1: f64| {
        edge(front, back, span(9, t0, t1)).prepared(Preparation::SingleBevel)
    };
    after.edges[0] = piece(0, 3, 0.0, 0.25);
    after.edges.push(piece(3, 4, 0.25, 0.5));
    after.edges.push(piece(4, 1, 0.5, 1.0));
    after.wires[0] = wire("0+ 3+ 4+ 1+ 4- 3- 0-");
    after
}

/// The sample with a change that earns a refusal.
fn no(name: &'static str, number: i32, change: impl Fn(&mut SeveralCuts)) -> Case<SeveralCuts> {
    Case::unchanged(name, spoilt(change), number)
}

/// The sample with a change of a cell that is kept as it is.
fn unharmed(name: &'static str, change: impl Fn(&mut SeveralCuts)) -> Case<SeveralCuts> {
    let input = spoilt(change);
    let expected = input.done(&sample_after());
    Case {
        name,
        input,
        expected,
    }
}

/// K1's edge, with a preparation, cut at 3 and 5 with each cell written out, in
/// buffers of just the result's length. The cells that hold 77 belong to no
/// record and are kept.
fn cell_by_cell(name: &'static str, preparation: u32) -> Case<SeveralCuts> {
    let (k, p) = (77.0, preparation);
    let lent = |vertex_numbers: [u32; 9],
                vertex_floats: [f64; 21],
                edge_numbers: [u32; 15],
                edge_floats: [f64; 18],
                (uses, length): ([u32; 3], u32)| Lent {
        tables: Tables {
            vertex_numbers: vertex_numbers.to_vec(),
            vertex_floats: vertex_floats.map(f64::to_bits).to_vec(),
            edge_numbers: edge_numbers.to_vec(),
            edge_floats: edge_floats.map(f64::to_bits).to_vec(),
            vertices: 1,
            edges: 1,
        },
        uses: uses.to_vec(),
        lengths: vec![length],
        wires: 1,
    };
    let before = lent(
        [0, 77, 77, 77, 77, 77, 77, 77, 77],
        [
            0.0, 0.0, 0.0, k, k, k, k, k, k, k, k, k, k, k, k, k, k, k, k, k, k,
        ],
        [0, 0, 0, 7, p, 77, 77, 77, 77, 77, 77, 77, 77, 77, 77],
        [k, k, k, k, 0.0, 8.0, k, k, k, k, k, k, k, k, k, k, k, k],
        ([1, 77, 77], 1),
    );
    let after = lent(
        [0, 77, 77, 0, 77, 77, 0, 77, 77],
        [
            0.0, 0.0, 0.0, k, k, k, k, 0.5, 0.25, -1.0, k, k, k, k, -0.0, 9.0, 0.1, k, k, k, k,
        ],
        [0, 1, 0, 7, p, 1, 2, 0, 7, p, 2, 0, 0, 7, p],
        [
            k, k, k, k, 0.0, 3.0, k, k, k, k, 3.0, 5.0, k, k, k, k, 5.0, 8.0,
        ],
        ([5, 3, 1], 3),
    );
    let cuts = [[3.0, 0.5, 0.25, -1.0], [5.0, -0.0, 9.0, 0.1]];
    Case {
        name,
        input: SeveralCuts::over(before, 0, &cuts),
        expected: Expected {
            answer: 0,
            out: vec![3, 3, 3],
            after: SeveralCuts(CutEdge::over(after, 0, &cuts)),
        },
    }
}
