//! Named cuts at the corners and bounds of the specification, each with its
//! answer written out by hand.

mod arrays;

use super::{CutEdge, CUT};
use crate::calls::split_closed_edges::SplitClosed;
use crate::compare::{Case, Expected};
use crate::limits::ways::{ample, cells, edge, held, k1_cells, sample, span};
use crate::limits::ways::{edge_float, edge_number, vertex_number};
use crate::limits::{self, ways};
use crate::random::Random;
use crate::records::{wire, Edge, Preparation, Shell, Vertex};
use crate::shell::{needed, Lent, PREPARATION};

/// All cases.
pub fn cases() -> Vec<Case<CutEdge>> {
    [
        results(),
        preparations(),
        vec![
            cell_by_cell("a cut cell by cell", 0),
            cell_by_cell("a single bevel cut cell by cell", 1),
            cell_by_cell("a double bevel cut cell by cell", 2),
        ],
        parameters(),
        nothing_to_cut(),
        full_tables(),
        use_counts(),
        arrays::cases(),
        numbers(),
        cuts(),
        several(),
        several_spoilt(),
        room(),
        lowest(),
        of_the_pass(),
    ]
    .into_iter()
    .flatten()
    .collect()
}

/// The vertices of the line and of the ring.
const ORIGIN: Vertex = Vertex::Given(0.0, 0.0, 0.0);

/// The cut of the line and of the ring.
const AT_3: [f64; CUT] = [3.0, 0.5, 0.25, -1.0];

/// A call that is done, and the shell that stands there afterwards.
fn done(
    name: &'static str,
    before: &Shell,
    cut: (u32, [f64; CUT]),
    after: &Shell,
) -> Case<CutEdge> {
    let lent = held(before, ample(after.counts(), after.wires.len()));
    let input = CutEdge::over(lent, cut.0, &[cut.1]);
    let expected = input.done(after);
    Case {
        name,
        input,
        expected,
    }
}

/// A span 7 from 0 to 8 between these vertices, cut at 3, with its wires
/// before and after.
fn cut_at_3(name: &'static str, ends: (u32, u32), wires: &[&str], after: &[&str]) -> Case<CutEdge> {
    let count = ends.0.max(ends.1) as usize + 1;
    let (new, [t, x, y, z]) = (count as u32, AT_3);
    let mut vertices = vec![ORIGIN; count];
    let whole = edge(ends.0, ends.1, span(7, 0.0, 8.0));
    let before = ways::shell(&vertices, &[whole], wires);
    vertices.push(Vertex::Given(x, y, z));
    let pieces = [
        edge(ends.0, new, span(7, 0.0, t)),
        edge(new, ends.1, span(7, t, 8.0)),
    ];
    let after = ways::shell(&vertices, &pieces, after);
    done(name, &before, (0, AT_3), &after)
}

/// The closed-edge pass's sample, whose edge 0 is cut at 0.25.
fn spoilt(change: impl Fn(&mut CutEdge)) -> CutEdge {
    let mut input = CutEdge::over(sample("").input.lent, 0, &[[0.25, 7.0, 8.0, 9.0]]);
    change(&mut input);
    input
}

/// That sample after its cut.
fn sample_after() -> Shell {
    let mut after = sample("").input.lent.read();
    after.vertices.push(Vertex::Given(7.0, 8.0, 9.0));
    let piece = |front: u32, back: u32, t0: f64, t1: f64| {
        edge(front, back, span(9, t0, t1)).prepared(Preparation::SingleBevel)
    };
    after.edges[0] = piece(0, 3, 0.0, 0.25);
    after.edges.push(piece(3, 1, 0.25, 1.0));
    after.wires[0] = wire("0+ 3+ 1+ 3- 0-");
    after
}

/// The sample with a change that earns a refusal.
fn no(name: &'static str, number: i32, change: impl Fn(&mut CutEdge)) -> Case<CutEdge> {
    Case::unchanged(name, spoilt(change), number)
}

/// The sample with a change of a cell that is kept as it is.
fn unharmed(name: &'static str, change: impl Fn(&mut CutEdge)) -> Case<CutEdge> {
    let input = spoilt(change);
    let expected = input.done(&sample_after());
    Case {
        name,
        input,
        expected,
    }
}

/// Results that are written out.
fn results() -> Vec<Case<CutEdge>> {
    vec![
        unharmed("the sample's edge 0", |_| {}),
        cut_at_3("a line used forward", (0, 1), &["0+"], &["0+ 1+"]),
        cut_at_3("a line used reversed", (0, 1), &["0-"], &["1- 0-"]),
        cut_at_3(
            "both directions, twice",
            (1, 0),
            &["0+ 0- 0- 0+"],
            &["0+ 1+ 1- 0- 1- 0- 0+ 1+"],
        ),
        cut_at_3("in no wire", (0, 1), &["", ""], &["", ""]),
        cut_at_3(
            "in three wires",
            (0, 1),
            &["0+", "0-", "0+ 0-"],
            &["0+ 1+", "1- 0-", "0+ 1+ 1- 0-"],
        ),
        cut_at_3("no wires", (0, 1), &[], &[]),
        cut_at_3("a closed edge", (0, 0), &["0+ 0-"], &["0+ 1+ 1- 0-"]),
        the_seam(),
        the_last_edge(),
    ]
}

/// The sample's closed seam is cut in place of its span.
fn the_seam() -> Case<CutEdge> {
    let before = sample("").input.lent.read();
    let curve = before.edges[1].curve;
    let mut after = before.clone();
    after.vertices.push(Vertex::Given(-0.0, 1.0e15, -1.0e15));
    let piece = |front: u32, back: u32, t0: f64, t1: f64| {
        edge(front, back, curve.over(t0, t1)).prepared(Preparation::DoubleBevel)
    };
    after.edges[1] = piece(1, 3, 0.0, 0.75);
    after.edges.push(piece(3, 1, 0.75, 1.0));
    after.wires = ["0+ 1+ 3+ 0-", "", "3- 1-"].map(wire).to_vec();
    let cut = [0.75, -0.0, 1.0e15, -1.0e15];
    done("a closed seam", &before, (1, cut), &after)
}

/// The last of three edges is cut; the wires use the others too.
fn the_last_edge() -> Case<CutEdge> {
    let line = |number: u32| edge(0, 1, span(number, 0.0, 1.0));
    let lines = [line(4), line(5), line(6)];
    let wires = ["0+ 2- 1+ 2+", "1- 0-"];
    let before = ways::shell(&[ORIGIN, ORIGIN], &lines, &wires);
    let [t, x, y, z] = [0.5, 1.0, 2.0, 3.0];
    let after = ways::shell(
        &[ORIGIN, ORIGIN, Vertex::Given(x, y, z)],
        &[
            line(4),
            line(5),
            edge(0, 2, span(6, 0.0, t)),
            edge(2, 1, span(6, t, 1.0)),
        ],
        &["0+ 3- 2- 1+ 2+ 3+", "1- 0-"],
    );
    done("the last edge", &before, (2, [t, x, y, z]), &after)
}

/// A line of each preparation is cut beside lines of the two others: both
/// pieces have its preparation, and the others keep theirs. And a cell that is
/// no input.
fn preparations() -> Vec<Case<CutEdge>> {
    let [t, x, y, z] = AT_3;
    let line = |row: usize, front: u32, back: u32, t0: f64, t1: f64| {
        let curve = span(row as u32, t0, t1);
        edge(front, back, curve).prepared(Preparation::ALL[row])
    };
    let before = [0, 1, 2].map(|row| line(row, 0, 1, 0.0, 8.0));
    let wire = ["0+ 1- 2+ 0- 1+ 2-"];
    let cut = |name, row: usize, mended: &str| {
        let mut after = before.to_vec();
        after[row] = line(row, 0, 2, 0.0, t);
        after.push(line(row, 2, 1, t, 8.0));
        let before = ways::shell(&[ORIGIN; 2], &before, &wire);
        let vertices = [ORIGIN, ORIGIN, Vertex::Given(x, y, z)];
        let after = ways::shell(&vertices, &after, &[mended]);
        done(name, &before, (row as u32, AT_3), &after)
    };
    vec![
        cut("a square line beside bevels", 0, "0+ 3+ 1- 2+ 3- 0- 1+ 2-"),
        cut("a single bevel beside others", 1, "0+ 3- 1- 2+ 0- 1+ 3+ 2-"),
        cut("a double bevel beside others", 2, "0+ 1- 2+ 3+ 0- 1+ 3- 2-"),
        // Row 3 becomes the new edge; the cells behind it are kept.
        unharmed("preparation 3 behind the edges", |c| {
            edge_number(4, PREPARATION, 3)(&mut c.lent)
        }),
    ]
}

/// K1's edge, with a preparation, cut at 3 with each cell written out, in
/// buffers of just the result's length. The cells that hold 77 belong to no
/// record and are kept.
fn cell_by_cell(name: &'static str, preparation: u32) -> Case<CutEdge> {
    let k = 77.0;
    let after = cells(
        (
            [0, 77, 77, 0, 77, 77],
            [0.0, 0.0, 0.0, k, k, k, k, 0.5, 0.25, -1.0, k, k, k, k],
        ),
        (
            [0, 1, 0, 7, preparation, 1, 0, 0, 7, preparation],
            [k, k, k, k, 0.0, 3.0, k, k, k, k, 3.0, 8.0],
        ),
        ([0, 2], 2),
    );
    Case {
        name,
        input: CutEdge::over(k1_cells(preparation), 0, &[AT_3]),
        expected: Expected {
            answer: 0,
            out: vec![2, 2, 2],
            after: CutEdge::over(after, 0, &[AT_3]),
        },
    }
}

/// Where an edge may be cut.
fn parameters() -> Vec<Case<CutEdge>> {
    let cut = |name, t0: f64, t: f64, t1: f64| {
        let whole = edge(0, 1, span(7, t0, t1));
        let before = ways::shell(&[ORIGIN, ORIGIN], &[whole], &["0-"]);
        let pieces = [edge(0, 2, span(7, t0, t)), edge(2, 1, span(7, t, t1))];
        let new = Vertex::Given(1.0, 2.0, 3.0);
        let after = ways::shell(&[ORIGIN, ORIGIN, new], &pieces, &["1- 0-"]);
        done(name, &before, (0, [t, 1.0, 2.0, 3.0]), &after)
    };
    let tiny = 5.0e-324;
    vec![
        cut("at t0", -2.5, -2.5, 8.0),
        cut("at t1", -2.5, 8.0, 8.0),
        cut("at both ends", 4.0, 4.0, 4.0),
        cut("negative zero at zero", 0.0, -0.0, 1.0),
        cut("zero at negative zero", -1.0, 0.0, -0.0),
        cut("zero between the two zeros", 0.0, -0.0, -0.0),
        cut("the least float", 0.0, tiny, 1.0),
        cut("the least float at its end", -1.0, tiny, tiny),
        cut("the greatest size", -1.0e15, 1.0e15, 1.0e15),
        cut("the least size", -1.0e15, -1.0e15, 1.0e15),
    ]
}

/// Calls without a cut: they change nothing, but what they are lent is looked
/// at.
fn nothing_to_cut() -> Vec<Case<CutEdge>> {
    let nothing = |name, shell: &Shell, cuts: &[[f64; CUT]]| {
        let lent = held(shell, needed(shell.counts(), shell.wires.len()));
        let mut input = CutEdge::over(lent, 0, cuts);
        input.cut_count = 0;
        let expected = input.done(shell);
        Case {
            name,
            input,
            expected,
        }
    };
    let before = sample("").input.lent.read();
    let nan = [f64::NAN; CUT];
    let nothing_lent = Lent::poisoned([0; 6], &mut Random::new(0, 0, 0));
    vec![
        nothing("no cut", &before, &[]),
        nothing("no cut, NaN lent", &before, &[nan]),
        nothing("no cut in full tables", &full(4096, 4096), &[]),
        no("no cut, the edge at the count", 3, |c| {
            (c.cut_count, c.edge) = (0, 3);
        }),
        no("no cut, a kind unknown", 1, |c| {
            c.cut_count = 0;
            edge_number(2, 2, 2)(&mut c.lent);
        }),
        no("no cut, a preparation unknown", 1, |c| {
            c.cut_count = 0;
            edge_number(2, PREPARATION, 3)(&mut c.lent);
        }),
        no("no cut, t0 above t1", 5, |c| {
            c.cut_count = 0;
            edge_float(2, 4, 3.5)(&mut c.lent);
        }),
        Case::unchanged("nothing lent", CutEdge::over(nothing_lent, 0, &[]), 3),
    ]
}

/// Tables of so many vertices and edges, all of them lines, with one wire.
fn full(vertices: usize, edges: usize) -> Shell {
    let line = edge(0, 1, span(3, 0.0, 2.0));
    ways::shell(&vec![ORIGIN; vertices], &vec![line; edges], &["0+"])
}

/// Tables that are filled to their bounds.
fn full_tables() -> Vec<Case<CutEdge>> {
    let cut = [0.5, 1.0, 2.0, 3.0];
    let call = |shell: &Shell, cuts: &[[f64; CUT]]| {
        let last = shell.edges.len() as u32 - 1;
        CutEdge::over(held(shell, ample([4200, 4200, 4], 1)), last, cuts)
    };
    let fits = |name, vertices: usize, edges: usize| {
        let before = full(vertices, edges);
        let mut after = before.clone();
        let last = edges as u32 - 1;
        let curve = before.edges[edges - 1].curve;
        after.vertices.push(Vertex::Given(1.0, 2.0, 3.0));
        after.edges[edges - 1] = edge(0, vertices as u32, curve.over(0.0, 0.5));
        after
            .edges
            .push(edge(vertices as u32, 1, curve.over(0.5, 2.0)));
        if edges == 1 {
            after.wires[0] = wire("0+ 1+");
        }
        done(name, &before, (last, cut), &after)
    };
    let refused = |name, number, vertices: usize, edges: usize, cuts: &[[f64; CUT]]| {
        Case::unchanged(name, call(&full(vertices, edges), cuts), number)
    };
    vec![
        fits("4095 vertices", 4095, 1),
        fits("4095 edges", 2, 4095),
        refused("4096 vertices", 6, 4096, 1, &[cut]),
        refused("4096 edges", 6, 2, 4096, &[cut]),
        refused("4096 vertices, two cuts", 14, 4096, 1, &[cut; 2]),
        refused("4096 edges, two cuts", 14, 2, 4096, &[cut; 2]),
        refused("4097 vertices, one cut", 1, 4097, 1, &[cut]),
        refused("4097 edges, one cut", 1, 2, 4097, &[cut]),
        refused("4097 vertices, two cuts", 1, 4097, 1, &[cut; 2]),
    ]
}

/// Uses at their bounds.
fn use_counts() -> Vec<Case<CutEdge>> {
    let lines = |name, uses: usize| {
        let (before, after) = ("0+ ".repeat(uses), "0+ 1+ ".repeat(uses));
        cut_at_3(name, (0, 1), &[&before], &[&after])
    };
    let plenty = [100, 100, 100, 100, 4000, 100];
    let crowd = |name, number, wire: &str, edge_to_cut: u32| {
        let pair: [Edge; 2] = [edge(0, 1, span(3, 0.0, 8.0)), edge(1, 0, span(4, 0.0, 8.0))];
        let before = ways::shell(&[ORIGIN, ORIGIN], &pair, &[wire]);
        let input = CutEdge::over(held(&before, plenty), edge_to_cut, &[AT_3]);
        Case::unchanged(name, input, number)
    };
    let others = "1- ".repeat(1023);
    let mut most = cut_at_3("", (0, 1), &[&"0+ ".repeat(512)], &[&"0+ 1+ ".repeat(512)]);
    most.name = "512 uses of the edge, just enough room";
    let sizes = needed([3, 2, 1024], 1);
    most.input.lent.shorten(sizes);
    most.expected.after.lent.shorten(sizes);
    vec![
        lines("63 uses of the edge", 63),
        lines("64 uses of the edge", 64),
        lines("65 uses of the edge", 65),
        lines("511 uses of the edge", 511),
        lines("512 uses of the edge", 512),
        most,
        crowd("513 uses of the edge", 6, &"0+ ".repeat(513), 0),
        crowd("1023 others and the edge", 6, &(others.clone() + "0-"), 0),
        crowd("1024 others and the edge", 1, &(others + "1- 0-"), 0),
        crowd("1025 uses", 1, &"1- ".repeat(1025), 0),
    ]
}

/// Edge numbers that are not there.
fn numbers() -> Vec<Case<CutEdge>> {
    vec![
        no("the edge at the count", 3, |c| c.edge = 3),
        no("the largest edge", 3, |c| c.edge = u32::MAX),
        no("the edge at twice the count", 3, |c| c.edge = 6),
        no("no edges and a cut", 3, |c| c.lent.tables.edges = 0),
    ]
}

/// Rows of cuts that are too few, or whose floats may not be handed in.
fn cuts() -> Vec<Case<CutEdge>> {
    let float = |cell: usize, value: f64| move |c: &mut CutEdge| c.cuts[cell] = value.to_bits();
    let above = f64::next_up(1.0e15);
    vec![
        no("one float of the cut too few", 1, |c| c.cuts.truncate(3)),
        no("no float of the cut", 1, |c| c.cuts.clear()),
        no("one cut too many", 1, |c| c.cut_count = 2),
        no("two cuts and a float too few", 1, |c| {
            c.cuts.resize(7, 0);
            c.cut_count = 2;
        }),
        no("the largest cut count", 1, |c| c.cut_count = usize::MAX),
        no("a cut count whose rows wrap to none", 1, |c| {
            c.cut_count = 1 << 62;
        }),
        no("a cut count whose rows wrap to one", 1, |c| {
            c.cut_count = (1 << 62) + 1;
        }),
        no("NaN for t of the cut", 4, float(0, f64::NAN)),
        no("NaN for x of the cut", 4, float(1, -f64::NAN)),
        no("infinite y of the cut", 4, float(2, f64::NEG_INFINITY)),
        no("z of the cut just too large", 4, float(3, above)),
        no("x of the cut just too small", 4, float(1, -above)),
        no("infinite t of the cut", 4, float(0, f64::INFINITY)),
        no("t of the cut just too large", 4, float(0, above)),
        no("t just below t0", 5, float(0, -5.0e-324)),
        no("t just above t1", 5, float(0, 1.0f64.next_up())),
        no("t in the range of another edge", 5, float(0, 2.0)),
        no("t below t0 of the seam", 5, |c| {
            c.edge = 1;
            c.cuts[0] = (-1.0f64).to_bits();
        }),
        unharmed("NaN behind the cuts", |c| {
            c.cuts.push(f64::NAN.to_bits());
        }),
        unharmed("another cut behind the count", |c| {
            c.cuts.extend([f64::NAN.to_bits(); CUT]);
        }),
    ]
}

/// The sample with cuts at these parameters and a change.
fn cut_at(name: &'static str, number: i32, ts: &[f64], change: fn(&mut CutEdge)) -> Case<CutEdge> {
    no(name, number, |c| {
        let cut = |&t: &f64| [t, 1.0, 2.0, 3.0].map(f64::to_bits);
        c.cuts = ts.iter().flat_map(cut).collect();
        c.cut_count = ts.len();
        change(c);
    })
}

/// Two and more cuts.
fn several() -> Vec<Case<CutEdge>> {
    let same: fn(&mut CutEdge) = |_| {};
    let short: fn(&mut CutEdge) = |c| c.lent.shorten(needed([3, 3, 4], 3));
    vec![
        cut_at("two cuts", 14, &[0.25, 0.5], same),
        cut_at("two cuts in falling order", 14, &[0.5, 0.25], same),
        cut_at("the same cut twice", 14, &[0.5, 0.5], same),
        cut_at("three cuts", 14, &[0.25, 0.5, 0.75], same),
        cut_at("a hundred cuts", 14, &[0.5; 100], same),
        cut_at("two cuts at t0 and t1", 14, &[0.0, 1.0], same),
        cut_at("two cuts and no room", 14, &[0.25, 0.5], short),
    ]
}

/// Two cuts, one of which may not be made.
fn several_spoilt() -> Vec<Case<CutEdge>> {
    let same: fn(&mut CutEdge) = |_| {};
    let nan = f64::NAN;
    let x_nan: fn(&mut CutEdge) = |c| c.cuts[5] = f64::NAN.to_bits();
    let missing: fn(&mut CutEdge) = |c| c.edge = 3;
    vec![
        cut_at("two cuts, x of the second NaN", 4, &[0.25, 0.5], x_nan),
        cut_at("two cuts, t of the second NaN", 4, &[0.25, nan], same),
        cut_at("two cuts, the first NaN", 4, &[nan, 0.5], same),
        cut_at("two cuts, the second outside", 5, &[0.25, 1.5], same),
        cut_at("two cuts, the first outside", 5, &[-0.25, 0.5], same),
        cut_at("two cuts, one NaN, one outside", 4, &[1.5, nan], same),
        cut_at("two cuts of no edge", 3, &[0.25, 0.5], missing),
    ]
}

/// Buffers that hold the input and are one cell too short for the result.
fn room() -> Vec<Case<CutEdge>> {
    let names = [
        "no room for a vertex number of the cut",
        "no room for a vertex float of the cut",
        "no room for an edge number of the cut",
        "no room for an edge float of the cut",
        "no room for a use of the cut",
    ];
    let short = |(buffer, name): (usize, &'static str)| {
        no(name, 6, |c| {
            let mut sizes = needed([4, 4, 6], 3);
            sizes[buffer] -= 1;
            c.lent.shorten(sizes);
        })
    };
    let mut exact = unharmed("just enough room for the cut", |_| {});
    exact.input.lent.shorten(needed([4, 4, 6], 3));
    exact.expected.after.lent.shorten(needed([4, 4, 6], 3));
    let mut cases: Vec<Case<CutEdge>> = names.into_iter().enumerate().map(short).collect();
    cases.push(exact);
    cases
}

/// Two causes at once: the lower number wins, and 6 comes last.
fn lowest() -> Vec<Case<CutEdge>> {
    let both = |name, number, first: fn(&mut CutEdge), second: fn(&mut CutEdge)| {
        no(name, number, |c| {
            first(c);
            second(c);
        })
    };
    let kind: fn(&mut CutEdge) = |c| vertex_number(2, 0, 2)(&mut c.lent);
    let front: fn(&mut CutEdge) = |c| edge_number(2, 0, 9)(&mut c.lent);
    let missing: fn(&mut CutEdge) = |c| c.edge = 3;
    let nan: fn(&mut CutEdge) = |c| c.cuts[3] = f64::NAN.to_bits();
    let outside: fn(&mut CutEdge) = |c| c.cuts[0] = 1.5f64.to_bits();
    let twice: fn(&mut CutEdge) = |c| {
        c.cuts.extend_from_within(..);
        c.cut_count = 2;
    };
    let short: fn(&mut CutEdge) = |c| c.lent.shorten(needed([3, 3, 4], 3));
    let few: fn(&mut CutEdge) = |c| c.cuts.truncate(2);
    vec![
        both("a kind and the edge", 1, missing, kind),
        both("a kind and NaN in the cut", 1, nan, kind),
        both("few floats and a front", 1, front, few),
        both("few floats and the edge", 1, missing, few),
        both("a front and the edge", 2, missing, front),
        both("a front and NaN in the cut", 2, nan, front),
        both("a front and a cut outside", 2, outside, front),
        both("the edge and NaN in the cut", 3, nan, missing),
        both("the edge and a cut outside", 3, outside, missing),
        both("NaN in the cut and outside", 4, outside, nan),
        both("twice and the edge", 3, twice, missing),
        both("twice NaN", 4, nan, twice),
        both("twice outside", 5, outside, twice),
        both("twice and no room", 14, twice, short),
        both("the edge and no room", 3, short, missing),
        both("NaN in the cut and no room", 4, short, nan),
        both("a cut outside and no room", 5, short, outside),
    ]
}

/// What the closed-edge pass refuses under 1 to 5, a cut is refused as well.
fn of_the_pass() -> Vec<Case<CutEdge>> {
    let refused = |case: &Case<SplitClosed>| (1..=5).contains(&case.expected.answer);
    let with_cut = |case: Case<SplitClosed>| {
        let input = CutEdge::over(case.input.lent, 0, &[[0.5, 1.0, 2.0, 3.0]]);
        Case::unchanged(case.name, input, case.expected.answer)
    };
    let cases = limits::of_shells().into_iter();
    cases.filter(refused).map(with_cut).collect()
}
