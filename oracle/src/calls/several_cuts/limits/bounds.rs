//! The count of cuts, tables and uses at their bounds, and no cut at all.

use super::{at, cut_at, new_vertices, no, ORIGIN};
use super::{SeveralCuts, CUT};
use crate::compare::Case;
use crate::limits::ways::{self, ample, edge, edge_float, edge_number, held, span};
use crate::random::Random;
use crate::records::{wire, Shell};
use crate::shell::{needed, Lent, PREPARATION};

/// All cases.
pub fn cases() -> Vec<Case<SeveralCuts>> {
    [
        cut_counts(),
        past_64(),
        nothing_to_cut(),
        full_tables(),
        use_counts(),
        uses_of_64_cuts(),
    ]
    .into_iter()
    .flatten()
    .collect()
}

/// So many parameters from 0 on, in rising order.
fn rising(count: usize) -> Vec<f64> {
    (0..count).map(|row| row as f64 / 16.0).collect()
}

/// What a use in each direction becomes, once so many cuts are made.
fn there_and_back(cuts: usize) -> [String; 2] {
    let there = (0..=cuts).map(|piece| format!("{piece}+ "));
    let back = (0..=cuts).rev().map(|piece| format!("{piece}- "));
    [there.collect(), back.collect()]
}

/// A line used in both directions, cut so many times.
fn line_cut(name: &'static str, cuts: usize) -> Case<SeveralCuts> {
    let [there, back] = there_and_back(cuts);
    let wires = ["0+", "0-"];
    cut_at(name, (0, 1), &rising(cuts), &wires, &[&there, &back])
}

/// A line from 0 to 8, used in both directions, with cuts.
fn line(ts: &[f64]) -> SeveralCuts {
    let line = edge(0, 1, span(7, 0.0, 8.0));
    let shell = ways::shell(&[ORIGIN; 2], &[line], &["0+", "0-"]);
    SeveralCuts::over(held(&shell, ample([80, 80, 300], 2)), 0, &at(ts))
}

/// How many cuts there may be.
fn cut_counts() -> Vec<Case<SeveralCuts>> {
    let refused = |name, number, ts: &[f64], change: fn(&mut SeveralCuts)| {
        let mut input = line(ts);
        change(&mut input);
        Case::unchanged(name, input, number)
    };
    let many = |name, ts: &[f64]| refused(name, 16, ts, |_| {});
    vec![
        line_cut("63 cuts", 63),
        line_cut("64 cuts", 64),
        many("65 cuts", &rising(65)),
        many("65 equal cuts", &[3.0; 65]),
        many("a hundred cuts", &rising(100)),
        many("a hundred equal cuts", &[0.0; 100]),
        many("1025 equal cuts", &[0.0; 1025]),
        refused("65 cuts and 64 rows", 1, &rising(64), |c| {
            c.0.cut_count = 65
        }),
        refused("65 cuts and a float too few", 1, &rising(65), |c| {
            c.0.cuts.truncate(259)
        }),
        refused("65 cuts and no room", 16, &rising(65), |c| {
            c.0.lent.shorten(needed([2, 1, 2], 2))
        }),
    ]
}

/// Cuts past the 64th are looked at too.
fn past_64() -> Vec<Case<SeveralCuts>> {
    let spoilt = |name, number, (count, row): (usize, usize), cell: usize, value: f64| {
        let mut input = line(&rising(count));
        input.0.cuts[row * CUT + cell] = value.to_bits();
        Case::unchanged(name, input, number)
    };
    let (nan, infinite) = (f64::NAN, f64::INFINITY);
    vec![
        spoilt("65 cuts, the last outside", 5, (65, 64), 0, 8.5),
        spoilt("65 cuts, the last below", 5, (65, 64), 0, -0.5),
        spoilt("65 cuts, the first outside", 5, (65, 0), 0, 9.0),
        spoilt("65 cuts, t of the last NaN", 4, (65, 64), 0, nan),
        spoilt("65 cuts, z of the last NaN", 4, (65, 64), 3, nan),
        spoilt("65 cuts, x of the last too large", 4, (65, 64), 1, 1.1e15),
        spoilt("65 cuts, z of the first NaN", 4, (65, 0), 3, nan),
        spoilt("100 cuts, the last outside", 5, (100, 99), 0, 8.5),
        spoilt(
            "100 cuts, y of the last infinite",
            4,
            (100, 99),
            2,
            infinite,
        ),
        spoilt("64 cuts, the last outside", 5, (64, 63), 0, 8.5),
        spoilt("64 cuts, z of the last NaN", 4, (64, 63), 3, nan),
        spoilt("65 cuts, the last as the first", 16, (65, 64), 0, 0.0),
    ]
}

/// Calls without a cut: they change nothing, but what they are lent is looked
/// at.
fn nothing_to_cut() -> Vec<Case<SeveralCuts>> {
    let nothing = |name, shell: &Shell, cuts: &[[f64; CUT]]| {
        let lent = held(shell, needed(shell.counts(), shell.wires.len()));
        let mut input = SeveralCuts::over(lent, 0, cuts);
        input.0.cut_count = 0;
        let expected = input.done(shell);
        Case {
            name,
            input,
            expected,
        }
    };
    let before = ways::sample("").input.lent.read();
    let mut crowd = full(2, 1);
    crowd.wires[0] = wire(&"0- ".repeat(1024));
    let nothing_lent = Lent::poisoned([0; 6], &mut Random::new(0, 0, 0));
    vec![
        nothing("no cut", &before, &[]),
        nothing("no cut, NaN lent", &before, &[[f64::NAN; CUT]]),
        nothing("no cut in full tables", &full(4096, 4096), &[]),
        nothing("no cut, 1024 uses of the edge", &crowd, &[]),
        no("no cut, the edge at the count", 3, |c| {
            (c.0.cut_count, c.0.edge) = (0, 3);
        }),
        no("no cut, the largest edge", 3, |c| {
            (c.0.cut_count, c.0.edge) = (0, u32::MAX);
        }),
        no("no cut, a kind unknown", 1, |c| {
            c.0.cut_count = 0;
            edge_number(2, 2, 2)(&mut c.0.lent);
        }),
        no("no cut, a preparation unknown", 1, |c| {
            c.0.cut_count = 0;
            edge_number(2, PREPARATION, 3)(&mut c.0.lent);
        }),
        no("no cut, t0 above t1", 5, |c| {
            c.0.cut_count = 0;
            edge_float(2, 4, 3.5)(&mut c.0.lent);
        }),
        Case::unchanged("nothing lent", SeveralCuts::over(nothing_lent, 0, &[]), 3),
    ]
}

/// Tables of so many vertices and edges, all of them lines, with one wire.
fn full(vertices: usize, edges: usize) -> Shell {
    let line = edge(0, 1, span(3, 0.0, 2.0));
    ways::shell(&vec![ORIGIN; vertices], &vec![line; edges], &["0+"])
}

/// Such tables, whose last edge is cut at these parameters.
fn full_cut(vertices: usize, edges: usize, ts: &[f64]) -> SeveralCuts {
    let lent = held(&full(vertices, edges), ample([4200, 4200, 100], 1));
    SeveralCuts::over(lent, edges as u32 - 1, &at(ts))
}

/// The same where it fits.
fn full_fits(name: &'static str, vertices: usize, edges: usize, ts: &[f64]) -> Case<SeveralCuts> {
    let mut after = full(vertices, edges);
    after.vertices.extend(new_vertices(ts));
    let (new, last) = (vertices as u32, ts.len() - 1);
    after.edges[edges - 1] = edge(0, new, span(3, 0.0, ts[0]));
    for row in 0..last {
        let (front, curve) = (new + row as u32, span(3, ts[row], ts[row + 1]));
        after.edges.push(edge(front, front + 1, curve));
    }
    let end = edge(new + last as u32, 1, span(3, ts[last], 2.0));
    after.edges.push(end);
    if edges == 1 {
        after.wires[0] = wire(&there_and_back(ts.len())[0]);
    }
    let input = full_cut(vertices, edges, ts);
    let expected = input.done(&after);
    Case {
        name,
        input,
        expected,
    }
}

/// Tables that are filled to their bounds.
fn full_tables() -> Vec<Case<SeveralCuts>> {
    let refused = |name, number, vertices: usize, edges: usize, ts: &[f64]| {
        Case::unchanged(name, full_cut(vertices, edges, ts), number)
    };
    let (two, most): (&[f64], _) = (&[0.5, 1.0], &rising(33));
    vec![
        full_fits("4094 vertices", 4094, 1, two),
        full_fits("4094 edges", 2, 4094, two),
        full_fits("4063 vertices, 33 cuts", 4063, 1, most),
        full_fits("4063 edges, 33 cuts", 2, 4063, most),
        refused("4095 vertices", 6, 4095, 1, two),
        refused("4095 edges", 6, 2, 4095, two),
        refused("4064 vertices, 33 cuts", 6, 4064, 1, most),
        refused("4064 edges, 33 cuts", 6, 2, 4064, most),
        refused("4096 vertices and edges", 6, 4096, 4096, two),
        refused("4096 vertices, falling", 17, 4096, 1, &[1.0, 0.5]),
        refused("4096 edges, falling", 17, 2, 4096, &[1.0, 0.5]),
        refused("4096 vertices, 65 cuts", 16, 4096, 1, &[0.5; 65]),
        refused("4096 edges, 65 cuts", 16, 2, 4096, &[0.5; 65]),
        refused("4097 vertices, two cuts", 1, 4097, 1, two),
        refused("4097 edges, two cuts", 1, 2, 4097, two),
        refused("4097 vertices, 65 cuts", 1, 4097, 1, &[0.5; 65]),
    ]
}

/// A line with so many forward uses, and with so many of edge 1, to be cut.
fn crowd([uses, others]: [usize; 2], ts: &[f64]) -> SeveralCuts {
    let lines = [edge(0, 1, span(3, 0.0, 8.0)), edge(1, 0, span(4, 0.0, 8.0))];
    let wire = "0+ ".repeat(uses) + &"1- ".repeat(others);
    let shell = ways::shell(&[ORIGIN; 2], &lines, &[&wire]);
    SeveralCuts::over(held(&shell, ample([80, 80, 4000], 1)), 0, &at(ts))
}

/// The same where it fits: edges 2, 3, ... are the pieces behind the first. The
/// buffers have just enough room, where the name says so.
fn crowd_cut(name: &'static str, uses: [usize; 2], ts: &[f64]) -> Case<SeveralCuts> {
    let mut input = crowd(uses, ts);
    let mut after = input.0.lent.read();
    after.vertices.extend(new_vertices(ts));
    let (last, rows) = (ts.len() - 1, 0..ts.len() as u32);
    after.edges[0] = edge(0, 2, span(3, 0.0, ts[0]));
    for row in 0..last {
        let (front, curve) = (row as u32 + 2, span(3, ts[row], ts[row + 1]));
        after.edges.push(edge(front, front + 1, curve));
    }
    after
        .edges
        .push(edge(last as u32 + 2, 1, span(3, ts[last], 8.0)));
    let chain: String = rows.map(|row| format!(" {}+", row + 2)).collect();
    let chain = format!("0+{chain} ");
    after.wires[0] = wire(&(chain.repeat(uses[0]) + &"1- ".repeat(uses[1])));
    if name.ends_with("just enough room") {
        input.0.lent.shorten(needed(after.counts(), 1));
    }
    let expected = input.done(&after);
    Case {
        name,
        input,
        expected,
    }
}

/// Uses at their bounds.
fn use_counts() -> Vec<Case<SeveralCuts>> {
    let (two, three): (&[f64], &[f64]) = (&[2.0, 5.0], &[2.0, 5.0, 6.0]);
    let refused =
        |name, number, uses: [usize; 2], ts: &[f64]| Case::unchanged(name, crowd(uses, ts), number);
    vec![
        crowd_cut("63 uses of the edge", [63, 0], two),
        crowd_cut("64 uses of the edge", [64, 1], two),
        crowd_cut("65 uses of the edge", [65, 0], two),
        crowd_cut("341 uses of the edge", [341, 0], two),
        crowd_cut("341 uses and one other", [341, 1], two),
        crowd_cut("256 uses, three cuts, just enough room", [256, 0], three),
        crowd_cut("512 uses, one cut, just enough room", [512, 0], &[4.0]),
        crowd_cut("1021 others and the edge", [1, 1021], two),
        refused("341 uses and two others", 6, [341, 2], two),
        refused("342 uses of the edge", 6, [342, 0], two),
        refused("257 uses, three cuts", 6, [257, 0], three),
        refused("513 uses, one cut", 6, [513, 0], &[4.0]),
        refused("1022 others and the edge", 6, [1, 1022], two),
        refused("1024 uses of the edge", 6, [1024, 0], two),
        refused("1025 uses", 1, [1025, 0], two),
        refused("1025 uses, no cut", 1, [1024, 1], &[]),
    ]
}

/// An edge with 64 cuts.
fn uses_of_64_cuts() -> Vec<Case<SeveralCuts>> {
    let (most, fewer) = (&rising(64), &rising(63));
    let refused =
        |name, number, uses: [usize; 2], ts: &[f64]| Case::unchanged(name, crowd(uses, ts), number);
    vec![
        crowd_cut("64 cuts, used 15 times", [15, 0], most),
        crowd_cut("64 cuts, used 15 times, 49 others", [15, 49], most),
        crowd_cut("64 cuts, used once", [1, 0], most),
        crowd_cut("63 cuts, used 16 times, just enough room", [16, 0], fewer),
        refused("64 cuts, used 15 times, 50 others", 6, [15, 50], most),
        refused("64 cuts, used 16 times", 6, [16, 0], most),
        refused("64 cuts, used 1024 times", 6, [1024, 0], most),
        refused("64 equal cuts, used 16 times", 17, [16, 0], &[3.0; 64]),
    ]
}
