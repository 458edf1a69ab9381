//! Wrong closed-edge passes, and wrong checks of tables and wires.

use super::{behind, eighths, step, Mutant};
use oracle::model::result_counts;
use oracle::port::{Closed, Port, Rows, Wires};
use oracle::records::Preparation::{DoubleBevel, SingleBevel, Square};
use oracle::records::{Curve, Vertex};
use oracle::reference::pass::fits;
use oracle::reference::tables::{causes, have_room};
use oracle::reference::Reference;
use oracle::shell::{Lent, Tables};
use oracle::shell::{EDGE_FLOATS, EDGE_NUMBERS, PREPARATION, VERTEX_FLOATS, VERTEX_NUMBERS};
use std::ops::Range;

/// All wrong passes.
pub fn lists() -> Vec<Vec<Mutant>> {
    vec![
        wrong_results(),
        wrong_vertices(),
        wrong_preparations(),
        wrong_cells_of_preparations(),
        wrong_at_65(),
        eighths::wrong_middles(),
        eighths::wrong_eighths(),
        eighths::wrong_keeping(),
        eighths::wrong_bounds(),
        eighths::wrong_ks(),
        wrong_places(),
        wrong_refusals(),
        wrong_order(),
        wrong_sight_of_k(),
        wrong_bounds(),
        wrong_sight(),
        wrong_rows(),
        wrong_writes(),
        wrong_ends(),
    ]
}

/// A pass that does something wrong after all else was right.
fn after(name: &'static str, spoil: fn(i32, &Lent, &mut Closed) -> i32) -> Mutant {
    behind(name, |after| after.pass = spoil)
}

/// The causes that are met by an input as it is wrongly seen.
fn seen(rows: &Rows, wires: &Wires, change: impl Fn(&mut Lent)) -> Vec<i32> {
    if causes(rows, wires) == [1] && wires.lengths.len() < wires.wires {
        return vec![1];
    }
    let mut lent = Lent {
        tables: rows.copy(),
        uses: wires.uses.to_vec(),
        lengths: wires.lengths.to_vec(),
        wires: wires.wires,
    };
    change(&mut lent);
    causes(&lent.tables.rows(), &lent.wires())
}

/// All causes but one number.
fn all_but(number: i32, rows: &Rows, wires: &Wires) -> Vec<i32> {
    let mut found = causes(rows, wires);
    found.retain(|&cause| cause != number);
    found
}

/// Changes every float cell.
fn each_float(lent: &mut Lent, change: fn(f64) -> f64) {
    let tables = &mut lent.tables;
    let cells = tables.edge_floats.iter_mut();
    let cells = cells.chain(&mut tables.vertex_floats);
    cells.for_each(|cell| *cell = change(f64::from_bits(*cell)).to_bits());
}

/// The row of the first closed edge.
fn closed_row(tables: &Tables) -> Option<usize> {
    let rows = tables.edge_numbers.chunks_exact(EDGE_NUMBERS);
    let mut rows = rows.take(tables.edges);
    rows.position(|row| row[0] == row[1])
}

/// Curves and wires that are wrong.
pub fn wrong_results() -> Vec<Mutant> {
    vec![
        step("halves exchanged", |r| {
            r.pass.halves = |c, t| [c.over(t, c.range().1), c.over(c.range().0, t)]
        }),
        step("old edge keeps the whole curve", |r| {
            r.pass.halves = |c, t| [c, c.over(t, c.range().1)]
        }),
        step("new edge gets the whole curve", |r| {
            r.pass.halves = |c, t| [c.over(c.range().0, t), c]
        }),
        step("reversed use before the new one", |r| {
            r.pass.mend = |used, new| [used, 2 * new + used % 2]
        }),
        step("new use always first", |r| {
            r.pass.mend = |used, new| [2 * new + used % 2, used]
        }),
        step("new use always forward", |r| {
            r.pass.mend = |used, new| [[used, 2 * new], [2 * new, used]][used as usize % 2]
        }),
    ]
}

/// Vertices and edges that are wrong.
pub fn wrong_vertices() -> Vec<Mutant> {
    vec![
        step("pending on the first half", |r| {
            r.pass.pending = |_, halves, t| Vertex::Pending(halves[0], t)
        }),
        step("pending on the second half", |r| {
            r.pass.pending = |_, halves, t| Vertex::Pending(halves[1], t)
        }),
        step("pending at t0", |r| {
            r.pass.pending = |c, _, _| Vertex::Pending(c, c.range().0)
        }),
        step("ends exchanged", |r| {
            r.pass.ends = |old, new| [(new, old), (old, new)]
        }),
        step("both edges from the old vertex", |r| {
            r.pass.ends = |old, new| [(old, new), (old, new)]
        }),
        step("edges in falling order", |r| {
            r.pass.order = |edges| (0..edges).rev().collect()
        }),
        step("no edge cut", |r| r.pass.order = |_| Vec::new()),
        step("only the first edges cut", |r| {
            r.pass.order = |edges| (0..edges.min(2)).collect()
        }),
    ]
}

/// Halves with a wrong preparation.
pub fn wrong_preparations() -> Vec<Mutant> {
    vec![
        step("the second half square", |r| {
            r.pass.preparations = |old| [old, Square]
        }),
        step("the first half square", |r| {
            r.pass.preparations = |old| [Square, old]
        }),
        step("a double bevel gives single ones", |r| {
            r.pass.preparations = |old| match old {
                DoubleBevel => [SingleBevel; 2],
                _ => [old; 2],
            }
        }),
        step("a single bevel gives double ones", |r| {
            r.pass.preparations = |old| match old {
                SingleBevel => [DoubleBevel; 2],
                _ => [old; 2],
            }
        }),
    ]
}

/// The rows of the new edges: only a call that is done has told how many edges
/// there are.
fn new_rows(answer: i32, before: &Lent, call: &Closed) -> Range<usize> {
    let old = before.tables.edges;
    old..if answer == 0 { call.pass.out[1] } else { old }
}

/// Preparations that are not written, or those of other edges.
pub fn wrong_cells_of_preparations() -> Vec<Mutant> {
    vec![
        after("a new preparation not written", |answer, before, call| {
            for row in new_rows(answer, before, call) {
                let cell = row * EDGE_NUMBERS + PREPARATION;
                call.pass.edge_numbers[cell] = before.tables.edge_numbers[cell];
            }
            answer
        }),
        after("the first edge's for a new one", |answer, before, call| {
            for row in new_rows(answer, before, call) {
                let first = before.tables.edge_numbers[PREPARATION];
                call.pass.edge_numbers[row * EDGE_NUMBERS + PREPARATION] = first;
            }
            answer
        }),
        after("edges that are not cut square", |answer, before, call| {
            let edges = if answer == 0 { before.tables.edges } else { 0 };
            for row in call.pass.edge_numbers.chunks_mut(EDGE_NUMBERS).take(edges) {
                if (row[1] as usize) < before.tables.vertices {
                    row[PREPARATION] = 0;
                }
            }
            answer
        }),
    ]
}

/// Passes that go wrong at 65 edges alone, the first that need large arrays.
fn wrong_at_65() -> Vec<Mutant> {
    vec![step("the last of 65 edges not cut", |r| {
        r.pass.order = |edges| (0..edges - usize::from(edges == 65)).collect()
    })]
}

/// Edges that are cut in two places at once.
pub fn wrong_places() -> Vec<Mutant> {
    vec![
        step("pending in the middle, halves at k", |r| {
            r.pass.pending = |c, _, _| Vertex::Pending(c, middle(c))
        }),
        step("halves in the middle, pending at k", |r| {
            r.pass.halves = |c, _| {
                let (t0, t1) = c.range();
                [c.over(t0, middle(c)), c.over(middle(c), t1)]
            }
        }),
        step("the second half from the middle", |r| {
            r.pass.halves = |c, t| {
                let (t0, t1) = c.range();
                [c.over(t0, t), c.over(middle(c), t1)]
            }
        }),
    ]
}

/// The middle of a curve.
fn middle(curve: Curve) -> f64 {
    let (t0, t1) = curve.range();
    (t0 + t1) / 2.0
}

/// A k that may not be handed in, in a wrong order with other causes.
pub fn wrong_order() -> Vec<Mutant> {
    vec![
        step("18 before 5", |r| {
            r.tables.choose = |causes| match causes.iter().min() {
                Some(5) if causes.contains(&18) => Some(18),
                least => least.copied(),
            }
        }),
        step("18 before 4 and 5", |r| {
            r.tables.choose = |causes| match causes.iter().min() {
                Some(4 | 5) if causes.contains(&18) => Some(18),
                least => least.copied(),
            }
        }),
        after("18 after 6", |answer, before, call| {
            match answer == 18 && !have_room_in_the_middle(before, call) {
                true => 6,
                false => answer,
            }
        }),
    ]
}

/// A k that may not be handed in and is not always looked at, or too late.
pub fn wrong_sight_of_k() -> Vec<Mutant> {
    vec![
        after(
            "18 only where an edge is closed",
            |answer, before, call| match closed_row(&before.tables) {
                None => in_the_middle(answer, call),
                Some(_) => answer,
            },
        ),
        after("18 only where there are uses", |answer, before, call| {
            let mut lengths = before.lengths.iter().take(before.wires);
            match lengths.all(|&length| length == 0) {
                true => in_the_middle(answer, call),
                false => answer,
            }
        }),
        after("cut in the middle before 18", |answer, _, call| {
            in_the_middle(answer, call);
            answer
        }),
    ]
}

/// Whether a result has room, of a call that is refused for its k alone.
fn have_room_in_the_middle(before: &Lent, call: &Closed) -> bool {
    fits(&call.pass, result_counts(before))
}

/// A call that was refused for its k, made in the middle; the answer as it is of
/// any other call.
fn in_the_middle(answer: i32, call: &mut Closed) -> i32 {
    let middle = Closed {
        k: 4,
        ..call.again()
    };
    match answer {
        18 => Reference::default().split_closed_edges(middle),
        _ => answer,
    }
}

/// Refusals that are wrong.
pub fn wrong_refusals() -> Vec<Mutant> {
    vec![
        step("highest cause wins", |r| {
            r.tables.choose = |causes| causes.iter().max().copied()
        }),
        step("first cause met wins", |r| {
            r.tables.choose = |causes| causes.first().copied()
        }),
        step("never 2", |r| {
            r.tables.causes = |rows, wires| all_but(2, rows, wires)
        }),
        step("never 4", |r| {
            r.tables.causes = |rows, wires| all_but(4, rows, wires)
        }),
        step("never 5", |r| {
            r.tables.causes = |rows, wires| all_but(5, rows, wires)
        }),
        step("6 before 5", |r| {
            r.tables.causes = |rows, wires| match causes(rows, wires).iter().min() {
                Some(5) if cut_without_room(rows) => vec![6],
                _ => causes(rows, wires),
            }
        }),
    ]
}

/// Bounds and room that are wrong.
pub fn wrong_bounds() -> Vec<Mutant> {
    vec![
        step("no bound on vertices out", |r| {
            r.pass.fits = |call, [vertices, edges, uses]| {
                fits(call, [vertices.min(4096), edges, uses])
                    && call.vertex_numbers.len() / VERTEX_NUMBERS >= vertices
                    && call.vertex_floats.len() / VERTEX_FLOATS >= vertices
            }
        }),
        step("4096 vertices out are too many", |r| {
            r.pass.fits = |call, counts| fits(call, counts) && counts[0] < 4096
        }),
        step("1024 uses out are too many", |r| {
            r.pass.fits = |call, counts| fits(call, counts) && counts[2] < 1024
        }),
        step("a spare vertex row is asked for", |r| {
            r.pass.fits =
                |call, [v, e, u]| fits(call, [v, e, u]) && v * 7 < call.vertex_floats.len()
        }),
        step("edges are refused at 4096", |r| {
            r.tables.causes = |rows, wires| match rows.edges {
                4096 => vec![1],
                _ => causes(rows, wires),
            }
        }),
    ]
}

/// Whether there is an edge to cut and no row for its other half.
fn cut_without_room(rows: &Rows) -> bool {
    let room = have_room(rows, rows.vertices + 1, rows.edges + 1);
    closed_row(&rows.copy()).is_some() && !room
}

/// Cells that are looked at and should not be, or the other way round.
pub fn wrong_sight() -> Vec<Mutant> {
    vec![
        step("NaN passes", |r| {
            r.tables.causes = |rows, wires| {
                let zero = |float: f64| if float.is_nan() { 0.0 } else { float };
                seen(rows, wires, |lent| each_float(lent, zero))
            }
        }),
        step("1.0e15 is too large", |r| {
            r.tables.causes = |rows, wires| {
                let large = |float: f64| if float.abs() == 1.0e15 { 2.0e15 } else { float };
                seen(rows, wires, |lent| each_float(lent, large))
            }
        }),
        step("uv cells of a span are read", |r| {
            r.tables.causes = |rows, wires| {
                seen(rows, wires, |lent| {
                    let rows = lent.tables.edge_numbers.chunks_exact_mut(EDGE_NUMBERS);
                    rows.filter(|row| row[2] == 0).for_each(|row| row[2] = 1);
                })
            }
        }),
        step("curve kind of a given vertex is read", |r| {
            r.tables.causes = |rows, wires| {
                seen(rows, wires, |lent| {
                    let rows = lent.tables.vertex_numbers.chunks_exact_mut(VERTEX_NUMBERS);
                    rows.filter(|row| row[1] > 1).for_each(|row| row[0] = 2);
                })
            }
        }),
    ]
}

/// Rows that are looked at wrongly.
pub fn wrong_rows() -> Vec<Mutant> {
    vec![
        step("unknown kind of an edge passes", |r| {
            r.tables.causes = |rows, wires| {
                seen(rows, wires, |lent| {
                    let rows = lent.tables.edge_numbers.chunks_exact_mut(EDGE_NUMBERS);
                    rows.for_each(|row| row[2] = row[2].min(1));
                })
            }
        }),
        step("vertices are not looked at", |r| {
            r.tables.causes = |rows, wires| {
                seen(rows, wires, |lent| {
                    lent.tables.vertex_numbers.fill(0);
                    lent.tables.vertex_floats.fill(0);
                })
            }
        }),
        step("unused edges are not looked at", |r| {
            r.tables.causes = |rows, wires| seen(rows, wires, hide_unused)
        }),
        step("edge rows past the count are looked at", |r| {
            r.tables.causes =
                |rows, wires| [causes(rows, wires), seen(rows, wires, uncounted)].concat()
        }),
    ]
}

/// Counts every row for which the edge buffers have room.
fn uncounted(lent: &mut Lent) {
    let rows = lent.tables.edge_floats.len() / EDGE_FLOATS;
    let rows = rows.min(lent.tables.edge_numbers.len() / EDGE_NUMBERS);
    lent.tables.edges = lent.tables.edges.max(rows.min(4096));
}

/// Makes every edge that stands in no wire a plain one.
fn hide_unused(lent: &mut Lent) {
    for row in 0..lent.tables.edges.min(4096) {
        let used = lent.uses.iter().any(|&number| number as usize / 2 == row);
        let numbers = lent
            .tables
            .edge_numbers
            .get_mut(row * EDGE_NUMBERS..(row + 1) * EDGE_NUMBERS);
        let floats = lent
            .tables
            .edge_floats
            .get_mut(row * EDGE_FLOATS..(row + 1) * EDGE_FLOATS);
        if let (false, Some(numbers), Some(floats)) = (used, numbers, floats) {
            numbers.fill(0);
            floats.fill(0);
        }
    }
}

/// Writing too much, too little or too early.
pub fn wrong_writes() -> Vec<Mutant> {
    vec![
        after("writes before refusing", |answer, before, call| {
            if let (6, Some(row)) = (answer, closed_row(&before.tables)) {
                call.pass.edge_numbers[row * EDGE_NUMBERS + 1] = before.tables.vertices as u32;
            }
            answer
        }),
        after("counts written on a refusal", |answer, _, call| {
            if answer != 0 {
                call.pass.out.fill(0);
            }
            answer
        }),
        after("uses counted wrongly", |answer, before, call| {
            if answer == 0 {
                call.pass.out[2] = before.wires;
            }
            answer
        }),
        after("lengths left as they were", |answer, before, call| {
            call.pass.lengths.copy_from_slice(&before.lengths);
            answer
        }),
    ]
}

/// Cells behind the result that are not left alone, and calls that are not
/// read.
pub fn wrong_ends() -> Vec<Mutant> {
    vec![
        after("uses behind the result cleared", |answer, _, call| {
            if answer == 0 {
                call.pass.uses[call.pass.out[2]..].fill(0);
            }
            answer
        }),
        after("uv cells of a new span cleared", |answer, before, call| {
            for row in new_rows(answer, before, call) {
                if call.pass.edge_numbers[row * EDGE_NUMBERS + 2] == 0 {
                    call.pass.edge_floats[row * EDGE_FLOATS..][..4].fill(0);
                }
            }
            answer
        }),
        after("NaN made quiet past the result", |answer, _, call| {
            for cell in call.pass.vertex_floats.iter_mut().filter(|_| answer == 0) {
                if f64::from_bits(*cell).is_nan() {
                    *cell |= 1 << 51;
                }
            }
            answer
        }),
        after("wire lengths wrap in 32 bits", |answer, before, call| {
            let sum = |a: u32, b: &u32| a.wrapping_add(*b);
            let wires = before.lengths.iter().take(before.wires);
            let wrapped = wires.fold(0, sum) as usize;
            let hidden = answer == 1 && wrapped <= call.pass.uses.len() && wrapped <= 1024;
            answer * i32::from(!hidden)
        }),
        after("every call refused", |_, _, _| 1),
        after("every call done", |_, _, _| 0),
    ]
}
