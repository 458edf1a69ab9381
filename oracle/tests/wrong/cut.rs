//! Wrong cuts of an edge.

use super::{behind, step, Mutant};
use oracle::model::MOST_EDGES;
use oracle::port::Cut;
use oracle::records::Preparation::{DoubleBevel, SingleBevel, Square};
use oracle::records::Vertex;
use oracle::reference::cut::causes;
use oracle::reference::pass::fits;
use oracle::reference::tables::have_room;
use oracle::shell::{Lent, EDGE_FLOATS, EDGE_NUMBERS, PREPARATION, VERTEX_FLOATS, VERTEX_NUMBERS};

/// All wrong cuts, save those with wrong checks of tables and wires.
pub fn lists() -> Vec<Vec<Mutant>> {
    vec![
        wrong_pieces(),
        wrong_preparations(),
        wrong_points(),
        wrong_mending(),
        wrong_at_65(),
        wrong_counts(),
        wrong_cut_order(),
        wrong_without_cut(),
        wrong_ranges(),
        wrong_cells(),
        wrong_cut_rows(),
        wrong_cut_bounds(),
        wrong_cut_writes(),
        wrong_cut_told(),
        wrong_cut_ends(),
        wrong_cut_cells(),
    ]
}

/// A cut that does something wrong after all else was right.
fn after(name: &'static str, spoil: fn(i32, &Lent, &mut Cut) -> i32) -> Mutant {
    behind(name, |after| after.cut = spoil)
}

/// Where an edge was cut, the number that was lent in the cell `from` is put over
/// this number of the new edge.
fn put_over_new(answer: i32, before: &Lent, call: &mut Cut, [from, number]: [usize; 2]) -> i32 {
    if (answer, call.cut_count) == (0, 1) {
        let cell = before.tables.edges * EDGE_NUMBERS + number;
        call.pass.edge_numbers[cell] = before.tables.edge_numbers[from];
    }
    answer
}

/// A number of the new edge is what its cell held before. A count that is not
/// refused is within its bound.
fn leave_in_new(answer: i32, before: &Lent, call: &mut Cut, number: usize) -> i32 {
    let cell = before.tables.edges.min(MOST_EDGES) * EDGE_NUMBERS + number;
    put_over_new(answer, before, call, [cell, number])
}

/// Curves and ends of the two pieces that are wrong.
pub fn wrong_pieces() -> Vec<Mutant> {
    vec![
        step("pieces exchanged", |r| {
            r.cut.pieces = |c, t| [c.over(t, c.range().1), c.over(c.range().0, t)]
        }),
        step("the old edge keeps the whole curve", |r| {
            r.cut.pieces = |c, t| [c, c.over(t, c.range().1)]
        }),
        step("the new edge gets the whole curve", |r| {
            r.cut.pieces = |c, t| [c.over(c.range().0, t), c]
        }),
        step("cut in the middle", |r| {
            r.cut.parameter = |_, (t0, t1)| (t0 + t1) / 2.0
        }),
        step("cut at t0", |r| r.cut.parameter = |_, (t0, _)| t0),
        step("cut at t1", |r| r.cut.parameter = |_, (_, t1)| t1),
        step("cut at x", |r| r.cut.parameter = |cut, _| cut[1]),
        step("negative zero of t lost", |r| {
            r.cut.parameter = |cut, _| cut[0] + 0.0
        }),
        step("the old end left", |r| {
            r.cut.ends = |(a, b), new| [(a, b), (new, b)]
        }),
        step("the new edge from the old front", |r| {
            r.cut.ends = |(a, b), new| [(a, new), (a, b)]
        }),
        step("the new edge reversed", |r| {
            r.cut.ends = |(a, b), new| [(a, new), (b, new)]
        }),
        step("ends exchanged", |r| {
            r.cut.ends = |(a, b), new| [(new, b), (a, new)]
        }),
        step("the new edge ends where the old began", |r| {
            r.cut.ends = |(a, _), new| [(a, new), (new, a)]
        }),
    ]
}

/// Pieces with a wrong preparation.
pub fn wrong_preparations() -> Vec<Mutant> {
    vec![
        step("the second piece square", |r| {
            r.cut.preparations = |old| [old, Square]
        }),
        step("the first piece square", |r| {
            r.cut.preparations = |old| [Square, old]
        }),
        step("a double bevel gives single ones", |r| {
            r.cut.preparations = |old| match old {
                DoubleBevel => [SingleBevel; 2],
                _ => [old; 2],
            }
        }),
        step("a single bevel gives double ones", |r| {
            r.cut.preparations = |old| match old {
                SingleBevel => [DoubleBevel; 2],
                _ => [old; 2],
            }
        }),
        after(
            "the first edge's for the new one",
            |answer, before, call| put_over_new(answer, before, call, [PREPARATION, PREPARATION]),
        ),
        after("edges that are not cut square", |answer, before, call| {
            let edges = if answer == 0 { before.tables.edges } else { 0 };
            let rows = call.pass.edge_numbers.chunks_mut(EDGE_NUMBERS);
            for (number, row) in rows.take(edges).enumerate() {
                if number != call.edge as usize {
                    row[PREPARATION] = 0;
                }
            }
            answer
        }),
    ]
}

/// New vertices that are wrong.
pub fn wrong_points() -> Vec<Mutant> {
    vec![
        step("x and y exchanged", |r| {
            r.cut.vertex = |[_, x, y, z], _| Vertex::Given(y, x, z)
        }),
        step("y and z exchanged", |r| {
            r.cut.vertex = |[_, x, y, z], _| Vertex::Given(x, z, y)
        }),
        step("t for x", |r| {
            r.cut.vertex = |[t, x, y, _], _| Vertex::Given(t, x, y)
        }),
        step("z left out", |r| {
            r.cut.vertex = |[_, x, y, _], _| Vertex::Given(x, y, 0.0)
        }),
        step("negative zero of x lost", |r| {
            r.cut.vertex = |[_, x, y, z], _| Vertex::Given(x + 0.0, y, z)
        }),
        step("pending in place of given", |r| {
            r.cut.vertex = |[t, ..], curve| Vertex::Pending(curve, t)
        }),
        after("the point not written", |answer, before, call| {
            if (answer, call.cut_count) == (0, 1) {
                let row = before.tables.vertices * VERTEX_FLOATS;
                let old = &before.tables.vertex_floats[row..row + 3];
                call.pass.vertex_floats[row..row + 3].copy_from_slice(old);
            }
            answer
        }),
        after(
            "the kind of the vertex not written",
            |answer, before, call| {
                if (answer, call.cut_count) == (0, 1) {
                    let cell = before.tables.vertices * VERTEX_NUMBERS;
                    call.pass.vertex_numbers[cell] = before.tables.vertex_numbers[cell];
                }
                answer
            },
        ),
    ]
}

/// Wires that are mended wrongly.
pub fn wrong_mending() -> Vec<Mutant> {
    vec![
        step("a reversed use before the new one", |r| {
            r.cut.mend = |used, new| [used, 2 * new + used % 2]
        }),
        step("the new use always first", |r| {
            r.cut.mend = |used, new| [2 * new + used % 2, used]
        }),
        step("the new use always forward", |r| {
            r.cut.mend = |used, new| [[used, 2 * new], [2 * new, used]][used as usize % 2]
        }),
        step("the new edge twice", |r| {
            r.cut.mend = |used, new| [2 * new + used % 2; 2]
        }),
        step("the old edge twice", |r| r.cut.mend = |used, _| [used; 2]),
        step("only the first use of a wire mended", |r| {
            r.cut.mends = |_, mended| mended == 0
        }),
        step("only two uses of a wire mended", |r| {
            r.cut.mends = |_, mended| mended < 2
        }),
        step("only the first wire mended", |r| {
            r.cut.mends = |wire, _| wire == 0
        }),
        step("the first wire not mended", |r| {
            r.cut.mends = |wire, _| wire != 0
        }),
        step("no wire mended", |r| r.cut.mends = |_, _| false),
    ]
}

/// Cuts that go wrong at 65 uses alone, the first that need large arrays.
fn wrong_at_65() -> Vec<Mutant> {
    vec![after(
        "the last of 65 uses turned",
        |answer, before, call| {
            let uses = before.lengths.iter().take(before.wires);
            if answer == 0 && uses.sum::<u32>() == 65 {
                call.pass.uses[call.pass.out[2] - 1] ^= 1;
            }
            answer
        },
    )]
}

/// Counts of cuts that are taken wrongly.
pub fn wrong_counts() -> Vec<Mutant> {
    vec![
        step("14 for one cut", |r| r.cut.too_many = |cuts| cuts > 0),
        step("14 for no cut", |r| r.cut.too_many = |cuts| cuts != 1),
        step("the first of several cuts is made", |r| {
            r.cut.too_many = |_| false
        }),
        step("two cuts pass", |r| r.cut.too_many = |cuts| cuts > 2),
        step("rows of cuts wrap", |r| {
            r.cut.causes = |cuts, count, range| match count.wrapping_mul(4) > cuts.len() {
                true => vec![1],
                false => causes(cuts, count.min(cuts.len() / 4), range),
            }
        }),
        step("a float too few passes", |r| {
            r.cut.causes = |cuts, count, range| match count.checked_mul(4) {
                Some(cells) if cells == cuts.len() + 1 => vec![],
                _ => causes(cuts, count, range),
            }
        }),
    ]
}

/// Refusals in the wrong order.
pub fn wrong_cut_order() -> Vec<Mutant> {
    vec![
        after("6 before 14", |answer, before, call| match answer {
            14 if !have_one_more(before, call) => 6,
            _ => answer,
        }),
        after("6 before 5", |answer, before, call| match answer {
            5 if !have_one_more(before, call) => 6,
            _ => answer,
        }),
        step("14 before 5", |r| {
            r.cut.causes = |cuts, count, range| {
                let mut found = causes(cuts, count, range);
                found.retain(|&cause| cause != 5 || count < 2);
                found
            }
        }),
        step("14 before 4", |r| {
            r.cut.causes = |cuts, count, range| {
                let mut found = causes(cuts, count, range);
                found.retain(|&cause| cause < 4 || count < 2);
                found
            }
        }),
        after("14 before 3", |answer, _, call| match answer {
            3 if call.cut_count > 1 => 14,
            _ => answer,
        }),
    ]
}

/// Whether the tables have room for one vertex and one edge more.
fn have_one_more(before: &Lent, call: &Cut) -> bool {
    let [vertices, edges] = [before.tables.vertices + 1, before.tables.edges + 1];
    vertices <= 4096 && edges <= 4096 && have_room(&call.pass.rows(), vertices, edges)
}

/// Calls without a cut that go wrong.
pub fn wrong_without_cut() -> Vec<Mutant> {
    vec![
        step("without a cut the edge is not looked at", |r| {
            r.cut.causes = |cuts, count, range| match count {
                0 => vec![],
                _ => causes(cuts, count, range),
            }
        }),
        after("without a cut nothing is looked at", |answer, _, call| {
            answer * i32::from(call.cut_count > 0)
        }),
        after("without a cut no counts", |answer, _, call| {
            if (answer, call.cut_count) == (0, 0) {
                call.pass.out.fill(0);
            }
            answer
        }),
        after(
            "without a cut room is asked for",
            |answer, before, call| match (answer, call.cut_count) {
                (0, 0) if !have_one_more(before, call) => 6,
                _ => answer,
            },
        ),
        after("without a cut a vertex is counted", |answer, _, call| {
            if (answer, call.cut_count) == (0, 0) {
                call.pass.out[0] += 1;
            }
            answer
        }),
    ]
}

/// The cells of cuts, each float changed.
fn changed(cuts: &[u64], change: impl Fn(usize, f64) -> f64) -> Vec<u64> {
    let cells = cuts.iter().enumerate();
    let other = |(place, &bits): (usize, &u64)| change(place % 4, f64::from_bits(bits)).to_bits();
    cells.map(other).collect()
}

/// Parameters that are held against the wrong range.
pub fn wrong_ranges() -> Vec<Mutant> {
    vec![
        step("a cut at t0 is refused", |r| {
            r.cut.causes = |cuts, count, range| {
                let narrow = range.map(|(t0, t1)| (t0.next_up(), t1));
                causes(cuts, count, narrow)
            }
        }),
        step("a cut at t1 is refused", |r| {
            r.cut.causes = |cuts, count, range| {
                let narrow = range.map(|(t0, t1)| (t0, t1.next_down()));
                causes(cuts, count, narrow)
            }
        }),
        step("cuts outside pass", |r| {
            r.cut.causes = |cuts, count, range| {
                let wide = range.map(|_| (f64::NEG_INFINITY, f64::INFINITY));
                causes(cuts, count, wide)
            }
        }),
        step("cuts above t1 pass", |r| {
            r.cut.causes = |cuts, count, range| {
                let wide = range.map(|(t0, _)| (t0, f64::INFINITY));
                causes(cuts, count, wide)
            }
        }),
        after("the range of the first edge", |answer, before, call| {
            let t = || f64::from_bits(call.cuts[0]);
            let within = || {
                let (t0, t1) = before.tables.edge(0).curve.range();
                t0 <= t() && t() <= t1
            };
            match (answer, call.cut_count) {
                (5, 1) if within() => 0,
                _ => answer,
            }
        }),
    ]
}

/// Floats of cuts that are looked at wrongly.
pub fn wrong_cells() -> Vec<Mutant> {
    vec![
        step("only the parameter is looked at", |r| {
            r.cut.causes = |cuts, count, range| {
                let seen = |cell, float| if cell == 0 { float } else { 0.0 };
                causes(&changed(cuts, seen), count, range)
            }
        }),
        step("z is not looked at", |r| {
            r.cut.causes = |cuts, count, range| {
                let seen = |cell, float| if cell < 3 { float } else { 0.0 };
                causes(&changed(cuts, seen), count, range)
            }
        }),
        step("1.0e15 is too large", |r| {
            r.cut.causes = |cuts, count, range| {
                let large = |_, float: f64| if float == 1.0e15 { 2.0e15 } else { float };
                causes(&changed(cuts, large), count, range)
            }
        }),
        step("NaN for t earns 5", |r| {
            r.cut.causes = |cuts, count, range| {
                let nan = |cell, float: f64| match cell == 0 && float.is_nan() {
                    true => 1.0e15,
                    false => float,
                };
                causes(&changed(cuts, nan), count, range)
            }
        }),
    ]
}

/// Rows of cuts that are looked at wrongly, and a wrong number.
pub fn wrong_cut_rows() -> Vec<Mutant> {
    vec![
        step("cuts past the count are looked at", |r| {
            r.cut.causes = |cuts, count, range| causes(cuts, count.max(cuts.len() / 4), range)
        }),
        step("only the first cut is looked at", |r| {
            r.cut.causes = |cuts, count, range| match cuts.len() / 4 < count {
                true => vec![1],
                false => causes(cuts, count.min(1), range),
            }
        }),
        step("a bad edge earns 2", |r| {
            r.cut.causes = |cuts, count, range| {
                let other = |cause| if cause == 3 { 2 } else { cause };
                causes(cuts, count, range).into_iter().map(other).collect()
            }
        }),
    ]
}

/// Bounds and room that are wrong.
pub fn wrong_cut_bounds() -> Vec<Mutant> {
    vec![
        step("no bound on vertices out", |r| {
            r.cut.fits = |call, [vertices, edges, uses]| {
                fits(call, [vertices.min(4096), edges, uses])
                    && have_room(&call.rows(), vertices, edges)
            }
        }),
        step("no bound on edges out", |r| {
            r.cut.fits = |call, [vertices, edges, uses]| {
                fits(call, [vertices, edges.min(4096), uses])
                    && have_room(&call.rows(), vertices, edges)
            }
        }),
        step("no bound on uses out", |r| {
            r.cut.fits = |call, [vertices, edges, uses]| {
                fits(call, [vertices, edges, uses.min(1024)]) && call.uses.len() >= uses
            }
        }),
        step("4096 vertices out are too many", |r| {
            r.cut.fits = |call, counts| fits(call, counts) && counts[0] < 4096
        }),
        step("4096 edges out are too many", |r| {
            r.cut.fits = |call, counts| fits(call, counts) && counts[1] < 4096
        }),
        step("1024 uses out are too many", |r| {
            r.cut.fits = |call, counts| fits(call, counts) && counts[2] < 1024
        }),
        step("a spare vertex row is asked for", |r| {
            r.cut.fits = |call, counts| {
                fits(call, counts) && counts[0] * VERTEX_FLOATS < call.vertex_floats.len()
            }
        }),
        step("a spare use is asked for", |r| {
            r.cut.fits = |call, counts| fits(call, counts) && counts[2] < call.uses.len()
        }),
    ]
}

/// Writing where nothing may be written, and calls that are not read.
pub fn wrong_cut_writes() -> Vec<Mutant> {
    vec![
        after("the old end written before 6", |answer, before, call| {
            if answer == 6 {
                let cell = call.edge as usize * EDGE_NUMBERS + 1;
                call.pass.edge_numbers[cell] = before.tables.vertices as u32;
            }
            answer
        }),
        after(
            "the first point written before 14",
            |answer, before, call| {
                if answer == 14 {
                    let row = before.tables.vertices * VERTEX_FLOATS;
                    let cells = call.pass.vertex_floats.iter_mut().skip(row).take(3);
                    cells.zip(&call.cuts[1..]).for_each(|(cell, x)| *cell = *x);
                }
                answer
            },
        ),
        after("counts written on a refusal", |answer, _, call| {
            if answer != 0 {
                call.pass.out.fill(0);
            }
            answer
        }),
        after("every call refused", |_, _, _| 1),
        after("every call done", |_, _, _| 0),
    ]
}

/// Counts and lengths of a result that are wrong.
pub fn wrong_cut_told() -> Vec<Mutant> {
    vec![
        after("vertices counted as before", |answer, before, call| {
            if answer == 0 {
                call.pass.out[0] = before.tables.vertices;
            }
            answer
        }),
        after("edges counted as before", |answer, before, call| {
            if answer == 0 {
                call.pass.out[1] = before.tables.edges;
            }
            answer
        }),
        after("uses counted as one more", |answer, before, call| {
            if answer == 0 {
                let lengths = before.lengths.iter().take(before.wires);
                call.pass.out[2] = lengths.sum::<u32>() as usize + call.cut_count;
            }
            answer
        }),
        after("lengths left as they were", |answer, before, call| {
            call.pass.lengths.copy_from_slice(&before.lengths);
            answer
        }),
    ]
}

/// Cells that are not left alone.
pub fn wrong_cut_ends() -> Vec<Mutant> {
    vec![
        after("uses behind the result cleared", |answer, _, call| {
            if answer == 0 {
                call.pass.uses[call.pass.out[2]..].fill(0);
            }
            answer
        }),
        after("cells behind the point cleared", |answer, before, call| {
            if (answer, call.cut_count) == (0, 1) {
                let row = before.tables.vertices * VERTEX_FLOATS;
                call.pass.vertex_floats[row + 3..row + VERTEX_FLOATS].fill(0);
            }
            answer
        }),
        after("curve kind of the point cleared", |answer, before, call| {
            if (answer, call.cut_count) == (0, 1) {
                call.pass.vertex_numbers[before.tables.vertices * VERTEX_NUMBERS + 1] = 0;
            }
            answer
        }),
        after("uv cells of a new span cleared", |answer, before, call| {
            let row = before.tables.edges;
            if (answer, call.cut_count) == (0, 1)
                && call.pass.edge_numbers[row * EDGE_NUMBERS + 2] == 0
            {
                call.pass.edge_floats[row * EDGE_FLOATS..][..4].fill(0);
            }
            answer
        }),
        after("NaN made quiet past the result", |answer, _, call| {
            for cell in call.pass.vertex_floats.iter_mut().filter(|_| answer == 0) {
                if f64::from_bits(*cell).is_nan() {
                    *cell |= 1 << 51;
                }
            }
            answer
        }),
    ]
}

/// Cells of the new edge that are not written.
pub fn wrong_cut_cells() -> Vec<Mutant> {
    vec![
        after(
            "uv cells of a new seam not written",
            |answer, before, call| {
                if (answer, call.cut_count) == (0, 1) {
                    let cells = before.tables.edges * EDGE_FLOATS;
                    let old = &before.tables.edge_floats[cells..cells + 4];
                    call.pass.edge_floats[cells..cells + 4].copy_from_slice(old);
                }
                answer
            },
        ),
        after("the new edge's kind not written", |answer, before, call| {
            leave_in_new(answer, before, call, 2)
        }),
        after(
            "the new edge's number not written",
            |answer, before, call| leave_in_new(answer, before, call, 3),
        ),
        after(
            "the new edge's preparation not written",
            |answer, before, call| leave_in_new(answer, before, call, PREPARATION),
        ),
    ]
}
