//! Cuts that write where they should not, tell wrong counts, or go wrong only
//! at large counts.

use super::{after, made};
use crate::wrong::{step, Mutant};
use oracle::model::MOST_EDGES;
use oracle::port::Cut;
use oracle::shell::{Lent, EDGE_FLOATS, EDGE_NUMBERS, PREPARATION, VERTEX_FLOATS, VERTEX_NUMBERS};

/// All lists.
pub fn lists() -> Vec<Vec<Mutant>> {
    vec![
        wrong_writes(),
        wrong_answers(),
        wrong_told(),
        wrong_ends(),
        wrong_cells(),
        wrong_at_large(),
    ]
}

/// Writing where nothing may be written.
fn wrong_writes() -> Vec<Mutant> {
    vec![
        after("the old end written before 6", |answer, before, call| {
            if answer == 6 {
                let cell = call.edge as usize * EDGE_NUMBERS + 1;
                call.pass.edge_numbers[cell] = before.tables.vertices as u32;
            }
            answer
        }),
        after("points written before 6", |answer, before, call| {
            write_first_point(answer == 6, before, call);
            answer
        }),
        after("points written before 16", |answer, before, call| {
            write_first_point(answer == 16, before, call);
            answer
        }),
        after("points written before 17", |answer, before, call| {
            write_first_point(answer == 17, before, call);
            answer
        }),
        after("wires mended before 6", |answer, _, call| {
            if let (6, Some(first)) = (answer, call.pass.lengths.first_mut()) {
                *first += 1;
            }
            answer
        }),
        after("uses moved before 17", |answer, _, call| {
            if answer == 17 {
                call.pass.uses.reverse();
            }
            answer
        }),
        after("counts written on a refusal", |answer, _, call| {
            if answer != 0 {
                call.pass.out.fill(0);
            }
            answer
        }),
        after(
            "the new count of vertices told with 6",
            |answer, before, call| {
                if answer == 6 {
                    call.pass.out[0] = before.tables.vertices + call.cut_count;
                }
                answer
            },
        ),
    ]
}

/// Writes the point of the first cut behind the vertices, as far as there are
/// cells.
fn write_first_point(is_written: bool, before: &Lent, call: &mut Cut) {
    if is_written {
        let row = before.tables.vertices * VERTEX_FLOATS;
        let cells = call.pass.vertex_floats.iter_mut().skip(row).take(3);
        cells
            .zip(&call.cuts[1..])
            .for_each(|(cell, point)| *cell = *point);
    }
}

/// Calls that are not read.
fn wrong_answers() -> Vec<Mutant> {
    vec![
        after("every call refused", |_, _, _| 1),
        after("every call done", |_, _, _| 0),
        after("a result told as none", |answer, _, _| match answer {
            0 => -1,
            _ => answer,
        }),
        after("nothing done and no number", |answer, before, call| {
            if answer == 0 {
                let Lent { tables, .. } = before;
                call.pass
                    .vertex_numbers
                    .copy_from_slice(&tables.vertex_numbers);
                call.pass
                    .vertex_floats
                    .copy_from_slice(&tables.vertex_floats);
                call.pass.edge_numbers.copy_from_slice(&tables.edge_numbers);
                call.pass.edge_floats.copy_from_slice(&tables.edge_floats);
                call.pass.uses.copy_from_slice(&before.uses);
                call.pass.lengths.copy_from_slice(&before.lengths);
            }
            answer
        }),
    ]
}

/// Counts and lengths of a result that are wrong.
fn wrong_told() -> Vec<Mutant> {
    vec![
        after("vertices counted as before", |answer, before, call| {
            if answer == 0 {
                call.pass.out[0] = before.tables.vertices;
            }
            answer
        }),
        after("edges counted as before", |answer, before, call| {
            if answer == 0 {
                call.pass.out[1] = before.tables.edges;
            }
            answer
        }),
        after("uses counted as before", |answer, before, call| {
            if answer == 0 {
                call.pass.out[2] = uses_of(before);
            }
            answer
        }),
        after(
            "uses counted as one more for each cut",
            |answer, before, call| {
                if answer == 0 {
                    call.pass.out[2] = uses_of(before) + call.cut_count;
                }
                answer
            },
        ),
        after("one vertex counted more", |answer, before, call| {
            if made(answer, call) > 0 {
                call.pass.out[0] = before.tables.vertices + 1;
            }
            answer
        }),
        after("lengths left as they were", |answer, before, call| {
            call.pass.lengths.copy_from_slice(&before.lengths);
            answer
        }),
    ]
}

/// The sum of the lengths.
fn uses_of(before: &Lent) -> usize {
    let lengths = before.lengths.iter().take(before.wires);
    lengths.sum::<u32>() as usize
}

/// Cells that are not left alone.
fn wrong_ends() -> Vec<Mutant> {
    vec![
        after("uses behind the result cleared", |answer, _, call| {
            if answer == 0 {
                call.pass.uses[call.pass.out[2]..].fill(0);
            }
            answer
        }),
        after("cells behind the points cleared", |answer, before, call| {
            let cuts = made(answer, call);
            let rows = call.pass.vertex_floats.chunks_mut(VERTEX_FLOATS);
            let rows = rows.skip(before.tables.vertices);
            rows.take(cuts).for_each(|row| row[3..].fill(0));
            answer
        }),
        after(
            "curve kinds of the points cleared",
            |answer, before, call| {
                let cuts = made(answer, call);
                let rows = call.pass.vertex_numbers.chunks_mut(VERTEX_NUMBERS);
                let rows = rows.skip(before.tables.vertices);
                rows.take(cuts).for_each(|row| row[1] = 0);
                answer
            },
        ),
        after("uv cells of new spans cleared", |answer, before, call| {
            let cuts = made(answer, call);
            let numbers = call.pass.edge_numbers.chunks(EDGE_NUMBERS);
            let floats = call.pass.edge_floats.chunks_mut(EDGE_FLOATS);
            let rows = numbers.zip(floats).skip(before.tables.edges);
            for (numbers, floats) in rows.take(cuts) {
                if numbers[2] == 0 {
                    floats[..4].fill(0);
                }
            }
            answer
        }),
        after("NaN made quiet past the result", |answer, _, call| {
            for cell in call.pass.vertex_floats.iter_mut().filter(|_| answer == 0) {
                if f64::from_bits(*cell).is_nan() {
                    *cell |= 1 << 51;
                }
            }
            answer
        }),
    ]
}

/// A number of the last new edge is what its cell held before.
fn leave_in_last(answer: i32, before: &Lent, call: &mut Cut, number: usize) -> i32 {
    if made(answer, call) > 0 {
        let cell = (call.pass.out[1] - 1) * EDGE_NUMBERS + number;
        call.pass.edge_numbers[cell] = before.tables.edge_numbers[cell];
    }
    answer
}

/// Cells of the last new rows that are not written.
fn wrong_cells() -> Vec<Mutant> {
    vec![
        after(
            "uv cells of the last seam not written",
            |answer, before, call| {
                if made(answer, call) > 0 {
                    let cells = (call.pass.out[1] - 1) * EDGE_FLOATS;
                    let old = &before.tables.edge_floats[cells..cells + 4];
                    call.pass.edge_floats[cells..cells + 4].copy_from_slice(old);
                }
                answer
            },
        ),
        after(
            "the last edge's kind not written",
            |answer, before, call| leave_in_last(answer, before, call, 2),
        ),
        after(
            "the last edge's number not written",
            |answer, before, call| leave_in_last(answer, before, call, 3),
        ),
        after(
            "the last preparation not written",
            |answer, before, call| leave_in_last(answer, before, call, PREPARATION),
        ),
        after(
            "the last vertex's kind not written",
            |answer, before, call| {
                if made(answer, call) > 0 {
                    let cell = (call.pass.out[0] - 1) * VERTEX_NUMBERS;
                    call.pass.vertex_numbers[cell] = before.tables.vertex_numbers[cell];
                }
                answer
            },
        ),
    ]
}

/// Cuts that go wrong at large counts alone.
fn wrong_at_large() -> Vec<Mutant> {
    vec![
        after("the last of 65 uses turned", |answer, before, call| {
            if answer == 0 && uses_of(before) == 65 {
                call.pass.uses[call.pass.out[2] - 1] ^= 1;
            }
            answer
        }),
        after("the last of 65 uses out turned", |answer, _, call| {
            if answer == 0 && call.pass.out[2] == 65 {
                call.pass.uses[64] ^= 1;
            }
            answer
        }),
        after(
            "the preparation of 65 edges lost",
            |answer, before, call| {
                let edges = before.tables.edges.min(MOST_EDGES);
                if made(answer, call) > 0 && edges == 65 {
                    call.pass.edge_numbers[edges * EDGE_NUMBERS + PREPARATION] = 0;
                }
                answer
            },
        ),
        step("the 64th cut left out", |r| {
            r.several.made = |cuts| cuts.iter().take(63).copied().collect()
        }),
        step("only 32 cuts made", |r| {
            r.several.made = |cuts| cuts.iter().take(32).copied().collect()
        }),
        step("only 64 occurrences of a wire mended", |r| {
            r.several.mends = |_, mended| mended < 64
        }),
    ]
}
