//! Splits that answer or write wrongly.

use super::after;
use crate::wrong::{step, Mutant};
use oracle::port::Split;
use oracle::records::Preparation::{DoubleBevel, SingleBevel};
use oracle::reference::split::seam;
use oracle::shell::{EDGE_FLOATS, EDGE_NUMBERS, PREPARATION};

/// All lists.
pub fn lists() -> Vec<Vec<Mutant>> {
    vec![
        wrong_tallies(),
        wrong_wires(),
        wrong_refusals(),
        wrong_places(),
        wrong_places_refused(),
        wrong_writes(),
        wrong_writes_of_wires(),
        wrong_cells(),
        wrong_preparations(),
        wrong_behind(),
    ]
}

/// Wires and counts that demand 3 alone finds to be wrong.
pub fn wrong_tallies() -> Vec<Mutant> {
    [wrong_lists_of_wires(), wrong_tallies_told(), wrong_shapes()]
        .into_iter()
        .flatten()
        .collect()
}

/// Wires that are lost or come twice.
fn wrong_lists_of_wires() -> Vec<Mutant> {
    vec![
        after("every call that is walked refused", |answer, kept, call| {
            kept.put_back(call);
            match answer {
                0 => 11,
                _ => answer,
            }
        }),
        step("no wires", |r| r.split.wires = |_| Vec::new()),
        step("the first wire repeated", |r| {
            r.split.wires = |wires| {
                let first = wires.first().cloned().unwrap_or_default();
                vec![first; wires.len()]
            }
        }),
    ]
}

/// Counts and lengths that are wrong.
fn wrong_tallies_told() -> Vec<Mutant> {
    vec![
        after("an invented wire count", |answer, _, call| {
            call.out[0] += usize::from(answer == 0);
            answer
        }),
        after("one wire less told", |answer, _, call| {
            if answer == 0 {
                call.out[0] = call.out[0].saturating_sub(1);
            }
            answer
        }),
        step("the last wire dropped", |r| {
            r.split.wires = |mut wires| {
                wires.pop();
                wires
            }
        }),
    ]
}

/// Uses that are put into wires wrongly.
fn wrong_shapes() -> Vec<Mutant> {
    vec![
        step("all uses in one wire", |r| {
            r.split.wires = |wires| match wires.is_empty() {
                true => wires,
                false => vec![wires.concat()],
            }
        }),
        step("a wire for each use", |r| {
            r.split.wires = |wires| wires.concat().iter().map(|&number| vec![number]).collect()
        }),
        step("each wire backwards", |r| {
            r.split.wires = |mut wires| {
                wires.iter_mut().for_each(|wire| wire.reverse());
                wires
            }
        }),
        after("the length of one wire wrong", |answer, _, call| {
            if let (0, Some(length)) = (answer, call.lengths.first_mut()) {
                *length += u32::from(call.out[0] > 0);
            }
            answer
        }),
        after(
            "a dead end answers no wires",
            |answer, _, call| match answer {
                11 => {
                    call.out.copy_from_slice(&[0, 0, call.edges]);
                    0
                }
                _ => answer,
            },
        ),
    ]
}

/// Wires in a wrong order.
fn wrong_wires() -> Vec<Mutant> {
    vec![
        step("the last wire first", |r| {
            r.split.wires = |mut wires| {
                wires.reverse();
                wires
            }
        }),
        step("the first two wires exchanged", |r| {
            r.split.wires = |mut wires| {
                if wires.len() > 1 {
                    wires.swap(0, 1);
                }
                wires
            }
        }),
        step("each wire turned by one", |r| {
            r.split.wires = |mut wires| {
                wires.iter_mut().for_each(|wire| wire.rotate_left(1));
                wires
            }
        }),
        step("the shortest wire first", |r| {
            r.split.wires = |mut wires| {
                wires.sort_by_key(Vec::len);
                wires
            }
        }),
        step("each wire in the other direction", |r| {
            r.split.wires = |mut wires| {
                for wire in &mut wires {
                    wire.reverse();
                    wire.iter_mut().for_each(|number| *number ^= 1);
                }
                wires
            }
        }),
    ]
}

/// Calls that are refused or done without being looked at.
fn wrong_refusals() -> Vec<Mutant> {
    vec![
        after("every call refused", |_, kept, call| {
            kept.put_back(call);
            1
        }),
        after("every call done", |_, _, _| 0),
        after("every call none", |_, kept, call| {
            kept.put_back(call);
            -1
        }),
        after("none where nothing is built", |answer, kept, call| {
            match answer == 0 && call.out[0] == 0 {
                true => {
                    kept.put_back(call);
                    -1
                }
                false => answer,
            }
        }),
    ]
}

/// Out places that are wrong.
fn wrong_places() -> Vec<Mutant> {
    vec![
        after("edges told without the new ones", |answer, _, call| {
            if answer == 0 {
                call.out[2] = call.edges;
            }
            answer
        }),
        after("only new edges told", |answer, _, call| {
            if answer == 0 {
                call.out[2] -= call.edges;
            }
            answer
        }),
        after("uses told without the seams'", |answer, _, call| {
            if answer == 0 {
                call.out[1] -= 2 * (call.divisor_count / 2);
            }
            answer
        }),
        after("wires and uses exchanged", |answer, _, call| {
            if answer == 0 {
                call.out.swap(0, 1);
            }
            answer
        }),
    ]
}

/// Out places that are written where nothing is answered.
fn wrong_places_refused() -> Vec<Mutant> {
    vec![
        after("places written on a refusal", |answer, _, call| {
            if answer > 0 {
                call.out.fill(0);
            }
            answer
        }),
        after(
            "the count of edges written at a dead end",
            |answer, _, call| {
                if answer == 11 {
                    call.out[2] = call.edges + call.divisor_count / 2;
                }
                answer
            },
        ),
        after(
            "the count of wires written at a crowd",
            |answer, _, call| {
                if answer == 12 {
                    call.out[0] = 0;
                }
                answer
            },
        ),
    ]
}

/// Writes the front and back of the first pair into the first new row.
fn write_first_row(call: &mut Split) {
    if call.divisor_count >= 2 {
        let row = [call.divisor[0], call.divisor[1], 1, call.surface, 0];
        call.edge_numbers[EDGE_NUMBERS * call.edges..][..EDGE_NUMBERS].copy_from_slice(&row);
    }
}

/// Writing where nothing may be written.
fn wrong_writes() -> Vec<Mutant> {
    vec![
        after("seams written before a dead end", |answer, _, call| {
            if answer == 11 {
                write_first_row(call);
            }
            answer
        }),
        after("seams written before a crowd", |answer, _, call| {
            if answer == 12 {
                write_first_row(call);
            }
            answer
        }),
        after("seams written before 10", |answer, _, call| {
            if answer == 10 {
                write_first_row(call);
            }
            answer
        }),
        after(
            "a float of a seam written before a dead end",
            |answer, _, call| {
                if answer == 11 && call.divisor_count > 0 {
                    call.edge_floats[EDGE_FLOATS * call.edges + 5] = 1.0f64.to_bits();
                }
                answer
            },
        ),
    ]
}

/// Uses and lengths that are written where nothing is answered.
fn wrong_writes_of_wires() -> Vec<Mutant> {
    vec![
        after("uses written before a dead end", |answer, _, call| {
            if let (11, Some(cell)) = (answer, call.uses.first_mut()) {
                *cell = 0;
            }
            answer
        }),
        after("lengths written before a crowd", |answer, _, call| {
            if let (12, Some(length)) = (answer, call.lengths.first_mut()) {
                *length = 1;
            }
            answer
        }),
        after("uses written before 6", |answer, _, call| {
            if let (6, Some(cell)) = (answer, call.uses.last_mut()) {
                *cell = 0;
            }
            answer
        }),
        after("lengths written before 9", |answer, _, call| {
            if answer == 9 {
                call.lengths.fill(0);
            }
            answer
        }),
    ]
}

/// Cells of the result that are not written.
fn wrong_cells() -> Vec<Mutant> {
    vec![
        after("seams not written", |answer, kept, call| {
            call.edge_numbers.copy_from_slice(&kept.edge_numbers);
            call.edge_floats.copy_from_slice(&kept.edge_floats);
            answer
        }),
        after("floats of seams not written", |answer, kept, call| {
            call.edge_floats.copy_from_slice(&kept.edge_floats);
            answer
        }),
        after("only the first seam written", |answer, kept, call| {
            let row = EDGE_NUMBERS * (call.edges.min(4096) + 1);
            if let (0, Some(cells)) = (answer, kept.edge_numbers.get(row..)) {
                call.edge_numbers[row..].copy_from_slice(cells);
            }
            answer
        }),
        after("lengths not written", |answer, kept, call| {
            call.lengths.copy_from_slice(&kept.lengths);
            answer
        }),
        after("only the first length written", |answer, kept, call| {
            if answer == 0 && call.out[0] > 1 {
                call.lengths[1..].copy_from_slice(&kept.lengths[1..]);
            }
            answer
        }),
        after("the last use not written", |answer, kept, call| {
            if answer == 0 && call.out[1] > 0 {
                let last = call.out[1] - 1;
                call.uses[last] = kept.uses[last];
            }
            answer
        }),
    ]
}

/// The rows of the new edges of a call that is done, and those before them.
fn rows<'a>(answer: i32, call: &'a mut Split) -> [Vec<&'a mut [u32]>; 2] {
    let edges = if answer == 0 { call.out[2] } else { 0 };
    let mut rows = call.edge_numbers.chunks_mut(EDGE_NUMBERS).take(edges);
    let lent = rows.by_ref().take(call.edges).collect();
    [rows.collect(), lent]
}

/// Seams, or edges that are lent, with a wrong preparation.
fn wrong_preparations() -> Vec<Mutant> {
    vec![
        step("a seam a single bevel", |r| {
            r.split.seam = |a, b, surface| seam(a, b, surface).prepared(SingleBevel)
        }),
        step("a seam a double bevel", |r| {
            r.split.seam = |a, b, surface| seam(a, b, surface).prepared(DoubleBevel)
        }),
        after("a seam as an edge beside it", |answer, _, call| {
            let [new, lent] = rows(answer, call);
            for seam in new {
                let beside = |row: &&&mut [u32]| row[..2].contains(&seam[0]);
                if let Some(edge) = lent.iter().find(beside) {
                    seam[PREPARATION] = edge[PREPARATION];
                }
            }
            answer
        }),
        after("a seam as the last edge", |answer, _, call| {
            let [new, lent] = rows(answer, call);
            for seam in new {
                seam[PREPARATION] = lent.last().map_or(0, |edge| edge[PREPARATION]);
            }
            answer
        }),
        after("a seam's preparation not written", |answer, kept, call| {
            let from = call.edges;
            let old = kept.edge_numbers.chunks(EDGE_NUMBERS).skip(from.min(4096));
            let [new, _] = rows(answer, call);
            for (seam, old) in new.into_iter().zip(old) {
                seam[PREPARATION] = old[PREPARATION];
            }
            answer
        }),
        after("lent edges made square", |answer, _, call| {
            let [_, lent] = rows(answer, call);
            lent.into_iter().for_each(|edge| edge[PREPARATION] = 0);
            answer
        }),
    ]
}

/// Cells behind the result that are not left alone.
fn wrong_behind() -> Vec<Mutant> {
    vec![
        after("uses behind the result cleared", |answer, _, call| {
            if answer == 0 {
                call.uses[call.out[1]..].fill(0);
            }
            answer
        }),
        after("lengths behind the result cleared", |answer, _, call| {
            if answer == 0 {
                call.lengths[call.out[0]..].fill(0);
            }
            answer
        }),
        after("numbers behind the edges cleared", |answer, _, call| {
            if answer == 0 {
                call.edge_numbers[EDGE_NUMBERS * call.out[2]..].fill(0);
            }
            answer
        }),
        after("floats behind the edges cleared", |answer, _, call| {
            if answer == 0 {
                call.edge_floats[EDGE_FLOATS * call.out[2]..].fill(0);
            }
            answer
        }),
        after("a cell beside a span cleared", |answer, _, call| {
            if answer == 0 && call.edges > 0 && call.edge_numbers[2] == 0 {
                call.edge_floats[0] = 0;
            }
            answer
        }),
    ]
}
