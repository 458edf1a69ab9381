//! Wires that are mended wrongly, and calls without a cut.

use super::after;
use crate::wrong::{step, Mutant};
use oracle::reference::several_cuts::mend;
use oracle::reference::tables::have_room;

/// All lists.
pub fn lists() -> Vec<Vec<Mutant>> {
    vec![
        wrong_chains(),
        wrong_directions(),
        wrong_uses(),
        wrong_without_cut(),
    ]
}

/// Uses that become something else than the chain.
pub fn wrong_chains() -> Vec<Mutant> {
    vec![
        step("the last piece left out of the wires", |r| {
            r.several.mend = |used, pieces| mend(used, &pieces[..pieces.len() - 1])
        }),
        step("only the first two pieces in the wires", |r| {
            r.several.mend = |used, pieces| mend(used, &pieces[..pieces.len().min(2)])
        }),
        step("only the first and the last piece in the wires", |r| {
            r.several.mend = |used, pieces| match pieces {
                [first, .., last] => mend(used, &[*first, *last]),
                _ => mend(used, pieces),
            }
        }),
        step("the old edge for every piece", |r| {
            r.several.mend = |used, pieces| vec![used; pieces.len()]
        }),
        step("the first new edge for every new piece", |r| {
            r.several.mend = |used, pieces| {
                let mut first = pieces.to_vec();
                first
                    .iter_mut()
                    .skip(1)
                    .for_each(|piece| *piece = pieces[1]);
                mend(used, &first)
            }
        }),
        step("new pieces in falling order", |r| {
            r.several.mend = |used, pieces| {
                let mut falling = pieces.to_vec();
                falling[1..].reverse();
                mend(used, &falling)
            }
        }),
        step("the old edge last", |r| {
            r.several.mend = |used, pieces| {
                let mut turned = pieces.to_vec();
                turned.rotate_left(1);
                mend(used, &turned)
            }
        }),
    ]
}

/// Uses whose chain has a wrong direction or order.
pub fn wrong_directions() -> Vec<Mutant> {
    vec![
        step("a reversed use gets the chain in forward order", |r| {
            r.several.mend = |used, pieces| {
                let uses = pieces.iter().map(|piece| 2 * piece + used % 2);
                uses.collect()
            }
        }),
        step("a reversed use gets the chain forward", |r| {
            r.several.mend = |used, pieces| mend(used & !1, pieces)
        }),
        step("a reversed use gets forward pieces backwards", |r| {
            r.several.mend = |used, pieces| {
                let chain = mend(used, pieces).into_iter();
                chain.map(|piece| piece & !1).collect()
            }
        }),
        step("a reversed use keeps its place before the others", |r| {
            r.several.mend = |used, pieces| {
                let mut uses = mend(used, pieces);
                if used % 2 == 1 {
                    uses.rotate_right(1);
                }
                uses
            }
        }),
        step("a forward use gets the chain backwards", |r| {
            r.several.mend = |used, pieces| {
                let chain = mend(used | 1, pieces).into_iter();
                chain.map(|piece| (piece & !1) | (used % 2)).collect()
            }
        }),
        step("every use reversed", |r| {
            r.several.mend = |used, pieces| mend(used ^ 1, pieces)
        }),
        step("new pieces always forward", |r| {
            r.several.mend = |used, pieces| {
                let chain = mend(used, pieces).into_iter();
                chain
                    .map(|piece| match piece / 2 == pieces[0] {
                        true => piece,
                        false => piece & !1,
                    })
                    .collect()
            }
        }),
    ]
}

/// Uses that are not mended.
fn wrong_uses() -> Vec<Mutant> {
    vec![
        step("only the first occurrence of a wire mended", |r| {
            r.several.mends = |_, mended| mended == 0
        }),
        step("only two occurrences of a wire mended", |r| {
            r.several.mends = |_, mended| mended < 2
        }),
        step("only the first wire mended", |r| {
            r.several.mends = |wire, _| wire == 0
        }),
        step("the first wire not mended", |r| {
            r.several.mends = |wire, _| wire != 0
        }),
        step("the second wire not mended", |r| {
            r.several.mends = |wire, _| wire != 1
        }),
        step("no wire mended", |r| r.several.mends = |_, _| false),
    ]
}

/// Calls without a cut that go wrong.
fn wrong_without_cut() -> Vec<Mutant> {
    vec![
        step("without a cut the edge is not looked at", |r| {
            r.several.causes = |cuts, count, range| match count {
                0 => vec![],
                _ => oracle::reference::cut::causes(cuts, count, range),
            }
        }),
        after("without a cut nothing is looked at", |answer, _, call| {
            answer * i32::from(call.cut_count > 0)
        }),
        after("without a cut no counts", |answer, _, call| {
            if (answer, call.cut_count) == (0, 0) {
                call.pass.out.fill(0);
            }
            answer
        }),
        after("without a cut room is asked for", |answer, before, call| {
            let [vertices, edges] = [before.tables.vertices, before.tables.edges];
            let room = || have_room(&call.pass.rows(), vertices + 1, edges + 1);
            match (answer, call.cut_count) {
                (0, 0) if !room() => 6,
                _ => answer,
            }
        }),
        after("no cut earns 6", |answer, _, call| {
            match (answer, call.cut_count) {
                (0, 0) => 6,
                _ => answer,
            }
        }),
        after("no cut earns 17", |answer, _, call| {
            match (answer, call.cut_count) {
                (0, 0) => 17,
                _ => answer,
            }
        }),
        after("without a cut a vertex is counted", |answer, _, call| {
            if (answer, call.cut_count) == (0, 0) {
                call.pass.out[0] += 1;
            }
            answer
        }),
    ]
}
