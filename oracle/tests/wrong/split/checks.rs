//! Splits whose causes, order of causes or room are wrong.

use super::after;
use crate::wrong::{step, Mutant};
use oracle::port::{Port, Split, Wires};
use oracle::reference::split::fits;
use oracle::reference::tables::{edge_rows, have_room, sized, split_causes, use_causes};
use oracle::reference::Reference;
use oracle::shell::{EDGE_FLOATS, EDGE_NUMBERS};

/// All lists.
pub fn lists() -> Vec<Vec<Mutant>> {
    vec![
        wrong_order(),
        wrong_order_of_others(),
        wrong_room(),
        wrong_spare(),
        wrong_bounds_out(),
        wrong_bounds(),
        wrong_bounds_of_uses(),
        wrong_counts(),
        wrong_wrapping(),
        wrong_numbers(),
        wrong_uses(),
        wrong_sight(),
        wrong_sight_of_buffers(),
        wrong_rows(),
        wrong_kinds(),
        wrong_choice(),
    ]
}

/// 6, 9 and 10 in a wrong order.
fn wrong_order() -> Vec<Mutant> {
    /// The first number whose cause holds, in this order.
    fn first(order: [i32; 3], [room, odd, repeated]: [bool; 3]) -> Option<i32> {
        let holds = |number: &i32| match number {
            6 => room,
            9 => odd,
            _ => repeated,
        };
        order.into_iter().find(holds)
    }
    vec![
        step("6 after 9", |r| {
            r.split.late = |holds| first([9, 6, 10], holds)
        }),
        step("6 after 10", |r| {
            r.split.late = |holds| first([9, 10, 6], holds)
        }),
        step("9 after 10", |r| {
            r.split.late = |holds| first([6, 10, 9], holds)
        }),
        step("10 before 6", |r| {
            r.split.late = |holds| first([10, 6, 9], holds)
        }),
        step("9 for a vertex twice", |r| {
            r.split.late = |holds| first([6, 9, 10], holds).map(|number| number.min(9))
        }),
    ]
}

/// Other causes in a wrong order.
fn wrong_order_of_others() -> Vec<Mutant> {
    vec![
        after("6 before 5", |answer, kept, call| {
            match answer == 5
                && kept.uses.len() < call.rebuilt.lengths.iter().take(1).sum::<u32>() as usize
            {
                true => 6,
                false => answer,
            }
        }),
        after("a dead end before 10", |answer, _, call| {
            let one = call.rebuilt.wires == 1 && call.rebuilt.lengths.first() == Some(&1);
            match answer {
                10 if one => 11,
                _ => answer,
            }
        }),
    ]
}

/// Makes the call again with ample room for lengths; the wires that come of
/// it are told if their lengths have room.
fn by_wires(call: &mut Split) -> i32 {
    let mut lengths = vec![0; 2048];
    let mut again = call.again();
    let room = std::mem::replace(&mut again.lengths, &mut lengths).len();
    let answer = Reference::default().split_boundaries_by_divisor(again);
    let wires = call.out[0];
    if answer == 0 && wires <= room {
        call.lengths[..wires].copy_from_slice(&lengths[..wires]);
    }
    match answer == 0 && wires > room {
        true => 6,
        false => answer,
    }
}

/// Room in the lent buffers that is asked for wrongly.
fn wrong_room() -> Vec<Mutant> {
    vec![
        after("6 by the count of wires", |answer, _, call| match answer {
            6 => by_wires(call),
            _ => answer,
        }),
        step("room for uses not looked at", |r| {
            r.split.fits =
                |call, uses, edges| uses <= 1024 && fits(call, uses.min(call.uses.len()), edges)
        }),
        step("room for lengths not looked at", |r| {
            r.split.fits = |call, uses, edges| {
                uses <= call.uses.len()
                    && uses <= 1024
                    && fits(call, uses.min(call.lengths.len()), edges)
            }
        }),
        step("room for edge numbers not looked at", |r| {
            r.split.fits = |call, uses, edges| {
                let rows = call.edge_numbers.len() / EDGE_NUMBERS;
                edges <= 4096
                    && edges <= call.edge_floats.len() / EDGE_FLOATS
                    && fits(call, uses, edges.min(rows))
            }
        }),
        step("room for edge floats not looked at", |r| {
            r.split.fits = |call, uses, edges| {
                let rows = call.edge_floats.len() / EDGE_FLOATS;
                edges <= 4096
                    && edges <= call.edge_numbers.len() / EDGE_NUMBERS
                    && fits(call, uses, edges.min(rows))
            }
        }),
    ]
}

/// Room that is asked for and not needed.
fn wrong_spare() -> Vec<Mutant> {
    vec![
        step("a spare use is asked for", |r| {
            r.split.fits = |call, uses, edges| uses < call.uses.len() && fits(call, uses, edges)
        }),
        step("a spare length is asked for", |r| {
            r.split.fits = |call, uses, edges| uses < call.lengths.len() && fits(call, uses, edges)
        }),
        step("a spare row is asked for", |r| {
            r.split.fits =
                |call, uses, edges| have_room(&call.rows(), 0, edges + 1) && fits(call, uses, edges)
        }),
    ]
}

/// What a result counts, or its bounds, taken wrongly.
fn wrong_bounds_out() -> Vec<Mutant> {
    vec![
        step("1024 uses out are too many", |r| {
            r.split.fits = |call, uses, edges| uses < 1024 && fits(call, uses, edges)
        }),
        step("no bound on uses out", |r| {
            r.split.fits = |call, uses, edges| {
                uses <= call.uses.len()
                    && uses <= call.lengths.len()
                    && fits(call, uses.min(1024), edges)
            }
        }),
        step("4096 edges out are too many", |r| {
            r.split.fits = |call, uses, edges| edges < 4096 && fits(call, uses, edges)
        }),
        step("no bound on edges out", |r| {
            r.split.fits = |call, uses, edges| {
                have_room(&call.rows(), 0, edges) && fits(call, uses, edges.min(4096))
            }
        }),
        step("an odd last one needs room for uses", |r| {
            r.split.fits =
                |call, uses, edges| fits(call, uses + 2 * (call.divisor_count % 2), edges)
        }),
        step("an odd last one needs room for an edge", |r| {
            r.split.fits = |call, uses, edges| fits(call, uses, edges + call.divisor_count % 2)
        }),
        step("one use for each pair", |r| {
            r.split.fits = |call, uses, edges| fits(call, uses - call.divisor_count / 2, edges)
        }),
        step("no use for a pair", |r| {
            r.split.fits = |call, uses, edges| fits(call, uses - call.divisor_count / 2 * 2, edges)
        }),
    ]
}

/// Whether a set of wires is within what was lent.
fn set_lent(wires: &Wires) -> bool {
    let lengths = wires.lengths.iter().take(wires.wires);
    let sum: u64 = lengths.map(|&length| u64::from(length)).sum();
    wires.wires <= wires.lengths.len() && sum <= wires.uses.len() as u64 && sum < 2048
}

/// Whether all counts are within what was lent.
fn lent_in_full(call: &Split) -> bool {
    set_lent(&call.face)
        && set_lent(&call.rebuilt)
        && call.divisor_count <= call.divisor.len()
        && call.divisor_count <= call.points.len() / 2
        && call.edges <= 4096
        && have_room(&call.rows(), 0, call.edges)
}

/// The causes of a split without one cause 1, where this holds and all counts
/// are within what was lent.
fn without_1(call: &Split, passes: bool) -> Vec<i32> {
    let mut found = split_causes(call);
    let place = found.iter().position(|&cause| cause == 1);
    if let (true, Some(place)) = (passes && lent_in_full(call), place) {
        found.remove(place);
    }
    found
}

/// The sum of the lengths of a set that is within what was lent.
fn sum(wires: &Wires) -> usize {
    let lengths = wires.lengths.iter().take(wires.wires);
    lengths.map(|&length| length as usize).sum()
}

/// Bounds on wires and uses that are wrong.
fn wrong_bounds() -> Vec<Mutant> {
    vec![
        step("64 wires are too many", |r| {
            r.tables.split_causes = |call| match call.face.wires.checked_add(call.rebuilt.wires) {
                Some(64) => vec![1],
                _ => split_causes(call),
            }
        }),
        step("65 wires pass", |r| {
            r.tables.split_causes = |call| {
                let wires = call.face.wires.checked_add(call.rebuilt.wires);
                let each = call.face.wires.max(call.rebuilt.wires) <= 64;
                without_1(call, wires == Some(65) && each)
            }
        }),
        step("each set bounded by itself", |r| {
            r.tables.split_causes = |call| {
                let wires = call.face.wires.max(call.rebuilt.wires);
                without_1(
                    call,
                    wires <= 64 && sum(&call.face).max(sum(&call.rebuilt)) <= 1024,
                )
            }
        }),
    ]
}

/// Bounds on uses and on lists that are wrong.
fn wrong_bounds_of_uses() -> Vec<Mutant> {
    vec![
        step("1024 uses are too many", |r| {
            r.tables.split_causes = |call| match lent_in_full(call) {
                true if sum(&call.face) + sum(&call.rebuilt) == 1024 => vec![1],
                _ => split_causes(call),
            }
        }),
        step("1025 uses pass", |r| {
            r.tables.split_causes = |call| {
                let uses = lent_in_full(call).then(|| [sum(&call.face), sum(&call.rebuilt)]);
                let passes = uses.is_some_and(|[face, rebuilt]| {
                    face + rebuilt == 1025 && face.max(rebuilt) <= 1024
                });
                without_1(call, passes)
            }
        }),
        after(
            "more than 64 wires out refused",
            |answer, kept, call| match answer == 0 && call.out[0] > 64 {
                true => {
                    kept.put_back(call);
                    6
                }
                false => answer,
            },
        ),
        after("a list is bounded by 1024", |answer, _, call| {
            match call.divisor_count {
                1025.. => answer.min(1),
                _ => answer,
            }
        }),
    ]
}

/// Counts that are looked at wrongly.
fn wrong_counts() -> Vec<Mutant> {
    vec![
        after("4097 vertices pass", |answer, _, call| {
            match (answer, call.vertices) {
                (1, 4097) => 6,
                _ => answer,
            }
        }),
        step("4096 vertices are too many", |r| {
            r.tables.split_causes = |call| match call.vertices {
                4096 => vec![1],
                _ => split_causes(call),
            }
        }),
        after("lengths wrap in 32 bits", |answer, _, call| {
            let lent = call.rebuilt.lengths.iter().take(call.rebuilt.wires);
            let wrapped = lent.fold(0, |a: u32, b| a.wrapping_add(*b));
            match (answer, call.rebuilt.wires, wrapped) {
                (1, 2, 0) if call.rebuilt.lengths.first() > Some(&0) => 0,
                _ => answer,
            }
        }),
    ]
}

/// Counts that wrap, or that are taken one too low.
fn wrong_wrapping() -> Vec<Mutant> {
    vec![
        after("wire counts wrap", |answer, _, call| {
            let wires = call.face.wires.wrapping_add(call.rebuilt.wires);
            match (answer, wires) {
                (1, 0) if call.face.wires > 0 => 0,
                _ => answer,
            }
        }),
        after("floats of points wrap", |answer, _, call| {
            match (answer, call.divisor_count.wrapping_mul(2)) {
                (1, 0..=8) if call.divisor_count > 4 => 6,
                _ => answer,
            }
        }),
        after("one float too few passes", |answer, _, call| {
            let one =
                call.divisor_count > 0 && call.points.len() + 1 == 2 * call.divisor_count.min(99);
            match answer {
                1 if one && call.divisor_count <= call.divisor.len() => 4,
                _ => answer,
            }
        }),
    ]
}

/// Vertices and uses that are looked at wrongly.
fn wrong_numbers() -> Vec<Mutant> {
    vec![
        after("vertices of the list not looked at", |answer, _, call| {
            let rows = call.edge_numbers.chunks_exact(EDGE_NUMBERS);
            let ends = rows.take(call.edges).flat_map(|row| [row[0], row[1]]);
            let known = ends
                .max()
                .is_none_or(|most| (most as usize) < call.vertices);
            match answer {
                2 if known => 11,
                _ => answer,
            }
        }),
        step("the odd last vertex not looked at", |r| {
            r.tables.split_causes = |call| {
                let mut found = split_causes(call);
                let beyond = |vertex: &u32| *vertex as usize >= call.vertices;
                if call.divisor_count % 2 == 1 && !found.contains(&1) {
                    let pairs = &call.divisor[..call.divisor_count - 1];
                    let place = found.iter().rposition(|&cause| cause == 2);
                    if let (false, Some(place)) = (pairs.iter().any(beyond), place) {
                        found.remove(place);
                    }
                }
                found
            }
        }),
    ]
}

/// Uses that are not looked at.
fn wrong_uses() -> Vec<Mutant> {
    vec![
        after("face uses not looked at", |answer, _, call| match answer {
            3 if use_causes(call.rebuilt.uses, call.edges).is_none() => 11,
            _ => answer,
        }),
        after(
            "rebuilt uses not looked at",
            |answer, _, call| match answer {
                3 if use_causes(call.face.uses, call.edges).is_none() => 11,
                _ => answer,
            },
        ),
        after("uses of new edges pass", |answer, _, call| {
            let most = call.rebuilt.uses.iter().chain(call.face.uses).max();
            let new = call.edges.min(4096) + call.divisor_count.min(4096) / 2;
            match (answer, most) {
                (3, Some(&most)) if (most as usize / 2) < new => 11,
                _ => answer,
            }
        }),
    ]
}

/// The causes, and one more where such a cell is there.
fn and(call: &Split, number: i32, there: bool) -> Vec<i32> {
    let mut found = split_causes(call);
    found.extend(there.then_some(number));
    found
}

/// Cells that are no input and are looked at.
fn wrong_sight() -> Vec<Mutant> {
    vec![
        step("uses behind the wires are looked at", |r| {
            r.tables.split_causes =
                |call| and(call, 3, use_causes(call.rebuilt.uses, call.edges).is_some())
        }),
        step("face uses behind the wires are looked at", |r| {
            r.tables.split_causes =
                |call| and(call, 3, use_causes(call.face.uses, call.edges).is_some())
        }),
        step("vertices behind the list are looked at", |r| {
            r.tables.split_causes = |call| {
                let beyond = |&vertex: &u32| vertex as usize >= call.vertices;
                and(call, 2, call.divisor.iter().any(beyond))
            }
        }),
        step("floats behind the points are looked at", |r| {
            r.tables.split_causes = |call| {
                let unfit = |&bits: &u64| f64::from_bits(bits).is_nan();
                and(call, 4, call.points.iter().any(unfit))
            }
        }),
    ]
}

/// Cells of the buffers for the result that are looked at.
fn wrong_sight_of_buffers() -> Vec<Mutant> {
    vec![
        step("the buffer for uses is looked at", |r| {
            r.tables.split_causes = |call| {
                let beyond = |&number: &u32| number == u32::MAX;
                and(call, 3, call.uses.iter().any(beyond))
            }
        }),
        step("an edge row past the count is looked at", |r| {
            r.tables.split_causes = |call| {
                let mut rows = call.edge_numbers.chunks_exact(EDGE_NUMBERS);
                and(call, 1, rows.nth(call.edges).is_some_and(|row| row[2] > 1))
            }
        }),
    ]
}

/// Edge rows and points that are looked at wrongly.
fn wrong_rows() -> Vec<Mutant> {
    vec![
        step("floats are not looked at", |r| {
            r.tables.split_causes = |call| {
                let mut found = split_causes(call);
                found.retain(|&cause| cause != 4);
                found
            }
        }),
        step("points are not looked at", |r| {
            r.tables.split_causes = |call| {
                let mut found = split_causes(call);
                let unfit = |&bits: &u64| !sized(f64::from_bits(bits));
                if !found.contains(&1) && call.points[..2 * call.divisor_count].iter().any(unfit) {
                    found.pop();
                }
                found
            }
        }),
        step("ranges are not looked at", |r| {
            r.tables.split_causes = |call| {
                let mut found = split_causes(call);
                found.retain(|&cause| cause != 5);
                found
            }
        }),
    ]
}

/// Kinds and points that pass.
fn wrong_kinds() -> Vec<Mutant> {
    vec![
        step("unknown kinds pass", |r| {
            r.tables.split_causes = |call| {
                let rows = call.rows();
                let kinds = edge_rows(&rows).map(|(numbers, _)| numbers.get(2));
                let unknown = kinds.filter(|kind| kind.is_some_and(|&kind| kind > 1));
                without_1(call, unknown.count() == 1)
            }
        }),
        step("infinite points pass", |r| {
            r.tables.split_causes = |call| {
                let mut found = split_causes(call);
                let infinite = |&bits: &u64| f64::from_bits(bits).is_infinite();
                if found == [4] && call.points[..2 * call.divisor_count].iter().any(infinite) {
                    found.clear();
                }
                found
            }
        }),
    ]
}

/// Causes that are chosen wrongly.
fn wrong_choice() -> Vec<Mutant> {
    vec![
        step("highest cause wins", |r| {
            r.tables.choose = |causes| causes.iter().max().copied()
        }),
        step("first cause met wins", |r| {
            r.tables.choose = |causes| causes.first().copied()
        }),
    ]
}
