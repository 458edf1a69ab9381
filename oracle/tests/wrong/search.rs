//! Wrong nearest ends and wrong searches for a divisor.

use super::{behind, step, Mutant};
use oracle::reference::search::{distance2, pair, Found};
use oracle::reference::tables::{causes, edge_rows, nearest_causes, pending};
use oracle::reference::tables::{use_causes, vertex_rows};

/// All wrong nearest ends.
pub fn lists_of_nearest() -> Vec<Vec<Mutant>> {
    vec![wrong_distances(), wrong_pending(), wrong_nearest()]
}

/// All wrong searches, save those with wrong checks of tables and wires.
pub fn lists_of_search() -> Vec<Vec<Mutant>> {
    vec![
        wrong_distances(),
        wrong_pending(),
        wrong_pairs(),
        wrong_search(),
    ]
}

/// Distances and fronts that are wrong, for both calls.
pub fn wrong_distances() -> Vec<Mutant> {
    vec![
        step("the later on a tie", |r| {
            r.search.wins = |d, best| d <= best
        }),
        step("the farthest wins", |r| r.search.wins = |d, best| d > best),
        step("squares added in the order z, y, x", |r| {
            r.search.distance2 = |p, q| {
                let turned = |[x, y, z]: [f64; 3]| [z, y, x];
                distance2(turned(p), turned(q))
            }
        }),
        step("roots of the distances", |r| {
            r.search.distance2 = |p, q| distance2(p, q).sqrt()
        }),
        step("sums of the differences", |r| {
            r.search.distance2 = |p, q| (0..3).map(|i| (p[i] - q[i]).abs()).sum()
        }),
        step("z is left out", |r| {
            r.search.distance2 = |p, q| distance2([p[0], p[1], 0.0], [q[0], q[1], 0.0])
        }),
        step("one rounding less", |r| {
            r.search.distance2 = |p, q| {
                let [x, y, z] = [0, 1, 2].map(|i| p[i] - q[i]);
                z.mul_add(z, x * x + y * y)
            }
        }),
        step("backs for fronts", |r| {
            r.search.front = |number, ends| ends[1 - number as usize % 2]
        }),
        step("every use forward", |r| r.search.front = |_, ends| ends[0]),
        step("the start is told", |r| {
            r.search.told = |v0, _, v1| [v0, v1]
        }),
        step("ends exchanged", |r| r.search.told = |_, v0, v1| [v1, v0]),
    ]
}

/// Pending vertices that are looked at wrongly, for both calls.
pub fn wrong_pending() -> Vec<Mutant> {
    vec![
        step("pending vertices pass", |r| r.tables.pending = |_, _| false),
        step("only fronts must be given", |r| {
            r.tables.pending = |rows, uses| {
                let ends: Vec<[u32; 2]> = edge_rows(rows).map(|(n, _)| [n[0], n[1]]).collect();
                let kinds: Vec<u32> = vertex_rows(rows).map(|(n, _)| n[0]).collect();
                uses.iter().any(|&number| {
                    let front = ends[number as usize / 2][number as usize % 2];
                    kinds[front as usize] == 1
                })
            }
        }),
        step("only the first vertex must be given", |r| {
            r.tables.pending = |rows, _| vertex_rows(rows).take(1).any(|(n, _)| n[0] == 1)
        }),
        step("7 before 5", |r| {
            r.tables.causes = |rows, wires| match causes(rows, wires) {
                found if found.contains(&1) => found,
                mut found => {
                    found.retain(|&cause| cause != 5 || !pending(rows, &[]));
                    found
                }
            };
            r.tables.nearest_causes = |call| match nearest_causes(call) {
                found if found.contains(&1) => found,
                mut found => {
                    found.retain(|&cause| cause != 5 || !pending(&call.rows, &[]));
                    found
                }
            };
        }),
    ]
}

/// Nearest ends that refuse or write wrongly.
pub fn wrong_nearest() -> Vec<Mutant> {
    vec![
        step("highest cause wins", |r| {
            r.tables.choose = |causes| causes.iter().max().copied()
        }),
        step("first cause met wins", |r| {
            r.tables.choose = |causes| causes.first().copied()
        }),
        step("1024 uses are too many", |r| {
            r.tables.nearest_causes = |call| match call.first_count.checked_add(call.second_count) {
                Some(1024) => vec![1],
                _ => nearest_causes(call),
            }
        }),
        step("1025 uses pass", |r| {
            r.tables.nearest_causes = |call| {
                let mut found = nearest_causes(call);
                let both = call.first_count.saturating_add(call.second_count);
                if both == 1025 && found.len() == 1 {
                    found.clear();
                }
                found
            }
        }),
        step("uses past a count are looked at", |r| {
            r.tables.nearest_causes = |call| {
                let mut found = nearest_causes(call);
                found.extend(use_causes(call.second, call.rows.edges));
                found
            }
        }),
        step("a bad start earns 3", |r| {
            r.tables.nearest_causes = |call| {
                let mut found = nearest_causes(call);
                if call.v0 as usize >= call.rows.vertices && found.iter().min() == Some(&2) {
                    let place = found.iter().rposition(|&cause| cause == 2);
                    found[place.expect("there is one")] = 3;
                }
                found
            }
        }),
        step("records are not looked at", |r| {
            r.tables.nearest_causes = |call| {
                let mut found = nearest_causes(call);
                found.retain(|&cause| cause != 4 && cause != 5);
                found
            }
        }),
        behind("none before 7", |b| {
            b.nearest = |answer, call| match (answer, call.first_count.min(call.second_count)) {
                (7, 0) => -1,
                _ => answer,
            }
        }),
        behind("one stretch is enough", |b| {
            b.nearest = |answer, call| match (answer, call.first_count) {
                (-1, 0) => {
                    call.out.copy_from_slice(&[call.v0, call.v0]);
                    0
                }
                _ => answer,
            }
        }),
        behind("places written for none", |b| {
            b.nearest = |answer, call| {
                if answer == -1 {
                    call.out.fill(0);
                }
                answer
            }
        }),
        behind("places written on a refusal", |b| {
            b.nearest = |answer, call| {
                if answer > 0 {
                    call.out[0] = call.v0;
                }
                answer
            }
        }),
    ]
}

/// Searches that find the wrong pairs or places.
pub fn wrong_pairs() -> Vec<Mutant> {
    vec![
        step("earlier places remembered", |r| {
            r.search.pair = |wire, from| {
                let earlier = |j: usize| (0..j).find(|&i| wire[i] / 2 == wire[j] / 2);
                (from..wire.len()).find_map(|j| earlier(j).map(|i| (i, j)))
            }
        }),
        step("directions told apart", |r| {
            r.search.pair = |wire, from| {
                let doubled: Vec<u32> = wire.iter().map(|number| 2 * number).collect();
                pair(&doubled, from)
            }
        }),
        step("the wire is not turned", |r| {
            r.search.turn = |wire, _| wire.to_vec()
        }),
        step("turned the other way", |r| {
            r.search.turn = |wire, place| {
                let mut wire = wire.to_vec();
                wire.rotate_right(place);
                wire
            }
        }),
        step("second pair from j0 on", |r| r.search.from = |j0| j0),
        step("second pair from j0 + 2 on", |r| {
            r.search.from = |j0| j0 + 2
        }),
        step("no second pair", |r| r.search.from = |_| usize::MAX),
        step("length less one", |r| {
            r.search.lacking = |j0, length| (j0, (length - 1).max(j0 + 1))
        }),
        step("the first place rounded down", |r| {
            r.search.places = |j0, i1, j1| [j0 / 2, (i1 + j1).div_ceil(2)]
        }),
        step("the second place rounded down", |r| {
            r.search.places = |j0, i1, j1| [j0.div_ceil(2), (i1 + j1) / 2]
        }),
        step("j0 for the first place", |r| {
            r.search.places = |j0, i1, j1| [j0, (i1 + j1).div_ceil(2)]
        }),
        step("the first stretch from 0 on", |r| {
            r.search.stretches = |j0, i1, j1| [0..j0, i1 + 1..j1]
        }),
        step("the first stretch up to j0", |r| {
            r.search.stretches = |j0, i1, j1| [1..j0 + 1, i1 + 1..j1]
        }),
        step("the second stretch from i1 on", |r| {
            r.search.stretches = |j0, i1, j1| [1..j0, i1..j1]
        }),
        step("the second stretch shorter by one", |r| {
            r.search.stretches = |j0, i1, j1| [1..j0, i1 + 1..(j1 - 1).max(i1 + 1)]
        }),
        step("stretches exchanged", |r| {
            r.search.stretches = |j0, i1, j1| [i1 + 1..j1, 1..j0]
        }),
    ]
}

/// Searches that end wrongly.
pub fn wrong_search() -> Vec<Mutant> {
    vec![
        step("none before anything is read", |r| {
            r.search.end = |_| Found::Nothing
        }),
        step("8 wins over all", |r| {
            r.search.end = |found| {
                let past = found.contains(&Found::PastEnd);
                let mut others = found.iter().filter(|&&one| one != Found::Nothing);
                match past {
                    true => Found::PastEnd,
                    false => others.next().copied().unwrap_or(Found::Nothing),
                }
            }
        }),
        step("8 only where there is no answer", |r| {
            r.search.end = |found| {
                let mut pairs = found.iter().filter(|one| matches!(one, Found::Pair(_)));
                let past = found.contains(&Found::PastEnd);
                let other = if past { Found::PastEnd } else { Found::Nothing };
                pairs.next().copied().unwrap_or(other)
            }
        }),
        step("8 is none", |r| {
            r.search.end = |found| {
                let mut pairs = found.iter().filter(|one| matches!(one, Found::Pair(_)));
                pairs.next().copied().unwrap_or(Found::Nothing)
            }
        }),
        step("the first wire decides", |r| {
            r.search.end = |found| found.first().copied().unwrap_or(Found::Nothing)
        }),
        step("the last answer wins", |r| {
            r.search.end = |found| {
                let mut others = found.iter().rev().filter(|&&one| one != Found::Nothing);
                others.next().copied().unwrap_or(Found::Nothing)
            }
        }),
        behind("8 before 7", |b| {
            b.search = |answer, call| {
                let same = |wire: &[u32]| wire.len() == 3 && wire[0] / 2 == wire[2] / 2;
                match answer == 7 && call.wires.uses.get(..3).is_some_and(same) {
                    true => 8,
                    false => answer,
                }
            }
        }),
        behind("none before 7", |b| {
            b.search = |answer, call| match (answer, call.wires.wires) {
                (7, 0) => -1,
                _ => answer,
            }
        }),
        behind("places written on 8", |b| {
            b.search = |answer, call| {
                if answer == 8 {
                    call.out[0] = 0;
                }
                answer
            }
        }),
        behind("places written for none", |b| {
            b.search = |answer, call| {
                if answer == -1 {
                    call.out.fill(0);
                }
                answer
            }
        }),
    ]
}
