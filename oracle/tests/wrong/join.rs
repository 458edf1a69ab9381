//! Wrong joins of two open wires.

use super::{behind, step, Mutant};
use oracle::port::Join;
use oracle::reference::tables::{edge_rows, have_room, join_causes, use_causes};
use oracle::shell::EDGE_NUMBERS;

/// All wrong joins.
pub fn lists() -> Vec<Vec<Mutant>> {
    vec![
        wrong_changes(),
        wrong_turns(),
        wrong_holders(),
        wrong_places(),
        wrong_new_wires(),
        wrong_parts(),
        wrong_neighbours(),
        wrong_at_65(),
        wrong_empty_wires(),
        wrong_order(),
        wrong_answers(),
        wrong_join_bounds(),
        wrong_join_counts(),
        wrong_join_vertices(),
        wrong_join_uses(),
        wrong_join_rows(),
        wrong_join_writes(),
        wrong_join_told(),
        wrong_join_ends(),
    ]
}

/// A join that does something wrong after all else was right: it is told the
/// answer, and what the new wires' uses and lengths were.
fn after(name: &'static str, spoil: fn(i32, [&[u32]; 2], &mut Join) -> i32) -> Mutant {
    behind(name, |after| after.join = spoil)
}

/// A wire turned by any number of places.
fn turned(wire: &[u32], place: usize) -> Vec<u32> {
    let mut wire = wire.to_vec();
    let length = wire.len().max(1);
    wire.rotate_left(place % length);
    wire
}

/// Open wires that change places wrongly.
pub fn wrong_changes() -> Vec<Mutant> {
    vec![
        step("i and index put right", |r| {
            r.join.change = |i, _| i != 0;
            r.join.turns = |_, index, j| [index, j];
        }),
        step("places changed for i", |r| r.join.change = |i, _| i != 0),
        step("places changed for i or index", |r| {
            r.join.change = |i, index| i != 0 || index != 0
        }),
        step("places never changed", |r| r.join.change = |_, _| false),
        step("places always changed", |r| r.join.change = |_, _| true),
        step("places changed only for index 1", |r| {
            r.join.change = |_, index| index == 1
        }),
        step("v0 and v1 exchanged", |r| {
            r.join.vertices = |v0, v1| [v1, v0]
        }),
        step("v0 for v1", |r| r.join.vertices = |v0, _| [v0, v0]),
    ]
}

/// Open wires that are turned wrongly.
pub fn wrong_turns() -> Vec<Mutant> {
    vec![
        step("the first turned by index", |r| {
            r.join.turns = |_, index, j| [index, j];
            r.join.turn = turned;
        }),
        step("the first not turned", |r| r.join.turns = |_, _, j| [0, j]),
        step("the first always turned by one", |r| {
            r.join.turns = |_, _, j| [1, j]
        }),
        step("the second not turned", |r| r.join.turns = |i, _, _| [i, 0]),
        step("both turned by j", |r| {
            r.join.turns = |_, _, j| [j, j];
            r.join.turn = turned;
        }),
        step("both turned by i", |r| r.join.turns = |i, _, _| [i, i]),
    ]
}

/// The wrong open wire is taken for the one with v0.
pub fn wrong_holders() -> Vec<Mutant> {
    vec![
        step("the second open wire looked at first", |r| {
            r.join.holder = |[first, second]| match second {
                Some(index) => Some((1, index)),
                None => first.map(|index| (0, index)),
            }
        }),
        step("the second open wire not looked at", |r| {
            r.join.holder = |[first, _]| first.map(|index| (0, index))
        }),
        step("the open wire with the lower place", |r| {
            r.join.holder = |places| {
                let all = places.iter().enumerate();
                let found = all.filter_map(|(i, place)| place.map(|index| (i, index)));
                found.min_by_key(|&(_, index)| index)
            }
        }),
    ]
}

/// Fronts, places and turns that are wrong.
pub fn wrong_places() -> Vec<Mutant> {
    vec![
        step("backs for fronts", |r| {
            r.join.front = |number, ends| ends[1 - number as usize % 2]
        }),
        step("every use forward", |r| r.join.front = |_, ends| ends[0]),
        step("the last place of a vertex", |r| {
            r.join.place = |fronts, vertex| fronts.iter().rposition(|&front| front == vertex)
        }),
        step("the first use not looked at", |r| {
            r.join.place = |fronts, vertex| {
                let mut all = fronts.iter().enumerate().skip(1);
                all.find(|&(_, &front)| front == vertex).map(|(i, _)| i)
            }
        }),
        step("turned to the right", |r| {
            r.join.turn = |wire, place| {
                let mut wire = wire.to_vec();
                wire.rotate_right(place);
                wire
            }
        }),
        step("nothing turned", |r| r.join.turn = |wire, _| wire.to_vec()),
        step("turned by one place too many", |r| {
            r.join.turn = |wire, place| match place {
                0 => wire.to_vec(),
                _ => turned(wire, place + 1),
            }
        }),
    ]
}

/// New wires that are taken wrongly.
pub fn wrong_new_wires() -> Vec<Mutant> {
    vec![
        step("the last new wire with v0", |r| {
            r.join.taken = |places| {
                let mut all = places.iter().enumerate().rev();
                all.find_map(|(wire, place)| place.map(|place| (wire, place)))
            }
        }),
        step("the second new wire with v0", |r| {
            r.join.taken = |places| {
                let all = places.iter().enumerate();
                let mut found = all.filter_map(|(wire, place)| place.map(|place| (wire, place)));
                let first = found.next();
                found.next().or(first)
            }
        }),
        step("only the first new wire looked at", |r| {
            r.join.taken = |places| {
                let first = places.first()?;
                first.map(|place| (0, place))
            }
        }),
        step("the first new wire, v0 or not", |r| {
            r.join.taken = |places| {
                let first = places.first()?;
                Some((0, first.unwrap_or(0)))
            }
        }),
        step("the new wire with the lower place", |r| {
            r.join.taken = |places| {
                let all = places.iter().enumerate();
                let found = all.filter_map(|(wire, place)| place.map(|place| (wire, place)));
                found.min_by_key(|&(_, place)| place)
            }
        }),
    ]
}

/// Parts of the joined wire that are put together wrongly.
pub fn wrong_parts() -> Vec<Mutant> {
    vec![
        step("the new wire not turned", |r| {
            r.join.taken = |places| {
                let wire = places.iter().position(Option::is_some)?;
                Some((wire, 0))
            }
        }),
        step("the new wire before the first", |r| {
            r.join.middle = |first, new| [new, first].concat()
        }),
        step("the new wire left out", |r| {
            r.join.middle = |first, _| first.to_vec()
        }),
        step("the first left out", |r| {
            r.join.middle = |_, new| new.to_vec()
        }),
        step("the second before the rest", |r| {
            r.join.whole = |first, second| [second, first].concat()
        }),
        step("the second left out", |r| {
            r.join.whole = |first, _| first.to_vec()
        }),
        step("the second backwards", |r| {
            r.join.whole = |first, second| {
                let second: Vec<u32> = second.iter().rev().copied().collect();
                [first, &second].concat()
            }
        }),
    ]
}

/// Joined wires that stand in the wrong place.
pub fn wrong_neighbours() -> Vec<Mutant> {
    vec![
        step("the joined wire goes last", |r| {
            r.join.put = |wires, taken, joined| {
                wires.remove(taken);
                wires.push(joined);
            }
        }),
        step("the joined wire goes first", |r| {
            r.join.put = |wires, taken, joined| {
                wires.remove(taken);
                wires.insert(0, joined);
            }
        }),
        step("neighbours exchanged", |r| {
            r.join.put = |wires, taken, joined| {
                wires[taken] = joined;
                let other = (taken + 1) % wires.len();
                wires.swap(taken, other);
            }
        }),
        step("the new wire kept", |r| {
            r.join.put = |wires, _, joined| wires.push(joined)
        }),
        step("the first new wire replaced", |r| {
            r.join.put = |wires, _, joined| wires[0] = joined
        }),
        step("the last new wire replaced", |r| {
            r.join.put = |wires, _, joined| *wires.last_mut().expect("a wire") = joined
        }),
    ]
}

/// Joins that go wrong at 65 uses laid or at 65 new ones alone, the first that
/// need large arrays.
fn wrong_at_65() -> Vec<Mutant> {
    vec![
        step("the last of 65 uses laid turned", |r| {
            r.join.middle = |first, new| {
                let mut laid = [first, new].concat();
                if laid.len() == 65 {
                    laid[64] ^= 1;
                }
                laid
            }
        }),
        step("the last of 65 new uses turned", |r| {
            r.join.put = |wires, taken, joined| {
                let uses: usize = wires.iter().map(Vec::len).sum();
                wires[taken] = joined;
                if uses == 65 {
                    let last = wires.iter_mut().flatten().last();
                    *last.expect("a use") ^= 1;
                }
            }
        }),
    ]
}

/// The uses that a join needs, where its counts are in order.
fn needed(lengths: &[u32], call: &Join) -> usize {
    let new = lengths.iter().take(call.wires).sum::<u32>() as usize;
    new + call.first_count + call.second_count
}

/// Empty open wires that are taken wrongly.
pub fn wrong_empty_wires() -> Vec<Mutant> {
    vec![
        step("15 only where both are empty", |r| {
            r.join.empty = |first, second| first == 0 && second == 0;
            r.join.turn = turned;
        }),
        step("15 only for the first", |r| {
            r.join.empty = |first, _| first == 0
        }),
        step("15 only for the second", |r| {
            r.join.empty = |_, second| second == 0;
            r.join.turn = turned;
        }),
        step("never 15", |r| {
            r.join.empty = |_, _| false;
            r.join.turn = turned;
        }),
        step("15 for a wire of one use", |r| {
            r.join.empty = |first, second| first < 2 || second < 2
        }),
    ]
}

/// Answers in the wrong order.
pub fn wrong_order() -> Vec<Mutant> {
    vec![
        after("15 before 5", |answer, _, call| {
            match (answer, call.first_count.min(call.second_count)) {
                (5, 0) => 15,
                _ => answer,
            }
        }),
        after("15 before 3", |answer, _, call| {
            match (answer, call.first_count.min(call.second_count)) {
                (3..=5, 0) => 15,
                _ => answer,
            }
        }),
        after("none before 15", |answer, _, _| match answer {
            15 => -1,
            _ => answer,
        }),
        after("6 before 15", |answer, [uses, lengths], call| {
            let short = answer == 15 && needed(lengths, call) > uses.len();
            if short {
                return 6;
            }
            answer
        }),
        after("6 before none", |answer, [uses, lengths], call| {
            let short = answer == -1 && needed(lengths, call) > uses.len();
            if short {
                return 6;
            }
            answer
        }),
        after("none for 6", |answer, _, _| match answer {
            6 => -1,
            _ => answer,
        }),
    ]
}

/// Room that is asked for wrongly, and calls that are not read.
pub fn wrong_answers() -> Vec<Mutant> {
    vec![
        step("a spare use is asked for", |r| {
            r.join.fits = |call, uses| uses <= 1024 && uses < call.uses.len()
        }),
        step("1024 uses out are too many", |r| {
            r.join.fits = |call, uses| uses < 1024 && uses <= call.uses.len()
        }),
        after("every call refused", |_, _, _| 1),
        after("every call none", |_, _, _| -1),
        after("every call done", |_, _, _| 0),
    ]
}

/// Whether all counts are within what was lent.
fn lent_in_full(call: &Join) -> bool {
    let lengths = call.lengths.iter().take(call.wires);
    let new: u64 = lengths.map(|&length| u64::from(length)).sum();
    call.first_count <= call.first.len()
        && call.second_count <= call.second.len()
        && call.wires <= call.lengths.len()
        && new <= call.uses.len() as u64
        && call.rows.edges <= 4096
        && have_room(&call.rows, 0, call.rows.edges)
}

/// The causes of a join without one cause 1, where this holds and all counts
/// are within what was lent.
fn without_1(call: &Join, passes: bool) -> Vec<i32> {
    let mut found = join_causes(call);
    let place = found.iter().position(|&cause| cause == 1);
    if let (true, Some(place)) = (passes && lent_in_full(call), place) {
        found.remove(place);
    }
    found
}

/// Bounds that are wrong.
pub fn wrong_join_bounds() -> Vec<Mutant> {
    vec![
        step("62 new wires are too many", |r| {
            r.tables.join_causes = |call| match call.wires {
                62 => vec![1],
                _ => join_causes(call),
            }
        }),
        step("63 new wires pass", |r| {
            r.tables.join_causes = |call| without_1(call, call.wires == 63)
        }),
        step("1024 uses are too many", |r| {
            r.tables.join_causes = |call| match call.first_count.checked_add(call.second_count) {
                Some(1022) if join_causes(call).is_empty() => vec![1],
                _ => join_causes(call),
            }
        }),
        step("1025 uses pass", |r| {
            r.tables.join_causes = |call| {
                let open = call.first_count.checked_add(call.second_count);
                without_1(call, open == Some(1023) && call.wires == 1)
            }
        }),
    ]
}

/// Counts that are looked at wrongly.
pub fn wrong_join_counts() -> Vec<Mutant> {
    vec![
        after("4097 vertices pass", |answer, _, call| {
            match (answer, call.rows.vertices) {
                (1, 4097) => -1,
                _ => answer,
            }
        }),
        step("4096 vertices are too many", |r| {
            r.tables.join_causes = |call| match call.rows.vertices {
                4096 => vec![1],
                _ => join_causes(call),
            }
        }),
        after(
            "lengths wrap in 32 bits",
            |answer, [uses, lengths], call| {
                let lent = lengths.iter().take(call.wires);
                let sum = lent.fold(0, |a: u32, b| a.wrapping_add(*b)) as usize;
                let hidden = answer == 1 && call.wires <= lengths.len() && sum <= uses.len();
                answer - 2 * i32::from(hidden && sum < 4 && call.wires == 2)
            },
        ),
        after("counts of open wires wrap", |answer, _, call| {
            let both = call.first_count.wrapping_add(call.second_count);
            match (answer, both) {
                (1, 0..=1024) if call.first_count > 1024 => -1,
                _ => answer,
            }
        }),
    ]
}

/// Causes that are chosen wrongly, and vertices that are not looked at.
pub fn wrong_join_vertices() -> Vec<Mutant> {
    vec![
        step("highest cause wins", |r| {
            r.tables.choose = |causes| causes.iter().max().copied()
        }),
        step("first cause met wins", |r| {
            r.tables.choose = |causes| causes.first().copied()
        }),
        after("v0 not looked at", |answer, _, call| {
            let (v0, v1) = (call.v0 as usize, call.v1 as usize);
            match answer {
                2 if v0 >= call.rows.vertices && v1 < call.rows.vertices => -1,
                _ => answer,
            }
        }),
        after("v1 not looked at", |answer, _, call| {
            let (v0, v1) = (call.v0 as usize, call.v1 as usize);
            match answer {
                2 if v1 >= call.rows.vertices && v0 < call.rows.vertices => -1,
                _ => answer,
            }
        }),
        after("a bad vertex earns 3", |answer, _, call| {
            let worst = call.v0.max(call.v1) as usize;
            answer + i32::from(answer == 2 && worst >= call.rows.vertices)
        }),
    ]
}

/// The causes, and one more where it is met.
fn and(call: &Join, more: Option<i32>) -> Vec<i32> {
    let mut found = join_causes(call);
    found.extend(more);
    found
}

/// Uses that are looked at wrongly.
pub fn wrong_join_uses() -> Vec<Mutant> {
    vec![
        after("new uses not looked at", |answer, _, call| {
            let open = [call.first, call.second].concat();
            match answer {
                3 if use_causes(&open, call.rows.edges).is_none() => -1,
                _ => answer,
            }
        }),
        after("open uses not looked at", |answer, _, call| match answer {
            3 if use_causes(call.uses, call.rows.edges).is_none() => -1,
            _ => answer,
        }),
        step("uses past a count are looked at", |r| {
            r.tables.join_causes = |call| and(call, use_causes(call.second, call.rows.edges))
        }),
        step("uses behind the new wires are looked at", |r| {
            r.tables.join_causes = |call| and(call, use_causes(call.uses, call.rows.edges))
        }),
    ]
}

/// Edge rows that are looked at wrongly.
pub fn wrong_join_rows() -> Vec<Mutant> {
    vec![
        step("floats are not looked at", |r| {
            r.tables.join_causes = |call| {
                let mut found = join_causes(call);
                found.retain(|&cause| cause != 4);
                found
            }
        }),
        step("ranges are not looked at", |r| {
            r.tables.join_causes = |call| {
                let mut found = join_causes(call);
                found.retain(|&cause| cause != 5);
                found
            }
        }),
        step("unknown kinds pass", |r| {
            r.tables.join_causes = |call| {
                let kinds = edge_rows(&call.rows).map(|(numbers, _)| numbers.get(2));
                let unknown = kinds.filter(|kind| kind.is_some_and(|&kind| kind > 1));
                without_1(call, unknown.count() == 1)
            }
        }),
        step("an edge row past the count is looked at", |r| {
            r.tables.join_causes = |call| {
                let mut rows = call.rows.edge_numbers.chunks_exact(EDGE_NUMBERS);
                let next = rows.nth(call.rows.edges);
                and(call, next.is_some_and(|row| row[2] > 1).then_some(1))
            }
        }),
    ]
}

/// Writing where nothing may be written.
pub fn wrong_join_writes() -> Vec<Mutant> {
    vec![
        after("uses written before none", |answer, _, call| {
            if let (-1, Some(cell)) = (answer, call.uses.first_mut()) {
                *cell = call.first[0];
            }
            answer
        }),
        after("a length written before none", |answer, _, call| {
            if let (-1, Some(length)) = (answer, call.lengths.first_mut()) {
                *length = call.first_count as u32;
            }
            answer
        }),
        after("the place written for none", |answer, _, call| {
            if answer == -1 {
                call.out[0] = 0;
            }
            answer
        }),
        after("the place written on a refusal", |answer, _, call| {
            if answer > 0 {
                call.out[0] = 0;
            }
            answer
        }),
        after("uses written before 6", |answer, _, call| {
            if let (6, Some(cell)) = (answer, call.uses.last_mut()) {
                *cell = 0;
            }
            answer
        }),
        after("lengths written before 15", |answer, _, call| {
            if answer == 15 {
                call.lengths.fill(0);
            }
            answer
        }),
    ]
}

/// Counts and lengths of a result that are wrong.
pub fn wrong_join_told() -> Vec<Mutant> {
    vec![
        after("uses of the longest wire told", |answer, _, call| {
            if answer == 0 {
                let lengths = call.lengths[..call.wires].iter();
                call.out[0] = lengths.max().map_or(0, |&most| most as usize);
            }
            answer
        }),
        after("uses of the new wires told", |answer, _, call| {
            if answer == 0 {
                call.out[0] -= call.first_count + call.second_count;
            }
            answer
        }),
        after("lengths left as they were", |answer, [_, lengths], call| {
            call.lengths.copy_from_slice(lengths);
            answer
        }),
        after("the length of the second left out", |answer, _, call| {
            if answer == 0 {
                let longest = call.lengths[..call.wires].iter_mut().max();
                *longest.expect("a wire") -= call.second_count as u32;
            }
            answer
        }),
    ]
}

/// Cells behind the result that are not left alone, or not moved.
pub fn wrong_join_ends() -> Vec<Mutant> {
    vec![
        after("uses behind the result cleared", |answer, _, call| {
            if answer == 0 {
                call.uses[call.out[0]..].fill(0);
            }
            answer
        }),
        after("lengths behind the wires cleared", |answer, _, call| {
            if answer == 0 {
                call.lengths[call.wires..].fill(0);
            }
            answer
        }),
        after("an empty new wire counted as one", |answer, _, call| {
            if answer == 0 {
                let lengths = call.lengths[..call.wires].iter_mut();
                lengths.for_each(|length| *length = (*length).max(1));
            }
            answer
        }),
        after(
            "wires behind the joined one not moved",
            |answer, before, call| {
                let lengths = call.lengths.iter().zip(before[1]).take(call.wires);
                let taken = lengths.clone().position(|(is, was)| is != was);
                if let (0, Some(taken)) = (answer, taken) {
                    let end: u32 = lengths.take(taken + 1).map(|(is, _)| is).sum();
                    let (end, uses) = (end as usize, call.out[0]);
                    call.uses[end..uses].copy_from_slice(&before[0][end..uses]);
                }
                answer
            },
        ),
    ]
}
