//! Calls that were done before they were changed in one thing: a count at its
//! bound, past it or so large that it wraps, and causes of a refusal that
//! chance seldom makes.

use super::make::{draw, is_new, left_words, of_each, put_call, Most, SHORT};
use super::preparations::put_unknown;
use crate::calls::cut_edge::CutEdge;
use crate::calls::find_divisor::FindDivisor;
use crate::calls::join_wires::JoinWires;
use crate::calls::nearest_correction::NearestEnds;
use crate::calls::split_closed_edges::SplitClosed;
use crate::calls::split_wires::SplitWires;
use crate::calls::Families;
use crate::inputs::{lend, little_sizes, shell};
use crate::model::MOST_VERTICES;
use crate::random::Random;
use crate::shell::EDGE_NUMBERS;

/// How many calls are stored of each change.
const OF_EACH: usize = 4;

/// The groups of the inputs are these and the number of the call.
const GROUP: u64 = 100;

/// A change, and what the changed call answers. The change is made, or it is
/// said that there is nothing to change.
pub type Change<I> = (i32, fn(&mut I) -> bool);

const OF_CUT: [Change<CutEdge>; 2] = [(0, cut_at_negative_zero), (1, wrapping_cuts)];

const OF_JOIN: [Change<JoinWires>; 6] = [
    (0, |input| new_wires(input, 62)),
    (1, |input| new_wires(input, 63)),
    (0, |input| vertices(&mut input.new.tables.vertices, 0)),
    (1, |input| vertices(&mut input.new.tables.vertices, 1)),
    (1, wrapping_open_wires),
    (1, wrapping_new_wires),
];

const OF_SPLIT: [Change<SplitWires>; 14] = [
    (0, |input| vertices(&mut input.tables.vertices, 0)),
    (1, |input| vertices(&mut input.tables.vertices, 1)),
    (0, |input| wires(input, 64)),
    (1, |input| wires(input, 65)),
    (1, wrapping_wires),
    (1, wrapping_lengths),
    (1, wrapping_points),
    (1, unknown_kind),
    (2, no_range_and_no_front),
    (3, use_of_new_edge),
    (10, vertex_twice),
    (9, odd_with_vertex_twice),
    (6, vertex_twice_without_room),
    (5, no_range_without_room),
];

/// Adds changed calls of the cut, the join and the split, and those of all
/// calls over edges with an unknown preparation.
pub fn put_changed_calls(words: &mut Vec<u64>) {
    put_changed(words, SHORT, &OF_CUT, cut);
    put_changed(words, SHORT, &OF_JOIN, |random| {
        JoinWires::made(random, true)
    });
    put_changed(words, SHORT, &OF_SPLIT, |random| {
        SplitWires::made(random, true)
    });
    put_unknown(words, SHORT, |random| {
        let sizes = little_sizes(random);
        let shell = shell(random, &sizes);
        SplitClosed::in_the_middle(lend(random, &shell))
    });
    put_unknown(words, SHORT, |random| NearestEnds::made(random, true));
    put_unknown(words, SHORT, |random| FindDivisor::made(random, true));
    put_unknown(words, SHORT, cut);
    put_unknown(words, SHORT, |random| JoinWires::made(random, true));
    put_unknown(words, SHORT, |random| SplitWires::made(random, true));
}

/// A small shell with cuts.
fn cut(random: &mut Random) -> CutEdge {
    let sizes = little_sizes(random);
    CutEdge::made(random, sizes)
}

/// Adds calls that are made, found to be done, and changed.
pub fn put_changed<I: Families>(
    words: &mut Vec<u64>,
    most: Most,
    changes: &[Change<I>],
    made: fn(&mut Random) -> I,
) {
    let is_new = is_new();
    let mut index = 0;
    for (answer, change) in changes {
        let changed = |random: &mut Random, _| loop {
            let mut input = made(random);
            if input.expected().answer == 0 && change(&mut input) {
                return input;
            }
        };
        let mut left = of_each::<I>(OF_EACH);
        while left > 0 {
            let drawn = draw(GROUP + I::NUMBER, index, most, &changed);
            index += 1;
            let Some((input, expected)) = drawn else {
                continue;
            };
            if expected.answer == *answer && is_new(&input) {
                left -= 1;
                put_call(words, &input);
                words.extend(left_words(&expected));
            }
        }
    }
}

/// The count of vertices is the bound, or so many more.
fn vertices(count: &mut usize, more: usize) -> bool {
    *count = MOST_VERTICES + more;
    true
}

fn cut_at_negative_zero(input: &mut CutEdge) -> bool {
    if input.cut_count == 1 {
        input.cuts[0] = (-0.0f64).to_bits();
    }
    input.cut_count == 1
}

/// Four cells for each of so many cuts are as many as before, where that is
/// taken in 64 bits.
fn wrapping_cuts(input: &mut CutEdge) -> bool {
    input.cut_count += 1 << 62;
    true
}

/// Empty new wires are put behind the others until there are so many.
fn new_wires(input: &mut JoinWires, count: usize) -> bool {
    input.new.lengths.truncate(input.new.wires);
    input.new.lengths.resize(count, 0);
    input.new.wires = count;
    true
}

/// Both open wires together have as many uses as before, where that is taken
/// in 64 bits.
fn wrapping_open_wires(input: &mut JoinWires) -> bool {
    input.first_count = input.first_count.wrapping_sub(1 << 63);
    input.second_count = input.second_count.wrapping_add(1 << 63);
    true
}

/// Both lengths of two new wires together are 0, where that is taken in 32
/// bits.
fn wrapping_new_wires(input: &mut JoinWires) -> bool {
    cancel(input.new.wires, &mut input.new.lengths)
}

/// Empty wires are put behind the face's until there are so many in all.
fn wires(input: &mut SplitWires, count: usize) -> bool {
    let face = &mut input.face;
    face.lengths.truncate(face.wires);
    face.wires = count - input.rebuilt.wires;
    face.lengths.resize(face.wires, 0);
    true
}

/// Both counts of wires together are 0, where that is taken in 64 bits.
fn wrapping_wires(input: &mut SplitWires) -> bool {
    input.rebuilt.wires = input.face.wires.wrapping_neg();
    input.face.wires > 0
}

/// Both lengths together are 0, where that is taken in 32 bits.
fn wrapping_lengths(input: &mut SplitWires) -> bool {
    cancel(input.rebuilt.wires, &mut input.rebuilt.lengths)
}

/// Of two lengths the second is made to cancel the first in 32 bits.
fn cancel(wires: usize, lengths: &mut [u32]) -> bool {
    if wires != 2 || lengths[0] == 0 {
        return false;
    }
    lengths[1] = lengths[0].wrapping_neg();
    true
}

/// Two floats for each of so many points are as many as before, where that is
/// taken in 64 bits.
fn wrapping_points(input: &mut SplitWires) -> bool {
    input.divisor_count += 1 << 63;
    true
}

/// The curve of the first edge is of no kind.
fn unknown_kind(input: &mut SplitWires) -> bool {
    if input.tables.edges > 0 {
        input.tables.edge_numbers[2] = 2;
    }
    input.tables.edges > 0
}

/// The range of the first edge is turned round, and the front of the last one
/// is too large: what is met first is not what is lowest.
fn no_range_and_no_front(input: &mut SplitWires) -> bool {
    let tables = &mut input.tables;
    if tables.edges < 2 {
        return false;
    }
    let (t0, t1) = tables.edge(0).curve.range();
    tables.edge_floats.swap(4, 5);
    tables.edge_numbers[(tables.edges - 1) * EDGE_NUMBERS] = tables.vertices as u32;
    t0 < t1
}

/// The first use is of the first new edge, and no cells stand behind the uses.
fn use_of_new_edge(input: &mut SplitWires) -> bool {
    for set in [&mut input.face, &mut input.rebuilt] {
        let uses: u32 = set.lengths[..set.wires].iter().sum();
        set.uses.truncate(uses as usize);
    }
    match input.rebuilt.uses.first_mut() {
        Some(first) if input.divisor_count > 1 => {
            *first = 2 * input.tables.edges as u32;
            true
        }
        _ => false,
    }
}

/// The second and the fourth vertex on the divisor are the same.
fn vertex_twice(input: &mut SplitWires) -> bool {
    if input.divisor_count < 4 {
        return false;
    }
    input.divisor[3] = input.divisor[1];
    true
}

fn odd_with_vertex_twice(input: &mut SplitWires) -> bool {
    if input.divisor_count < 4 {
        return false;
    }
    input.divisor_count -= 1;
    input.divisor[2] = input.divisor[0];
    true
}

fn vertex_twice_without_room(input: &mut SplitWires) -> bool {
    input.uses.clear();
    vertex_twice(input)
}

/// The range of the first edge is turned round, and there is no room for uses.
fn no_range_without_room(input: &mut SplitWires) -> bool {
    input.uses.clear();
    if input.tables.edges > 0 {
        input.tables.edge_floats.swap(4, 5);
    }
    input.tables.edges > 0
}
