//! The stored calls of the cut of an edge at several points. Their buffers are
//! longer than those of other calls, so there are fewer of them.

use super::changed::{put_changed, Change};
use super::make::{store_within, Most, Quota};
use super::preparations::put_unknown;
use super::MOST_CELLS;
use crate::calls::cut_edge::CutEdge;
use crate::calls::several_cuts::SeveralCuts;
use crate::calls::Families;
use crate::inputs::{little_sizes, Sizes};
use crate::model::cut::CUT;
use crate::random::Random;
use crate::shell::needed;

/// How many calls with up to three cuts are refused.
const OF_REFUSED: [Quota; 7] = [(1, 8), (2, 6), (3, 6), (4, 8), (5, 8), (6, 14), (17, 20)];

/// How many are done with at most one cut, with two, with three, with four or
/// five, and with 64.
const OF_ONE: [Quota; 1] = [(0, 10)];
const OF_TWO: [Quota; 1] = [(0, 26)];
const OF_THREE: [Quota; 1] = [(0, 8)];
const OF_MORE: [Quota; 1] = [(0, 3)];
const OF_MOST: [Quota; 1] = [(0, 1)];

/// How many have 65 cuts, or 65 in the count alone.
const OF_TOO_MANY: [Quota; 4] = [(1, 1), (4, 1), (5, 1), (16, 4)];

/// How many are stored at least.
pub const OF_CHAINS: [Quota; 9] = [
    (0, 48),
    (1, 9),
    (2, 6),
    (3, 6),
    (4, 9),
    (5, 9),
    (6, 14),
    (16, 4),
    (17, 20),
];

/// How long the slices are with at most one cut, with two, with three to five,
/// and with 64 or 65.
const ONE: Most = Most {
    each: 64,
    all: 54,
    refused: 42,
};
const TWO: Most = Most { all: 96, ..ONE };
const MORE: Most = Most { all: 150, ..ONE };
const MOST: Most = Most {
    each: MOST_CELLS,
    all: 1800,
    refused: 320,
};

const CHANGES: [Change<SeveralCuts>; 10] = [
    (0, at_negative_zero),
    (0, with_room_for_its_uses),
    (17, at_both_zeros),
    (17, at_one_place),
    (1, wrapping),
    (1, a_float_too_few),
    (3, at_one_place_of_no_edge),
    (4, at_no_number),
    (6, with_room_for_one),
    (6, a_use_too_few),
];

/// Adds all of them.
pub fn put_chains(words: &mut Vec<u64>) {
    let mut put = |group, most, quotas: &[Quota], make, is_stored| {
        store_within(words, (group, most), quotas, make, is_stored);
    };
    put(17, ONE, &OF_REFUSED, few, &|_| true);
    put(18, ONE, &OF_ONE, few, &|c| c.0.cut_count < 2);
    put(19, TWO, &OF_TWO, few, &|c| c.0.cut_count == 2);
    put(20, MORE, &OF_THREE, few, &|c| c.0.cut_count == 3);
    put(21, MORE, &OF_MORE, more, &|c| c.0.cut_count > 3);
    put(22, MOST, &OF_MOST, most, &is_used_both_ways);
    put(23, MOST, &OF_TOO_MANY, too_many, &|c| c.0.cut_count == 65);
    put_changed(words, TWO, &CHANGES, made);
    put_unknown(words, ONE, made);
}

/// A small shell with up to three cuts.
pub fn made(random: &mut Random) -> SeveralCuts {
    let (sizes, cuts) = (little_sizes(random), random.pick(&[0, 1, 2, 2, 2, 3, 3]));
    SeveralCuts::made(random, sizes, cuts)
}

/// The same, damaged every other time.
pub fn few(random: &mut Random, index: u64) -> SeveralCuts {
    match index % 4 {
        0 | 1 => made(random),
        2 => SeveralCuts::damaged(random),
        _ => SeveralCuts::noise(random),
    }
}

/// A line or a ring with at most so many uses.
fn one_edge(random: &mut Random, uses: usize, cuts: usize) -> SeveralCuts {
    let sizes = Sizes {
        vertices: 1 + random.below(2),
        edges: 1,
        wires: 1,
        uses: random.below(uses + 1),
    };
    SeveralCuts::made(random, sizes, cuts)
}

/// One edge with four or five cuts.
fn more(random: &mut Random, _index: u64) -> SeveralCuts {
    let cuts = 4 + random.below(2);
    one_edge(random, 2, cuts)
}

/// One edge with 64 cuts.
fn most(random: &mut Random, _index: u64) -> SeveralCuts {
    one_edge(random, 2, 64)
}

/// Whether there are 64 cuts of an edge that is used in either direction.
fn is_used_both_ways(input: &SeveralCuts) -> bool {
    let uses = input.0.lent.read().wires.concat();
    input.0.cut_count == 64 && uses.contains(&0) && uses.contains(&1)
}

/// One edge with 65 cuts, in buffers with room for one vertex more; in turn the
/// last is damaged or left out, or at the place of the one before.
fn too_many(random: &mut Random, index: u64) -> SeveralCuts {
    let mut input = one_edge(random, 1, 65);
    let CutEdge { lent, cuts, .. } = &mut input.0;
    let counts = [lent.tables.vertices + 1, lent.tables.edges, 1];
    lent.shorten(needed(counts, lent.wires));
    let last = 64 * CUT;
    match (index % 5, cuts.get_mut(last - CUT..last + CUT)) {
        (0, Some([.., z])) => *z = f64::NAN.to_bits(),
        (1, Some([.., t, _, _, _])) => *t = (-1.0e15f64).to_bits(),
        (2, Some([before, .., t, _, _, _])) => *t = *before,
        (3, _) => cuts.truncate(last),
        _ => {}
    }
    input
}

/// The cuts, where there are two or more.
fn two_cuts(input: &mut SeveralCuts) -> Option<&mut [u64]> {
    let cells = input.0.cut_count * CUT;
    let cuts = input.0.cuts.get_mut(..cells)?;
    (cells > CUT).then_some(cuts)
}

/// Makes a change of the cuts, where there are two or more.
fn change(input: &mut SeveralCuts, change: impl Fn(&mut [u64])) -> bool {
    two_cuts(input).map(change).is_some()
}

fn at_negative_zero(input: &mut SeveralCuts) -> bool {
    change(input, |cuts| cuts[0] = (-0.0f64).to_bits())
}

fn at_both_zeros(input: &mut SeveralCuts) -> bool {
    change(input, |cuts| {
        (cuts[0], cuts[CUT]) = ((-0.0f64).to_bits(), 0.0f64.to_bits());
    })
}

/// The last two cuts are at one place.
fn at_one_place(input: &mut SeveralCuts) -> bool {
    change(input, |cuts| {
        let last = cuts.len() - CUT;
        cuts[last] = cuts[last - CUT];
    })
}

fn at_one_place_of_no_edge(input: &mut SeveralCuts) -> bool {
    input.0.edge = input.0.lent.tables.edges as u32;
    at_one_place(input)
}

/// The last parameter is not a number.
fn at_no_number(input: &mut SeveralCuts) -> bool {
    change(input, |cuts| {
        let last = cuts.len() - CUT;
        cuts[last] = f64::NAN.to_bits();
    })
}

/// Four cells for each of so many cuts are as many as before, where that is
/// taken in 64 bits.
fn wrapping(input: &mut SeveralCuts) -> bool {
    input.0.cut_count += 1 << 62;
    true
}

fn a_float_too_few(input: &mut SeveralCuts) -> bool {
    let Some(cells) = two_cuts(input).map(|cuts| cuts.len()) else {
        return false;
    };
    input.0.cuts.truncate(cells - 1);
    true
}

/// The tables have room for the first cut alone.
fn with_room_for_one(input: &mut SeveralCuts) -> bool {
    let CutEdge { lent, .. } = &mut input.0;
    let rows = [lent.tables.vertices + 1, lent.tables.edges + 1];
    let sizes = needed([rows[0], rows[1], lent.uses.len()], lent.lengths.len());
    lent.shorten(sizes);
    two_cuts(input).is_some()
}

/// How many uses there are of the edge, and in all.
fn uses(input: &SeveralCuts) -> [usize; 2] {
    let all = input.0.lent.read().wires.concat();
    let of_edge = all.iter().filter(|&&used| used / 2 == input.0.edge);
    [of_edge.count(), all.len()]
}

/// The uses of the result have just enough places, and others stand among them.
fn with_room_for_its_uses(input: &mut SeveralCuts) -> bool {
    let [used, all] = uses(input);
    let result = all + used * input.0.cut_count;
    input.0.lent.uses.truncate(result);
    two_cuts(input).is_some() && used < all
}

/// The uses of the result have one place too few.
fn a_use_too_few(input: &mut SeveralCuts) -> bool {
    let [used, all] = uses(input);
    let result = all + used * input.0.cut_count;
    input.0.lent.uses.truncate(result.saturating_sub(1));
    two_cuts(input).is_some() && used > 1
}
