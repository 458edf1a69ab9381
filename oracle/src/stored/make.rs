//! The making of the file, which always comes out the same.

use super::altered::put_altered;
use super::chains::{few, put_chains, OF_CHAINS};
use super::changed::put_changed_calls;
use super::lengths_first;
use crate::calls::cut_edge::CutEdge;
use crate::calls::find_divisor::FindDivisor;
use crate::calls::join_wires::JoinWires;
use crate::calls::nearest_correction::NearestEnds;
use crate::calls::several_cuts::SeveralCuts;
use crate::calls::sort_wires::SortWires;
use crate::calls::split_closed_edges::SplitClosed;
use crate::calls::split_wires::SplitWires;
use crate::calls::Families;
use crate::cells::Cells;
use crate::compare::{difference, Expected, Input, NONE};
use crate::inputs;
use crate::port::{NearestCopy, Unwrap, WireEnds};
use crate::random::Random;
use crate::reference::search::{distance2, Found};
use crate::reference::{near, tables, Reference};
use crate::{limits, model};

/// How long the slices of a stored call may be.
#[derive(Clone, Copy)]
pub(super) struct Most {
    /// Most cells in each of them.
    pub each: usize,
    /// Most cells in all of them together.
    pub all: usize,
    /// The same of a call that is refused.
    pub refused: usize,
}

/// How long they are in every call but `cut_edge_at_points`.
pub(super) const SHORT: Most = Most {
    each: 64,
    all: 120,
    refused: 60,
};

/// The seed of the file.
const SEED: u64 = 0x6b61_7567;

/// An answer, and how many calls of it are stored.
pub type Quota = (i32, usize);

/// How many calls of `split_closed_edges` are stored.
const OF_PASS: [Quota; 7] = [
    (0, 1200),
    (1, 134),
    (2, 134),
    (3, 133),
    (4, 133),
    (5, 133),
    (6, 133),
];

/// How many calls over one or two numbers are stored.
const OF_NUMBERS: [Quota; 4] = [(0, 400), (1, 40), (4, 60), (5, 60)];

/// How many calls of `boundary_type` are stored.
const OF_KINDS: [Quota; 2] = [(0, 400), (4, 60)];

/// How many calls of `sort_wires` are stored.
const OF_SORTING: [Quota; 5] = [(0, 200), (NONE, 80), (1, 40), (4, 40), (6, 80)];

/// How many calls of `nearest_correction` are stored.
const OF_ENDS: [Quota; 8] = [
    (0, 180),
    (NONE, 30),
    (1, 25),
    (2, 25),
    (3, 25),
    (4, 25),
    (5, 25),
    (7, 25),
];

/// How many calls of `find_non_simple_wire_divisor` are stored.
const OF_SEARCH: [Quota; 9] = [
    (0, 180),
    (NONE, 60),
    (1, 20),
    (2, 20),
    (3, 20),
    (4, 20),
    (5, 20),
    (7, 20),
    (8, 60),
];

/// How many calls of `cut_edge_by_intersections` are stored.
const OF_CUT: [Quota; 8] = [
    (0, 200),
    (1, 30),
    (2, 30),
    (3, 30),
    (4, 30),
    (5, 30),
    (6, 30),
    (14, 30),
];

/// How many calls of `connect_open_boundaries` are stored.
const OF_JOIN: [Quota; 9] = [
    (0, 240),
    (NONE, 60),
    (1, 30),
    (2, 30),
    (3, 30),
    (4, 20),
    (5, 20),
    (6, 40),
    (15, 30),
];

/// How many calls of `split_boundaries_by_divisor` are stored.
const OF_SPLIT: [Quota; 11] = [
    (0, 120),
    (1, 30),
    (2, 20),
    (3, 20),
    (4, 20),
    (5, 20),
    (6, 40),
    (9, 30),
    (10, 30),
    (11, 40),
    (12, 40),
];

/// How many calls are stored at least, by the name of the call.
pub const QUOTAS: [(&str, &[Quota]); 11] = [
    (SplitClosed::NAME, &OF_PASS),
    (Unwrap::NAME, &OF_NUMBERS),
    (NearestCopy::NAME, &OF_NUMBERS),
    (WireEnds::NAME, &OF_KINDS),
    (SortWires::NAME, &OF_SORTING),
    (NearestEnds::NAME, &OF_ENDS),
    (FindDivisor::NAME, &OF_SEARCH),
    (CutEdge::NAME, &OF_CUT),
    (JoinWires::NAME, &OF_JOIN),
    (SplitWires::NAME, &OF_SPLIT),
    (SeveralCuts::NAME, &OF_CHAINS),
];

/// How many calls are stored to tell one other distance from the right one.
const OF_OTHERS: [Quota; 1] = [(0, 8)];

/// How many splits into several wires along seams are stored.
const OF_SEVERAL: [Quota; 1] = [(0, 100)];

/// The words of both lists, always the same, without the 0 that ends each.
pub fn lists() -> [Vec<u64>; 2] {
    let (mut stored, mut altered) = (Vec::new(), Vec::new());
    put_calls(&mut stored);
    put_altered_calls(&mut altered);
    [stored, altered]
}

/// The file of two such lists.
pub fn file_of(lists: &[Vec<u64>; 2]) -> Vec<u8> {
    let ended = lists.iter().flat_map(|list| list.iter().chain(&[0]));
    ended.flat_map(|word| word.to_le_bytes()).collect()
}

/// The file's bytes.
pub fn make() -> Vec<u8> {
    file_of(&lists())
}

/// Adds the first list: calls as they are.
fn put_calls(words: &mut Vec<u64>) {
    store(words, 99, &OF_PASS, pass, &is_no_worked_pass);
    store(words, 2, &OF_NUMBERS, any::<Unwrap>, &|_| true);
    store(words, 3, &OF_NUMBERS, any::<NearestCopy>, &|_| true);
    for other in other_copies() {
        store(words, 10, &OF_OTHERS, any::<NearestCopy>, &tells(other));
    }
    store(words, 4, &OF_KINDS, any::<WireEnds>, &|_| true);
    store(words, 5, &OF_SORTING, any::<SortWires>, &|_| true);
    store(words, 6, &OF_ENDS, ends, &|_| true);
    for other in other_distances() {
        store(words, 8, &OF_OTHERS, ends, &tells(other));
    }
    store(words, 7, &OF_SEARCH, search, &|_| true);
    for other in other_distances() {
        store(words, 9, &OF_OTHERS, search, &tells(other));
    }
    store(words, 11, &[(8, 8)], search, &tells(past_end_last()));
    store(words, 12, &[(5, 8)], search, &tells(pending_first()));
    store(words, 13, &OF_CUT, cut, &|_| true);
    store(words, 14, &OF_JOIN, join, &|_| true);
    store(words, 15, &OF_SPLIT, split, &|_| true);
    store(words, 16, &OF_SEVERAL, split, &has_wires_and_seams);
    put_changed_calls(words);
    put_chains(words);
}

/// Adds the second list: altered records of all calls.
fn put_altered_calls(words: &mut Vec<u64>) {
    put_altered(words, pass);
    put_altered(words, any::<Unwrap>);
    put_altered(words, any::<NearestCopy>);
    put_altered(words, any::<WireEnds>);
    put_altered(words, any::<SortWires>);
    put_altered(words, ends);
    put_altered(words, search);
    put_altered(words, cut);
    put_altered(words, join);
    put_altered(words, split);
    put_altered(words, few);
}

/// How many calls of a kind are stored where so many are of others: few of the
/// cut at several points, whose records are long and are read and compared as
/// those of one cut are.
pub(super) fn of_each<I: Input>(others: usize) -> usize {
    match I::NUMBER {
        SeveralCuts::NUMBER => 2,
        _ => others,
    }
}

/// An input of a group and what the Rust says to it, if its slices are short.
pub(super) fn draw<I: Families>(
    group: u64,
    index: u64,
    most: Most,
    make: &dyn Fn(&mut Random, u64) -> I,
) -> Option<(I, Expected<I>)> {
    let input = make(&mut Random::new(SEED, group, index), index);
    if !is_small(&input, most.each, most.all) {
        return None;
    }
    let expected = input.expected();
    if expected.answer > 0 {
        return Some((input, expected));
    }
    let input = tell_apart(&input);
    let expected = input.expected();
    Some((input, expected))
}

/// Adds short calls that are none of the named cases until every quota is full.
fn store<I: Families>(
    words: &mut Vec<u64>,
    group: u64,
    quotas: &[Quota],
    make: fn(&mut Random, u64) -> I,
    is_stored: &dyn Fn(&I) -> bool,
) {
    store_within(words, (group, SHORT), quotas, make, is_stored);
}

/// The same with calls of a length.
pub(super) fn store_within<I: Families>(
    words: &mut Vec<u64>,
    (group, most): (u64, Most),
    quotas: &[Quota],
    make: fn(&mut Random, u64) -> I,
    is_stored: &dyn Fn(&I) -> bool,
) {
    let is_new = is_new();
    let (mut left, mut index) = (quotas.to_vec(), 0);
    while left.iter().any(|&(_, times)| times > 0) {
        let drawn = draw(group, index, most, &make);
        index += 1;
        let Some((input, expected)) = drawn else {
            continue;
        };
        let quota = left
            .iter_mut()
            .find(|(answer, _)| *answer == expected.answer);
        if let Some((_, times)) = quota {
            let fits = expected.answer <= 0 || is_small(&input, most.each, most.refused);
            if *times > 0 && fits && is_new(&input) && is_stored(&input) {
                *times -= 1;
                put_call(words, &input);
                words.extend(left_words(&expected));
            }
        }
    }
}

/// A shell of the closed-edge pass, damaged every other time. It is always cut
/// in the middle, as the Rust does.
fn pass(random: &mut Random, index: u64) -> SplitClosed {
    let sizes = inputs::little_sizes(random);
    SplitClosed::in_the_middle(match index % 4 {
        0 | 1 => {
            let shell = inputs::shell(random, &sizes);
            inputs::lend(random, &shell)
        }
        _ => inputs::damaged_of(random, &sizes),
    })
}

/// An input of any call, damaged every other time.
fn any<I: Families>(random: &mut Random, index: u64) -> I {
    match index % 4 {
        0 | 1 => I::random(random),
        2 => I::damaged(random),
        _ => I::noise(random),
    }
}

/// A small input of nearest ends, damaged every other time.
fn ends(random: &mut Random, index: u64) -> NearestEnds {
    match index % 2 {
        0 => NearestEnds::made(random, true),
        _ => NearestEnds::spoiled(random, true),
    }
}

/// A small input of the search, damaged every other time.
fn search(random: &mut Random, index: u64) -> FindDivisor {
    match index % 2 {
        0 => FindDivisor::made(random, true),
        _ => FindDivisor::spoiled(random, true),
    }
}

/// A small shell with cuts, damaged every other time.
fn cut(random: &mut Random, index: u64) -> CutEdge {
    let sizes = inputs::little_sizes(random);
    match index % 4 {
        0 | 1 => CutEdge::made(random, sizes),
        2 => CutEdge::damaged(random),
        _ => CutEdge::noise(random),
    }
}

/// A small join, damaged every other time.
fn join(random: &mut Random, index: u64) -> JoinWires {
    match index % 4 {
        0 | 1 => JoinWires::made(random, true),
        2 => JoinWires::damaged(random),
        _ => any(random, index / 4),
    }
}

/// A small split, damaged every other time.
fn split(random: &mut Random, index: u64) -> SplitWires {
    match index % 4 {
        0 | 1 => SplitWires::made(random, true),
        2 => SplitWires::damaged(random),
        _ => any(random, index / 4),
    }
}

/// A replay may hold all NaN patterns for one. In an input that is accepted
/// such a float is no input, so it can as well be a number of its own.
fn tell_apart<I: Input>(input: &I) -> I {
    let mut place = 0;
    let mut other = |bits: &mut u64| {
        if f64::from_bits(*bits).is_nan() {
            *bits = (-1.0e9 - place as f64).to_bits();
        }
        place += 1;
    };
    let mut slices = input.slices();
    for cells in &mut slices {
        if let Cells::Floats(cells) = cells {
            cells.iter_mut().for_each(&mut other);
        }
    }
    let mut scalars = input.scalars();
    scalars.iter_mut().for_each(&mut other);
    I::put_together(&scalars, slices).expect("the same kinds")
}

/// Whether each slice has at most so many cells, and all have together.
fn is_small<I: Input>(input: &I, each: usize, all: usize) -> bool {
    let sizes: Vec<usize> = input.slices().iter().map(Cells::size).collect();
    sizes.iter().all(|&size| size <= each) && sizes.iter().sum::<usize>() <= all
}

/// Whether an input is none of the named cases.
pub(super) fn is_new<I: Families>() -> impl Fn(&I) -> bool {
    let known = I::limits();
    move |input| !known.iter().any(|case| case.input == *input)
}

/// Whether a split makes several wires and seams.
fn has_wires_and_seams(input: &SplitWires) -> bool {
    input.divisor_count > 1 && input.expected().out[0] > 1
}

/// Implementations of the nearest copy that go through the copies with v
/// outermost, or that add the squares with one rounding less.
fn other_copies() -> [Reference; 2] {
    let mut others = [Reference::default(); 2];
    others[0].near.pairs = |us, vs| {
        let pairs = near::pairs(vs, us).into_iter();
        pairs.map(|[v, u]| [u, v]).collect()
    };
    others[1].near.distance2 = |p, q| {
        let [x, y] = [0, 1].map(|i| p[i] - q[i]);
        x.mul_add(x, y * y)
    };
    others
}

/// Implementations that only round otherwise: the squares are added in another
/// order, with one rounding less, or their root is taken.
fn other_distances() -> [Reference; 3] {
    type Distance = fn([f64; 3], [f64; 3]) -> f64;
    let distances: [Distance; 3] = [
        |[x, y, z], [u, v, w]| distance2([z, y, x], [w, v, u]),
        |p, q| {
            let [x, y, z] = [0, 1, 2].map(|i| p[i] - q[i]);
            z.mul_add(z, x * x + y * y)
        },
        |p, q| distance2(p, q).sqrt(),
    ];
    distances.map(|distance2| {
        let mut other = Reference::default();
        other.search.distance2 = distance2;
        other
    })
}

/// A search that ends with 8 only where no wire has an answer.
fn past_end_last() -> Reference {
    let mut other = Reference::default();
    other.search.end = |found| {
        let mut answers = found.iter().filter(|one| matches!(one, Found::Pair(_)));
        let past = found.iter().find(|&&one| one == Found::PastEnd);
        *answers.next().or(past).unwrap_or(&Found::Nothing)
    };
    other
}

/// A search that refuses pending vertices before it looks at ranges.
fn pending_first() -> Reference {
    let mut other = Reference::default();
    other.tables.causes = |rows, wires| {
        let mut found = tables::causes(rows, wires);
        let counted = !found.contains(&1);
        found.retain(|&cause| cause != 5 || !(counted && tables::pending(rows, &[])));
        found
    };
    other
}

/// Whether an input tells another implementation from the right one.
fn tells<I: Families>(other: Reference) -> impl Fn(&I) -> bool {
    move |input| difference(&other, input, &input.expected()).1.is_some()
}

/// Whether a shell has edges and is none of the worked examples.
fn is_no_worked_pass(input: &SplitClosed) -> bool {
    let input = &input.lent;
    let worked = |case: &crate::compare::Case<SplitClosed>| {
        let known = &case.input.lent;
        case.expected.answer == 0 && model::refused(input).is_none() && known.read() == input.read()
    };
    input.tables.edges > 0 && !limits::worked().iter().any(worked)
}

/// Adds the number of a call and what it was handed.
pub(super) fn put_call<I: Input>(words: &mut Vec<u64>, input: &I) {
    words.push(I::NUMBER);
    words.extend(input.scalars());
    let slices = input.slices();
    if lengths_first::<I>() {
        words.extend(slices.iter().map(|cells| cells.size() as u64));
    }
    for cells in &slices {
        if !lengths_first::<I>() {
            words.push(cells.size() as u64);
        }
        words.extend(cells.words());
    }
}

/// What a call answered and left: the answer, the out values, and the slices
/// that may be written to.
pub(super) fn left_words<I: Input>(expected: &Expected<I>) -> Vec<u64> {
    let mut words = vec![i64::from(expected.answer) as u64];
    let done = expected.answer == 0;
    let out = expected.out.iter();
    words.extend(out.map(|&value| if done { value } else { 0 }));
    for (cells, lending) in expected.after.slices().iter().zip(I::SLICES) {
        if lending.written {
            words.extend(cells.words());
        }
    }
    words
}
