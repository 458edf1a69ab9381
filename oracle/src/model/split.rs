//! The refusals of the split before its walk, and what must hold of its
//! answer however the walk goes: demand 3 without the walk.

use super::{edge_float_unfit, edge_kind_or_preparation_unknown, edge_range_unfit, edges_passed};
use super::{end_unknown, lowest, unfit, use_unknown};
use super::{MOST_EDGES, MOST_USES, MOST_VERTICES, MOST_WIRES};
use crate::port::Wires;
use crate::shell::{Tables, EDGE_FLOATS, EDGE_NUMBERS};
use std::collections::BTreeMap;

/// The edge table, which is lent without a vertex table, both sets of wires,
/// the list with its points, and how many uses and lengths have a place in the
/// buffers for the answer.
#[derive(Clone, Copy)]
pub struct Splitting<'a> {
    pub tables: &'a Tables,
    pub face: Wires<'a>,
    pub rebuilt: Wires<'a>,
    pub divisor: &'a [u32],
    pub points: &'a [u64],
    pub divisor_count: usize,
    pub room: [usize; 2],
}

impl<'a> Splitting<'a> {
    /// The vertices on the divisor.
    pub fn list(&self) -> &'a [u32] {
        &self.divisor[..self.divisor_count]
    }

    /// How many new edges there are: an odd last vertex makes none.
    pub fn new_edges(&self) -> usize {
        self.divisor_count / 2
    }

    /// The uses to be rebuilt and two for each new edge.
    pub fn result_uses(&self) -> usize {
        used(&self.rebuilt).len() + 2 * self.new_edges()
    }
}

/// Why a split is refused before its walk: the lowest number that holds.
pub fn split_refused(split: &Splitting) -> Option<i32> {
    let tables = split.tables;
    let unknown = |wires| use_unknown(used(wires), tables.edges);
    let floats = || &split.points[..2 * split.divisor_count];
    lowest(&[
        (1, &|| tables.vertices > MOST_VERTICES),
        (1, &|| edges_passed(tables)),
        (1, &|| both_passed(split)),
        (1, &|| list_passed(split)),
        (1, &|| edge_kind_or_preparation_unknown(tables)),
        (2, &|| end_unknown(tables)),
        (2, &|| vertex_unknown(split)),
        (3, &|| unknown(&split.face) || unknown(&split.rebuilt)),
        (4, &|| edge_float_unfit(tables)),
        (4, &|| {
            floats().iter().any(|&bits| unfit(f64::from_bits(bits)))
        }),
        (5, &|| edge_range_unfit(tables)),
        (6, &|| no_room(split)),
        (9, &|| split.divisor_count % 2 == 1),
        (10, &|| vertex_twice(split.list())),
    ])
}

/// 1: there are more wires or uses than the bounds allow, both sets counted
/// together, or more in one of the sets than was lent.
fn both_passed(split: &Splitting) -> bool {
    let sets = [&split.face, &split.rebuilt];
    let wires: u128 = sets.iter().map(|set| set.wires as u128).sum();
    if wires > MOST_WIRES as u128 || sets.iter().any(|set| set.wires > set.lengths.len()) {
        return true;
    }
    let sums = sets.map(sum);
    sums[0] + sums[1] > MOST_USES as u128
        || sums[0] > split.face.uses.len() as u128
        || sums[1] > split.rebuilt.uses.len() as u128
}

/// The sum of wire lengths. The wire count is within the lengths here.
fn sum(wires: &Wires) -> u128 {
    let lengths = &wires.lengths[..wires.wires];
    lengths.iter().map(|&length| u128::from(length)).sum()
}

/// The uses of all wires of a set that is within what was lent.
fn used<'a>(wires: &Wires<'a>) -> &'a [u32] {
    &wires.uses[..sum(wires) as usize]
}

/// 1: there are fewer vertices than the list counts, or fewer than two floats
/// for each of them.
fn list_passed(split: &Splitting) -> bool {
    let count = split.divisor_count as u128;
    count > split.divisor.len() as u128 || 2 * count > split.points.len() as u128
}

/// 2: a vertex on the divisor is not below the vertex count.
fn vertex_unknown(split: &Splitting) -> bool {
    let mut list = split.list().iter();
    list.any(|&vertex| vertex as usize >= split.tables.vertices)
}

/// 6: the uses to be rebuilt and two for each new edge are above the bound, or
/// a buffer for the answer has fewer places than that, or the new edges pass
/// the bound on edges or the lent edge table.
fn no_room(split: &Splitting) -> bool {
    let uses = split.result_uses();
    let edges = split.tables.edges + split.new_edges();
    uses > MOST_USES
        || split.room.iter().any(|&places| places < uses)
        || edges > MOST_EDGES
        || edges * EDGE_NUMBERS > split.tables.edge_numbers.len()
        || edges * EDGE_FLOATS > split.tables.edge_floats.len()
}

/// 10: a vertex is twice on the divisor.
fn vertex_twice(list: &[u32]) -> bool {
    let mut sorted = list.to_vec();
    sorted.sort_unstable();
    sorted.windows(2).any(|pair| pair[0] == pair[1])
}

// --- demand 3 without the walk ---

/// What a split answered: its number, the three counts, and the cells of the
/// two buffers for wires.
pub struct Answered<'a> {
    pub answer: i32,
    pub counts: [usize; 3],
    pub uses: &'a [u32],
    pub lengths: &'a [u32],
}

/// The uses that are to stand in the answered wires, and their ends.
struct Known {
    uses: Vec<u32>,
    ends: Vec<[u32; 2]>,
}

impl Known {
    /// The uses to be rebuilt, and each new edge in both directions.
    fn of(split: &Splitting) -> Known {
        let edges = split.tables.edges().into_iter();
        let mut ends: Vec<[u32; 2]> = edges.map(|edge| [edge.front, edge.back]).collect();
        let mut uses = used(&split.rebuilt).to_vec();
        for pair in split.list().chunks_exact(2) {
            let edge = ends.len() as u32;
            ends.push([pair[0], pair[1]]);
            uses.extend([2 * edge, 2 * edge + 1]);
        }
        Known { uses, ends }
    }

    /// The front of a use.
    fn front(&self, number: u32) -> u32 {
        self.ends[number as usize / 2][number as usize % 2]
    }

    /// The back of a use.
    fn back(&self, number: u32) -> u32 {
        self.front(number ^ 1)
    }

    /// How many uses begin at each vertex and how many end there.
    fn degrees(&self) -> BTreeMap<u32, [usize; 2]> {
        let mut degrees = BTreeMap::<u32, [usize; 2]>::new();
        for &number in &self.uses {
            degrees.entry(self.front(number)).or_default()[0] += 1;
            degrees.entry(self.back(number)).or_default()[1] += 1;
        }
        degrees
    }

    /// What is wrong with the answer to a split that is walked.
    fn judged(&self, split: &Splitting, told: &Answered) -> Option<&'static str> {
        let degrees = self.degrees();
        let balanced = degrees.values().all(|[begin, end]| begin == end);
        let crowded = degrees.values().any(|&[begin, _]| begin > 2);
        match (told.answer, balanced) {
            (0, true) => self.misbuilt(split, told),
            (0, false) => Some("uses out of balance are answered with wires"),
            (11, true) => Some("a dead end among uses in balance"),
            (12, _) if !crowded => Some("a crowd where no vertex has three uses"),
            (11 | 12, _) => None,
            _ => Some("an answer that a walk does not have"),
        }
    }

    /// What is wrong with answered wires.
    fn misbuilt(&self, split: &Splitting, told: &Answered) -> Option<&'static str> {
        let [wires, uses, edges] = told.counts;
        if edges != split.tables.edges + split.new_edges() {
            return Some("the count of edges is not that of the pairs");
        }
        let Some(lengths) = told.lengths.get(..wires) else {
            return Some("more wires than lengths");
        };
        let sum: u64 = lengths.iter().map(|&length| u64::from(length)).sum();
        if sum != uses as u64 || uses > told.uses.len() {
            return Some("the lengths are not those of the uses");
        }
        let mut answered = told.uses[..uses].to_vec();
        let mut wanted = self.uses.clone();
        answered.sort_unstable();
        wanted.sort_unstable();
        if answered != wanted {
            return Some("the answered wires have other uses than were handed in");
        }
        let mut rest = &told.uses[..uses];
        let mut closed = lengths.iter().map(|&length| {
            let (wire, behind) = rest.split_at(length as usize);
            rest = behind;
            self.ends_once(wire)
        });
        (!closed.all(|closed| closed)).then_some("a wire is not closed just at its end")
    }

    /// Whether a wire is connected, and of its backs only the last is its
    /// first front.
    fn ends_once(&self, wire: &[u32]) -> bool {
        let Some((&last, before)) = wire.split_last() else {
            return false;
        };
        let start = self.front(wire[0]);
        let mut pairs = wire.windows(2);
        pairs.all(|pair| self.back(pair[0]) == self.front(pair[1]))
            && self.back(last) == start
            && before.iter().all(|&number| self.back(number) != start)
    }
}

/// What of demand 3 an answer breaks, if no cause comes before the walk: each
/// use stands in the answered wires as often as it was handed in, and once in
/// either direction for a new edge; each wire is closed, and not before its
/// end; uses out of balance are refused, and those in balance are not where
/// no vertex has more than two.
pub fn breach(split: &Splitting, told: &Answered) -> Option<&'static str> {
    match split_refused(split) {
        Some(_) => None,
        None => Known::of(split).judged(split, told),
    }
}
