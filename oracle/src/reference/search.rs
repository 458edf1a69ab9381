//! Plain nearest ends and non-simple search.

use super::tables::{edge_rows, vertex_rows};
use super::Reference;
use crate::port::{Nearest, Rows, Search};
use std::ops::Range;

/// Two places in a wire.
pub type Pair = (usize, usize);

/// The steps of both calls.
#[derive(Clone, Copy)]
pub struct Steps {
    /// The squared distance of two points.
    pub distance2: fn([f64; 3], [f64; 3]) -> f64,
    /// Whether the first distance wins over the second, which is an earlier
    /// vertex's.
    pub wins: fn(f64, f64) -> bool,
    /// The front of a use, from the use and the ends of its edge.
    pub front: fn(u32, [u32; 2]) -> u32,
    /// The vertex to start from, and the two nearest ones, as they are told.
    pub told: fn(u32, u32, u32) -> [u32; 2],
    /// The first pair of equal edges from a place on.
    pub pair: fn(&[u32], usize) -> Option<Pair>,
    /// The wire, turned so that a place becomes the first.
    pub turn: fn(&[u32], usize) -> Vec<u32>,
    /// Where the second pair is looked for.
    pub from: fn(usize) -> usize,
    /// The second pair where there is none, from j0 and the length.
    pub lacking: fn(usize, usize) -> Pair,
    /// The two places that are read, from j0, i1 and j1.
    pub places: fn(usize, usize, usize) -> [usize; 2],
    /// The two stretches, from j0, i1 and j1.
    pub stretches: fn(usize, usize, usize) -> [Range<usize>; 2],
    /// How the whole search ends, from how it ends for each wire.
    pub end: fn(&[Found]) -> Found,
}

/// What comes of one wire.
#[derive(Clone, Copy, PartialEq, Eq)]
pub enum Found {
    Pair([u32; 2]),
    Nothing,
    PastEnd,
}

impl Default for Steps {
    fn default() -> Self {
        Steps {
            distance2,
            wins: |distance, best| distance < best,
            front: |number, ends| ends[number as usize % 2],
            told: |_, v0, v1| [v0, v1],
            pair,
            turn: |wire, place| [&wire[place..], &wire[..place]].concat(),
            from: |j0| j0 + 1,
            lacking: |j0, length| (j0, length),
            places: |j0, i1, j1| [j0.div_ceil(2), (i1 + j1).div_ceil(2)],
            stretches: |j0, i1, j1| [1..j0, i1 + 1..j1],
            end: |found| {
                let mut found = found.iter().filter(|&&one| one != Found::Nothing);
                found.next().copied().unwrap_or(Found::Nothing)
            },
        }
    }
}

/// The squared distance, added in the order x, y, z.
pub fn distance2(p: [f64; 3], q: [f64; 3]) -> f64 {
    let [x, y, z] = [0, 1, 2].map(|i| (p[i] - q[i]) * (p[i] - q[i]));
    x + y + z
}

/// The first place whose edge stood before, and where it stood, from a place
/// on.
pub fn pair(wire: &[u32], from: usize) -> Option<Pair> {
    let mut places = std::collections::HashMap::new();
    for (place, number) in wire.iter().enumerate().skip(from) {
        if let Some(earlier) = places.insert(number / 2, place) {
            return Some((earlier, place));
        }
    }
    None
}

/// The tables as the search needs them.
struct Known<'a> {
    steps: &'a Steps,
    points: Vec<[f64; 3]>,
    ends: Vec<[u32; 2]>,
}

impl<'a> Known<'a> {
    fn new(steps: &'a Steps, rows: &Rows) -> Self {
        let point = |(_, floats): (&[u32], &[u64])| [0, 1, 2].map(|i| f64::from_bits(floats[i]));
        Known {
            steps,
            points: vertex_rows(rows).map(point).collect(),
            ends: edge_rows(rows)
                .map(|(numbers, _)| [numbers[0], numbers[1]])
                .collect(),
        }
    }

    /// The front of a use.
    fn front(&self, number: u32) -> u32 {
        (self.steps.front)(number, self.ends[number as usize / 2])
    }

    /// The front of the uses that is nearest to a vertex.
    fn nearest(&self, vertex: u32, uses: &[u32]) -> Option<u32> {
        let distance = |v: u32| {
            let [p, q] = [vertex, v].map(|v| self.points[v as usize]);
            (self.steps.distance2)(p, q)
        };
        let mut fronts = uses.iter().map(|&number| self.front(number));
        let mut best = fronts.next()?;
        for front in fronts {
            if (self.steps.wins)(distance(front), distance(best)) {
                best = front;
            }
        }
        Some(best)
    }

    /// The nearest ends of two stretches.
    fn correction(&self, v0: u32, first: &[u32], second: &[u32]) -> Found {
        let Some(v1) = self.nearest(v0, second) else {
            return Found::Nothing;
        };
        match self.nearest(v1, first) {
            Some(nearest) => Found::Pair((self.steps.told)(v0, nearest, v1)),
            None => Found::Nothing,
        }
    }

    /// What comes of one wire.
    fn wire(&self, wire: &[u32]) -> Found {
        let steps = self.steps;
        let Some((earlier, later)) = (steps.pair)(wire, 0) else {
            return Found::Nothing;
        };
        let wire = (steps.turn)(wire, earlier);
        let j0 = later - earlier;
        let second = (steps.pair)(&wire, (steps.from)(j0));
        let (i1, j1) = second.unwrap_or((steps.lacking)(j0, wire.len()));
        let [k0, k1] = (steps.places)(j0, i1, j1);
        if k1 >= wire.len() {
            return Found::PastEnd;
        }
        let [first, second] = (steps.stretches)(j0, i1, j1);
        self.correction(self.front(wire[k0]), &wire[first], &wire[second])
    }
}

/// Writes what was found.
fn say(found: Found, out: &mut [u32]) -> i32 {
    match found {
        Found::Pair(vertices) => {
            out.copy_from_slice(&vertices);
            0
        }
        Found::Nothing => -1,
        Found::PastEnd => 8,
    }
}

/// Looks for the nearest ends.
pub fn nearest_correction(reference: &Reference, call: Nearest<'_>) -> i32 {
    let Reference { tables, search, .. } = reference;
    if let Some(number) = (tables.choose)(&(tables.nearest_causes)(&call)) {
        return number;
    }
    let (first, second) = (
        &call.first[..call.first_count],
        &call.second[..call.second_count],
    );
    if (tables.pending)(&call.rows, &[first, second].concat()) {
        return 7;
    }
    let known = Known::new(search, &call.rows);
    say(known.correction(call.v0, first, second), call.out)
}

/// Looks for a divisor.
pub fn find_non_simple_wire_divisor(reference: &Reference, call: Search<'_>) -> i32 {
    let Reference { tables, search, .. } = reference;
    if let Some(number) = (tables.choose)(&(tables.causes)(&call.rows, &call.wires)) {
        return number;
    }
    let lengths = &call.wires.lengths[..call.wires.wires];
    let used = lengths.iter().sum::<u32>() as usize;
    if (tables.pending)(&call.rows, &call.wires.uses[..used]) {
        return 7;
    }
    let known = Known::new(search, &call.rows);
    let (mut found, mut place) = (Vec::new(), 0);
    for &length in lengths {
        let end = place + length as usize;
        found.push(known.wire(&call.wires.uses[place..end]));
        place = end;
    }
    say((search.end)(&found), call.out)
}
