//! The plain split of a face's wires.

use super::tables::edge_rows;
use super::Reference;
use crate::port::{Split, Wires};
use crate::records::{Curve, Edge, Preparation};
use crate::shell::{write_edge, EDGE_FLOATS, EDGE_NUMBERS};
use std::collections::BTreeMap;
use std::ops::Range;

/// The uses that begin at each vertex that has some.
pub type Lists = BTreeMap<u32, Vec<u32>>;

/// A vertex on the divisor with its point.
pub type Place = (u32, [f64; 2]);

/// For each edge and direction whether it is marked.
pub type Marks = Vec<[bool; 2]>;

/// Whether so many uses and edges have room in a call.
pub type Fits = fn(&Split, usize, usize) -> bool;

/// The steps of the split.
#[derive(Clone, Copy)]
pub struct Steps {
    /// The pairs of a list, by their places in it.
    pub pairs: fn(usize) -> Vec<[usize; 2]>,
    pub fits: Fits,
    /// Whether a list of such a length is refused.
    pub odd: fn(usize) -> bool,
    /// Whether a list of such vertices is refused.
    pub repeated: fn(&[u32]) -> bool,
    /// The number that is told where there is no room, where the list is odd,
    /// and where a vertex is in it twice.
    pub late: fn([bool; 3]) -> Option<i32>,
    /// The new edge of two vertices on a surface.
    pub seam: fn(Place, Place, u32) -> Edge,
    /// The edges that are marked, from the uses of the face's wires, those to
    /// be rebuilt, and the new edges.
    pub marked: fn(&[u32], &[u32], Range<u32>) -> Marks,
    /// The uses that are walked, from those to be rebuilt and the new edges.
    pub uses: fn(&[u32], Range<u32>) -> Vec<u32>,
    /// The front of a use, from the use and the ends of its edge.
    pub front: fn(u32, [u32; 2]) -> u32,
    /// The vertex at which a wire begins.
    pub start: fn(&Lists) -> Option<u32>,
    /// The place of the use that begins a wire in a list of such a length, or
    /// the number of a refusal.
    pub first: fn(usize) -> Result<usize, i32>,
    /// The place of the use that follows in a list, from whether the use
    /// before it and each of the list is marked, or the number of a refusal.
    pub next: fn(bool, &[bool]) -> Result<usize, i32>,
    /// Takes a use out of a list, and the list away once it is empty.
    pub take: fn(&mut Lists, u32, usize) -> u32,
    /// The number for a vertex that has no list.
    pub dead_end: i32,
    /// The wires that are answered, from those that the walk builds.
    pub wires: fn(Vec<Vec<u32>>) -> Vec<Vec<u32>>,
}

impl Default for Steps {
    fn default() -> Self {
        Steps {
            pairs: |count| {
                (0..count / 2)
                    .map(|pair| [2 * pair, 2 * pair + 1])
                    .collect()
            },
            fits,
            odd: |count| count % 2 == 1,
            repeated: |list| (1..list.len()).any(|place| list[..place].contains(&list[place])),
            late: |holds| {
                let place = holds.iter().position(|&holds| holds)?;
                Some([6, 9, 10][place])
            },
            seam,
            marked,
            uses,
            front: |number, ends| ends[number as usize % 2],
            start: |lists| Some(*lists.iter().find(|(_, list)| !list.is_empty())?.0),
            first: |length| Ok(length - 1),
            next: |before, list| match *list {
                [] => Err(13),
                [_] => Ok(0),
                [first, _] => Ok(usize::from(before == first)),
                _ => Err(12),
            },
            take,
            dead_end: 11,
            wires: |wires| wires,
        }
    }
}

/// Whether the uses have room, each as a use and as a length, and the edges.
pub fn fits(call: &Split, uses: usize, edges: usize) -> bool {
    uses <= 1024
        && uses <= call.uses.len()
        && uses <= call.lengths.len()
        && edges <= 4096
        && edges <= call.edge_numbers.len() / EDGE_NUMBERS
        && edges <= call.edge_floats.len() / EDGE_FLOATS
}

/// A square seam from one vertex to the other, from 0 to 1.
pub fn seam((front, p): Place, (back, q): Place, surface: u32) -> Edge {
    let (t0, t1) = (0.0, 1.0);
    Edge {
        front,
        back,
        curve: Curve::Seam {
            surface,
            p,
            q,
            t0,
            t1,
        },
        preparation: Preparation::Square,
    }
}

/// The edges that the face's wires have twice, and the new ones.
pub fn marked(face: &[u32], _rebuilt: &[u32], new: Range<u32>) -> Marks {
    let mut times = vec![0; new.end as usize];
    for &number in face {
        times[number as usize / 2] += 1;
    }
    times[new.start as usize..].fill(2);
    times.into_iter().map(|times| [times > 1; 2]).collect()
}

/// The uses to be rebuilt, then each new edge forward and reversed.
pub fn uses(rebuilt: &[u32], new: Range<u32>) -> Vec<u32> {
    let new = 2 * new.start..2 * new.end;
    rebuilt.iter().copied().chain(new).collect()
}

/// Takes a use out of the list of a vertex.
pub fn take(lists: &mut Lists, vertex: u32, place: usize) -> u32 {
    let list = lists.get_mut(&vertex).expect("a list");
    let number = list.remove(place);
    if list.is_empty() {
        lists.remove(&vertex);
    }
    number
}

/// The ends of all edges and their marks, with the steps.
struct Known<'a> {
    steps: &'a Steps,
    ends: Vec<[u32; 2]>,
    marks: Marks,
}

impl Known<'_> {
    fn front(&self, number: u32) -> u32 {
        (self.steps.front)(number, self.ends[number as usize / 2])
    }

    fn marked(&self, number: u32) -> bool {
        self.marks[number as usize / 2][number as usize % 2]
    }

    /// The uses, each in the list of its front.
    fn lists(&self, uses: &[u32]) -> Lists {
        let mut lists = Lists::new();
        for &number in uses {
            lists.entry(self.front(number)).or_default().push(number);
        }
        lists
    }

    /// The use that follows another one.
    fn next(&self, lists: &mut Lists, number: u32) -> Result<u32, i32> {
        let vertex = self.front(number ^ 1);
        let list = lists.get(&vertex).ok_or(self.steps.dead_end)?;
        let marks: Vec<bool> = list.iter().map(|&number| self.marked(number)).collect();
        let place = (self.steps.next)(self.marked(number), &marks)?;
        Ok((self.steps.take)(lists, vertex, place))
    }

    /// The wires that the walk builds, or the number of a refusal.
    fn walk(&self, mut lists: Lists) -> Result<Vec<Vec<u32>>, i32> {
        let mut wires = Vec::new();
        while let Some(start) = (self.steps.start)(&lists) {
            let place = (self.steps.first)(lists[&start].len())?;
            let mut wire = vec![(self.steps.take)(&mut lists, start, place)];
            while self.front(wire[wire.len() - 1] ^ 1) != start {
                let number = self.next(&mut lists, wire[wire.len() - 1])?;
                wire.push(number);
            }
            wires.push(wire);
        }
        Ok(wires)
    }
}

/// The uses of all wires of a set.
fn used<'a>(wires: &Wires<'a>) -> &'a [u32] {
    let lengths = &wires.lengths[..wires.wires];
    let sum: usize = lengths.iter().map(|&length| length as usize).sum();
    &wires.uses[..sum]
}

/// The vertices on the divisor with their points.
fn places(call: &Split) -> Vec<Place> {
    let points = call.points.chunks_exact(2);
    let list = call.divisor.iter().zip(points).take(call.divisor_count);
    let place = |(&vertex, point): (&u32, &[u64])| {
        let [u, v] = [point[0], point[1]].map(f64::from_bits);
        (vertex, [u, v])
    };
    list.map(place).collect()
}

/// The number under which a split is refused before its walk.
fn refused(steps: &Steps, call: &Split, new: usize) -> Option<i32> {
    let uses = used(&call.rebuilt).len() + 2 * new;
    let crowded = !(steps.fits)(call, uses, call.edges + new);
    let odd = (steps.odd)(call.divisor_count);
    let repeated = (steps.repeated)(&call.divisor[..call.divisor_count]);
    (steps.late)([crowded, odd, repeated])
}

/// The wires that are answered, or the number of a refusal.
fn rebuilt(steps: &Steps, call: &Split, new: &[Edge]) -> Result<Vec<Vec<u32>>, i32> {
    let rows = call.rows();
    let mut ends: Vec<[u32; 2]> = edge_rows(&rows)
        .map(|(numbers, _)| [numbers[0], numbers[1]])
        .collect();
    ends.extend(new.iter().map(|edge| [edge.front, edge.back]));
    let (face, rebuilt) = (used(&call.face), used(&call.rebuilt));
    let range = call.edges as u32..ends.len() as u32;
    let known = Known {
        steps,
        ends,
        marks: (steps.marked)(face, rebuilt, range.clone()),
    };
    let lists = known.lists(&(steps.uses)(rebuilt, range));
    known.walk(lists).map(steps.wires)
}

/// Writes the new edges behind the others.
fn write_edges(call: &mut Split, new: &[Edge]) {
    let numbers = call.edge_numbers.chunks_exact_mut(EDGE_NUMBERS);
    let rows = numbers.zip(call.edge_floats.chunks_exact_mut(EDGE_FLOATS));
    for ((numbers, floats), edge) in rows.skip(call.edges).zip(new) {
        write_edge(edge, numbers, floats);
    }
}

/// Writes the wires, as far as there is room for a wrong step's wires.
fn write_wires(call: &mut Split, wires: &[Vec<u32>]) {
    let uses = wires.concat();
    call.uses
        .iter_mut()
        .zip(&uses)
        .for_each(|(to, from)| *to = *from);
    for (length, wire) in call.lengths.iter_mut().zip(wires) {
        *length = wire.len() as u32;
    }
}

/// Splits the wires of a face.
pub fn split_boundaries_by_divisor(reference: &Reference, mut call: Split<'_>) -> i32 {
    let (tables, steps) = (&reference.tables, &reference.split);
    if let Some(number) = (tables.choose)(&(tables.split_causes)(&call)) {
        return number;
    }
    let pairs = (steps.pairs)(call.divisor_count);
    if let Some(number) = refused(steps, &call, pairs.len()) {
        return number;
    }
    let (places, surface) = (places(&call), call.surface);
    let edge = |[first, second]: [usize; 2]| (steps.seam)(places[first], places[second], surface);
    let new: Vec<Edge> = pairs.into_iter().map(edge).collect();
    let wires = match rebuilt(steps, &call, &new) {
        Ok(wires) => wires,
        Err(number) => return number,
    };
    write_edges(&mut call, &new);
    write_wires(&mut call, &wires);
    let uses = wires.iter().map(Vec::len).sum();
    let counts = [wires.len(), uses, call.edges + new.len()];
    call.out.copy_from_slice(&counts);
    0
}
