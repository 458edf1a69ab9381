//! The plain join of two open wires.

use super::tables::edge_rows;
use super::Reference;
use crate::port::Join;

/// The place of a vertex among the fronts of a wire, if it is one.
pub type Place = Option<usize>;

/// The number of a wire and the place of a vertex in it, if there is one.
pub type Found = Option<(usize, usize)>;

/// The steps of the join.
#[derive(Clone, Copy)]
pub struct Steps {
    /// Whether open wires of such lengths are refused.
    pub empty: fn(usize, usize) -> bool,
    /// The two vertices.
    pub vertices: fn(u32, u32) -> [u32; 2],
    /// The front of a use, from the use and the ends of its edge.
    pub front: fn(u32, [u32; 2]) -> u32,
    /// The place of a vertex among fronts.
    pub place: fn(&[u32], u32) -> Place,
    /// The open wire that has v0 and its place there, from its place in either.
    pub holder: fn([Place; 2]) -> Found,
    /// Whether the open wires change places, from i and index.
    pub change: fn(usize, usize) -> bool,
    /// By how much the open wires are turned, from i, index and j.
    pub turns: fn(usize, usize, usize) -> [usize; 2],
    /// The wire, turned so that a place becomes the first.
    pub turn: fn(&[u32], usize) -> Vec<u32>,
    /// The new wire that is taken and the place of v0 in it, from that place
    /// in all of them.
    pub taken: fn(&[Place]) -> Found,
    /// The first open wire with the new wire.
    pub middle: fn(&[u32], &[u32]) -> Vec<u32>,
    /// That, turned to v1, with the second open wire.
    pub whole: fn(&[u32], &[u32]) -> Vec<u32>,
    /// Puts the joined wire in the place of the new wire of a number.
    pub put: fn(&mut Vec<Vec<u32>>, usize, Vec<u32>),
    /// Whether so many uses have room.
    pub fits: fn(&Join, usize) -> bool,
}

impl Default for Steps {
    fn default() -> Self {
        Steps {
            empty: |first, second| first == 0 || second == 0,
            vertices: |v0, v1| [v0, v1],
            front: |number, ends| ends[number as usize % 2],
            place: |fronts, vertex| fronts.iter().position(|&front| front == vertex),
            holder: |[first, second]| match (first, second) {
                (Some(index), _) => Some((0, index)),
                (None, Some(index)) => Some((1, index)),
                (None, None) => None,
            },
            change: |_, index| index != 0,
            turns: |i, _, j| [i, j],
            turn: |wire, place| [&wire[place..], &wire[..place]].concat(),
            taken: |places| {
                let mut all = places.iter().enumerate();
                all.find_map(|(wire, place)| place.map(|place| (wire, place)))
            },
            middle: |first, new| [first, new].concat(),
            whole: |first, second| [first, second].concat(),
            put: |wires, taken, joined| wires[taken] = joined,
            fits: |call, uses| uses <= 1024 && uses <= call.uses.len(),
        }
    }
}

/// The ends of all edges, with the steps.
struct Known<'a> {
    steps: &'a Steps,
    ends: Vec<[u32; 2]>,
}

impl Known<'_> {
    /// The place of a vertex among the fronts of a wire.
    fn place(&self, wire: &[u32], vertex: u32) -> Place {
        let front = |&number: &u32| (self.steps.front)(number, self.ends[number as usize / 2]);
        let fronts: Vec<u32> = wire.iter().map(front).collect();
        (self.steps.place)(&fronts, vertex)
    }

    /// The new wires after the join, if there is one.
    fn joined(
        &self,
        open: [&[u32]; 2],
        mut new: Vec<Vec<u32>>,
        [v0, v1]: [u32; 2],
    ) -> Option<Vec<Vec<u32>>> {
        let steps = self.steps;
        let (i, index) = (steps.holder)(open.map(|wire| self.place(wire, v0)))?;
        let [first, second] = match (steps.change)(i, index) {
            true => [open[1], open[0]],
            false => open,
        };
        let j = self.place(second, v1)?;
        let [by, to] = (steps.turns)(i, index, j);
        let (first, second) = ((steps.turn)(first, by), (steps.turn)(second, to));
        let places: Vec<Place> = new.iter().map(|wire| self.place(wire, v0)).collect();
        let (taken, k) = (steps.taken)(&places)?;
        let middle = (steps.middle)(&first, &(steps.turn)(&new[taken], k));
        let l = self.place(&middle, v1)?;
        let joined = (steps.whole)(&(steps.turn)(&middle, l), &second);
        (steps.put)(&mut new, taken, joined);
        Some(new)
    }
}

/// The new wires as they are lent.
fn new_wires(call: &Join) -> Vec<Vec<u32>> {
    let (mut wires, mut place) = (Vec::new(), 0);
    for &length in &call.lengths[..call.wires] {
        let end = place + length as usize;
        wires.push(call.uses[place..end].to_vec());
        place = end;
    }
    wires
}

/// Joins two open wires.
pub fn connect_open_boundaries(reference: &Reference, call: Join<'_>) -> i32 {
    let Reference { tables, join, .. } = reference;
    if let Some(number) = (tables.choose)(&(tables.join_causes)(&call)) {
        return number;
    }
    let open = [
        &call.first[..call.first_count],
        &call.second[..call.second_count],
    ];
    if (join.empty)(open[0].len(), open[1].len()) {
        return 15;
    }
    let ends = edge_rows(&call.rows).map(|(numbers, _)| [numbers[0], numbers[1]]);
    let known = Known {
        steps: join,
        ends: ends.collect(),
    };
    let vertices = (join.vertices)(call.v0, call.v1);
    let Some(wires) = known.joined(open, new_wires(&call), vertices) else {
        return -1;
    };
    let uses = wires.concat();
    if !(join.fits)(&call, uses.len()) {
        return 6;
    }
    call.uses[..uses.len()].copy_from_slice(&uses);
    for (length, wire) in call.lengths.iter_mut().zip(&wires) {
        *length = wire.len() as u32;
    }
    call.out[0] = uses.len();
    0
}
