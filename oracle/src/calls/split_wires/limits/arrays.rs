//! Vertices, edges and lists around 64, where the port's small local arrays
//! end: one has a place for each vertex, the other for each edge, new ones
//! included.

use super::{place, split_into, K10, K9, UNMARKED};
use crate::calls::split_wires::{Place, SplitWires};
use crate::calls::tables::{in_turn, sample_edges, spans};
use crate::compare::Case;
use crate::limits::arrays::{around_64, Around};
use crate::records::wire;

/// All cases.
pub fn cases() -> Vec<Case<SplitWires>> {
    [rooms(), faces(), stuck(), repeated(), lists()]
        .into_iter()
        .flatten()
        .collect()
}

/// Vertices, and edges with the new one.
const VERTICES_AND_EDGES: [Around; 15] = around_64!(6, " vertices and ", " edges");

/// Wires whose edges stand behind so many others.
fn behind(edges: usize, notations: &[&str]) -> Vec<Vec<u32>> {
    let moved = |number: u32| number + 2 * edges as u32;
    let wires = notations.iter().map(|notation| wire(notation));
    wires
        .map(|wire| wire.into_iter().map(moved).collect())
        .collect()
}

/// K10 over the last of so many vertices and of so many edges, with the new
/// one, and with the preparations in turn.
fn last_of([vertices, edges]: [usize; 2]) -> SplitWires {
    let (unused, from) = (edges - 6, vertices as u32 - 4);
    let mut all = spans(&vec![(0, from); unused]);
    all.extend_from_slice(&sample_edges()[..5]);
    for edge in &mut all[unused..] {
        edge.front += from;
        edge.back += from;
    }
    let wires = behind(unused, &[K9]);
    let list = [from + 3, from + 1].map(place);
    let all = in_turn(&all, 0);
    SplitWires::over((vertices, &all), [&wires, &wires], &list, 3)
}

/// Splits that are done, and refused for one length too few.
fn rooms() -> Vec<Case<SplitWires>> {
    let both = |(sizes, [fits, short]): Around| {
        let input = last_of(sizes);
        let mut few = input.clone();
        few.lengths.truncate(7);
        let after = behind(sizes[1] - 6, &K10);
        [
            split_into(fits, input, &after),
            Case::unchanged(short, few, 6),
        ]
    };
    VERTICES_AND_EDGES.into_iter().flat_map(both).collect()
}

/// No edge is marked but the new one.
fn faces() -> Vec<Case<SplitWires>> {
    let without = |name, edges: usize| {
        let mut input = last_of([6, edges]);
        input.face.wires = 0;
        split_into(name, input, &behind(edges - 6, &UNMARKED))
    };
    vec![
        without("63 edges and no face", 63),
        without("64 edges and no face", 64),
        without("65 edges and no face", 65),
    ]
}

/// Walks that come to a dead end or to a crowd.
fn stuck() -> Vec<Case<SplitWires>> {
    let dead_end = |name, edges: usize| {
        let mut input = last_of([6, edges]);
        input.rebuilt.lengths[0] = 5;
        Case::unchanged(name, input, 11)
    };
    let crowd = |name, edges: usize| {
        let mut input = last_of([6, edges]);
        input.rebuilt.uses[0] += 4;
        Case::unchanged(name, input, 12)
    };
    vec![
        dead_end("63 edges and a dead end", 63),
        dead_end("64 edges and a dead end", 64),
        dead_end("65 edges and a dead end", 65),
        crowd("63 edges and a crowd", 63),
        crowd("64 edges and a crowd", 64),
        crowd("65 edges and a crowd", 65),
    ]
}

/// A list of all of so many vertices, and nothing else.
fn list_of(vertices: usize) -> SplitWires {
    let places: Vec<Place> = (0..vertices as u32).map(place).collect();
    SplitWires::over((vertices, &[]), [&[], &[]], &places, 3)
}

/// The last vertex twice.
fn repeated() -> Vec<Case<SplitWires>> {
    let pair = |name, vertices: usize| {
        let mut input = last_of([vertices, 6]);
        input.divisor[1] = input.divisor[0];
        Case::unchanged(name, input, 10)
    };
    let list = |name, vertices: usize| {
        let mut input = list_of(vertices);
        input.divisor[0] = vertices as u32 - 1;
        Case::unchanged(name, input, 10)
    };
    vec![
        pair("the last of 63 vertices twice", 63),
        pair("the last of 64 vertices twice", 64),
        pair("the last of 65 vertices twice", 65),
        list("the last of a list of 62 twice", 62),
        list("the last of a list of 64 twice", 64),
        list("the last of a list of 66 twice", 66),
    ]
}

/// Each pair of a list is a new edge and a wire of its own.
fn lists() -> Vec<Case<SplitWires>> {
    let pairs = |name, vertices: usize| {
        let wires: Vec<_> = (0..vertices as u32 / 2)
            .map(|edge| vec![2 * edge, 2 * edge + 1])
            .collect();
        split_into(name, list_of(vertices), &wires)
    };
    let few = |name, vertices: usize| {
        let mut input = list_of(vertices);
        input.uses.truncate(vertices - 1);
        Case::unchanged(name, input, 6)
    };
    let odd = |name, vertices: usize| Case::unchanged(name, list_of(vertices), 9);
    vec![
        pairs("a list of 62", 62),
        odd("a list of 63", 63),
        pairs("a list of 64", 64),
        odd("a list of 65", 65),
        pairs("a list of 66", 66),
        few("a list of 64, no room", 64),
        few("a list of 66, no room", 66),
        pairs("63 pairs", 126),
        pairs("64 pairs", 128),
        pairs("65 pairs", 130),
        few("63 pairs, no room", 126),
        few("64 pairs, no room", 128),
        few("65 pairs, no room", 130),
    ]
}
