//! Edges and uses around 64: up to that many the port has small local arrays,
//! and large ones for more.

use super::ways::{done_at, edge, held, refused, span};
use super::ORIGIN;
use crate::calls::split_closed_edges::{SplitClosed, MIDDLE};
use crate::compare::Case;
use crate::records::{Preparation, Shell, Vertex};
use crate::shell::needed;

/// Two numbers, and the names of a call that is done and of one without room.
pub type Around = ([usize; 2], [&'static str; 2]);

/// Each of two numbers around 64, with the other at a little number and around
/// 64 too; the names are made of the numbers and the words behind them.
macro_rules! around_64 {
    ($little:literal, $first:literal, $second:literal) => {
        around_64!(@ $first, $second,
            63 $little, 64 $little, 65 $little, $little 63, $little 64, $little 65,
            63 63, 63 64, 63 65, 64 63, 64 64, 64 65, 65 63, 65 64, 65 65)
    };
    (@ $first:literal, $second:literal, $($a:literal $b:literal),*) => {
        [$((
            [$a, $b],
            [
                concat!($a, $first, $b, $second),
                concat!($a, $first, $b, $second, ", no room"),
            ],
        )),*]
    };
}
pub(crate) use around_64;

/// Edges and uses of the pass and of the cuts.
pub const EDGES_AND_USES: [Around; 15] = around_64!(2, " edges and ", " uses");

/// All cases.
pub fn cases() -> Vec<Case<SplitClosed>> {
    let at = |name, k: u32, edges: usize, uses: usize| {
        let (before, after) = rings(edges, uses, k);
        done_at(name, k, &before, &after)
    };
    let both = |([edges, uses], [fits, short]): Around| {
        let (before, after) = rings(edges, uses, MIDDLE);
        let input = held(&before, one_use_too_few(&after));
        [at(fits, MIDDLE, edges, uses), refused(short, 6, input)]
    };
    let mut cases: Vec<_> = EDGES_AND_USES.into_iter().flat_map(both).collect();
    cases.push(at("64 edges and 64 uses, k 3", 3, 64, 64));
    cases.push(at("65 edges and 65 uses, k 7", 7, 65, 65));
    cases
}

/// The lengths of buffers that hold a shell, save one use of it.
pub fn one_use_too_few(shell: &Shell) -> [usize; 6] {
    let mut sizes = needed(shell.counts(), shell.wires.len());
    sizes[4] -= 1;
    sizes
}

/// So many uses of so many edges, from the last edge on, in two wires.
pub fn two_wires(edges: usize, uses: usize) -> Vec<Vec<u32>> {
    let used = |place: usize| {
        let number = 2 * (edges - 1 - place % edges) + usize::from(place % 3 == 1);
        number as u32
    };
    let used: Vec<u32> = (0..uses).map(used).collect();
    let (first, second) = used.split_at(uses - 1);
    vec![first.to_vec(), second.to_vec()]
}

/// The wires after cuts: `cut` gives the new edge of an edge that is cut.
pub fn mended(wires: &[Vec<u32>], cut: impl Fn(u32) -> Option<u32>) -> Vec<Vec<u32>> {
    let mend = |&number: &u32| match (cut(number / 2), number % 2) {
        (None, _) => vec![number],
        (Some(new), 0) => vec![number, 2 * new],
        (Some(new), _) => vec![2 * new + 1, number],
    };
    let mend = |wire: &Vec<u32>| wire.iter().flat_map(mend).collect();
    wires.iter().map(mend).collect()
}

/// So many closed edges at one vertex, with the preparations in turn, and so
/// many uses of them, before and after the pass with a k.
fn rings(edges: usize, uses: usize, k: u32) -> (Shell, Shell) {
    let (all, t) = (0..edges as u32, f64::from(k));
    let curve = |number: u32| span(number, 0.0, 8.0);
    let prepared = |i: u32, from: u32, to: u32, t0: f64, t1: f64| {
        let edge = edge(from, to, span(i, t0, t1));
        edge.prepared(Preparation::in_turn(i as usize))
    };
    let wires = two_wires(edges, uses);
    let mut after = Shell {
        vertices: vec![ORIGIN],
        edges: Vec::new(),
        wires: mended(&wires, |edge| Some(edge + edges as u32)),
    };
    let before = Shell {
        vertices: vec![ORIGIN],
        edges: all.clone().map(|i| prepared(i, 0, 0, 0.0, 8.0)).collect(),
        wires,
    };
    let new = all.clone().map(|i| Vertex::Pending(curve(i), t));
    after.vertices.extend(new);
    let halves = all.clone().map(|i| prepared(i, 0, i + 1, 0.0, t));
    after.edges.extend(halves);
    let halves = all.map(|i| prepared(i, i + 1, 0, t, 8.0));
    after.edges.extend(halves);
    (before, after)
}
