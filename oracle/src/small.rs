//! Every small shell: up to two vertices, two edges with all ends and kinds and
//! with two of the three preparations in turn, two wires with up to three uses
//! in all orders; for the closed-edge pass each in buffers of just the result's
//! length, and with each buffer in turn one cell shorter, cut in the middle; and
//! each with other values of k in turn.

use crate::calls::split_closed_edges::SplitClosed;
use crate::random::Random;
use crate::records::{Curve, Edge, Preparation, Shell, Vertex};
use crate::shell::{needed, Lent};

/// Most uses in the two wires together.
const MOST_USES: usize = 3;

/// Shows every small input of the closed-edge pass to the visitor, until it
/// answers false.
pub fn each(visit: &mut dyn FnMut(&SplitClosed) -> bool) {
    each_shell(&mut |shell, turn| each_room(shell, turn, visit));
}

/// Shows every small shell to the visitor, with a number of its own, until it
/// answers false.
pub fn each_shell(visit: &mut dyn FnMut(&Shell, usize) -> bool) {
    let mut turn = 0;
    for (vertices, edges) in [(0, 0), (1, 0), (1, 1), (1, 2), (2, 0), (2, 1), (2, 2)] {
        let layouts = layouts();
        for code in 0..power(2 * vertices * vertices, edges) {
            for lengths in &layouts {
                let uses: usize = lengths.iter().sum();
                for order in 0..power(2 * edges, uses) {
                    let wires = wires(lengths, order, 2 * edges);
                    let shell = Shell {
                        vertices: (0..vertices).map(|i| vertex(turn + i)).collect(),
                        edges: (0..edges).map(|i| edge(code, i, vertices, turn)).collect(),
                        wires,
                    };
                    turn += 1;
                    if !visit(&shell, turn) {
                        return;
                    }
                }
            }
        }
    }
}

/// Shows one shell in all its buffers.
fn each_room(shell: &Shell, turn: usize, visit: &mut dyn FnMut(&SplitClosed) -> bool) -> bool {
    let closed = |number: u32| {
        let edge = &shell.edges[number as usize];
        edge.front == edge.back
    };
    let [vertices, edges, uses] = shell.counts();
    let more = (0..edges as u32).filter(|&number| closed(number)).count();
    let doubled = shell
        .wires
        .iter()
        .flatten()
        .filter(|&&used| closed(used / 2));
    let result = [vertices + more, edges + more, uses + doubled.count()];
    let sizes = needed(result, shell.wires.len());
    let lent = Lent::holding(shell, sizes, &mut Random::new(0, 0, turn as u64));
    let input = SplitClosed::in_the_middle(lent);
    let shorter = |short: usize| {
        let (mut less, mut shorter) = (sizes, input.clone());
        less[short] -= 1;
        shorter.lent.shorten(less);
        shorter
    };
    let filled: Vec<usize> = (0..6).filter(|&short| sizes[short] > 0).collect();
    let mut some = vec![input.clone()];
    some.extend(filled.get(turn % 6).map(|&short| shorter(short)));
    let mut with = |k: u32| {
        let mut inputs = some.iter().cloned();
        inputs.all(|input| visit(&SplitClosed { k, ..input }))
    };
    each_k(turn).into_iter().all(&mut with)
        && visit(&input)
        && filled.iter().all(|&short| visit(&shorter(short)))
}

/// A k away from the middle and one that may not be handed in, in turn.
fn each_k(turn: usize) -> [u32; 2] {
    let away = [1, 2, 3, 5, 6, 7];
    let unknown = [0, 8, 260, (1 << 31) + 4, u32::MAX];
    let round = turn / RANGES.len();
    [away[round % away.len()], unknown[turn % unknown.len()]]
}

/// The wire lengths: up to two wires with all uses that are allowed.
fn layouts() -> Vec<Vec<usize>> {
    let mut layouts = vec![vec![]];
    for first in 0..=MOST_USES {
        layouts.push(vec![first]);
        layouts.extend((0..=MOST_USES - first).map(|second| vec![first, second]));
    }
    layouts
}

/// The wires of the given lengths whose uses are the digits of a code.
fn wires(lengths: &[usize], mut code: usize, base: usize) -> Vec<Vec<u32>> {
    let mut digit = || {
        let digit = code % base;
        code /= base;
        digit as u32
    };
    let mut wire = |&length: &usize| (0..length).map(|_| digit()).collect();
    lengths.iter().map(&mut wire).collect()
}

/// Edge `i` of a code: a digit says its kind and both ends.
fn edge(code: usize, i: usize, vertices: usize, turn: usize) -> Edge {
    let ends = vertices * vertices;
    let digit = code / power(2 * ends, i) % (2 * ends);
    Edge {
        front: (digit % vertices) as u32,
        back: (digit / vertices % vertices) as u32,
        curve: curve(digit / ends, turn + 5 * i),
        preparation: Preparation::in_turn(turn + i),
    }
}

/// Ranges that are gone through in turn.
const RANGES: [(f64, f64); 8] = [
    (0.0, 8.0),
    (-0.0, -0.0),
    (0.1, 0.3),
    (-1.0e15, 1.0e15),
    (5.0e-324, 5.0e-324),
    (1.0e15, 1.0e15),
    (0.0, -0.0),
    (-3.0, 0.7),
];

/// A span or a seam with one of the ranges.
fn curve(kind: usize, turn: usize) -> Curve {
    let (t0, t1) = RANGES[turn % RANGES.len()];
    match kind {
        0 => Curve::Span {
            number: turn as u32,
            t0,
            t1,
        },
        _ => Curve::Seam {
            surface: turn as u32,
            p: [turn as f64, -0.0],
            q: [0.5, 2.5],
            t0,
            t1,
        },
    }
}

/// A vertex that is given, pending on a span or pending on a seam, in turn.
fn vertex(turn: usize) -> Vertex {
    match turn % 3 {
        0 => Vertex::Given(turn as f64, -0.0, 1.5),
        kind => {
            let curve = curve(kind - 1, turn);
            Vertex::Pending(curve, curve.range().0)
        }
    }
}

/// A whole power.
fn power(base: usize, exponent: usize) -> usize {
    base.pow(exponent as u32)
}
