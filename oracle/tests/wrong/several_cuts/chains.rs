//! Chains whose pieces, vertices or preparations are wrong.

use super::{after, made};
use crate::wrong::{step, Mutant};
use oracle::records::Preparation::{DoubleBevel, SingleBevel, Square};
use oracle::records::Vertex;
use oracle::reference::several_cuts::{ends, pieces, ranges, vertices, Place};
use oracle::shell::{EDGE_NUMBERS, PREPARATION, VERTEX_FLOATS};

/// All lists.
pub fn lists() -> Vec<Vec<Mutant>> {
    vec![
        wrong_ranges(),
        wrong_places(),
        wrong_numbers(),
        wrong_ends(),
        as_the_rust_does(),
        wrong_preparations(),
        wrong_points(),
        left_out(),
    ]
}

/// Pieces that begin or end at the wrong parameter.
fn wrong_ranges() -> Vec<Mutant> {
    vec![
        step("the last piece ends at the last cut", |r| {
            r.several.ranges = |cuts, range| {
                let mut ranges = ranges(cuts, range);
                let last = ranges.len() - 1;
                ranges[last].1 = ranges[last].0;
                ranges
            }
        }),
        step("every piece begins at t0", |r| {
            r.several.ranges = |cuts, (t0, t1)| {
                let ranges = ranges(cuts, (t0, t1)).into_iter();
                ranges.map(|(_, to)| (t0, to)).collect()
            }
        }),
        step("the last piece begins at t0", |r| {
            r.several.ranges = |cuts, (t0, t1)| {
                let mut ranges = ranges(cuts, (t0, t1));
                let last = ranges.len() - 1;
                ranges[last].0 = t0;
                ranges
            }
        }),
        step("the last piece begins at the first cut", |r| {
            r.several.ranges = |cuts, range| {
                let mut ranges = ranges(cuts, range);
                let last = ranges.len() - 1;
                ranges[last].0 = ranges[0].1;
                ranges
            }
        }),
        step("every piece ends at t1", |r| {
            r.several.ranges = |cuts, (t0, t1)| {
                let ranges = ranges(cuts, (t0, t1)).into_iter();
                ranges.map(|(from, _)| (from, t1)).collect()
            }
        }),
        step("the first piece keeps the whole curve", |r| {
            r.several.ranges = |cuts, (t0, t1)| {
                let mut ranges = ranges(cuts, (t0, t1));
                ranges[0].1 = t1;
                ranges
            }
        }),
        step("the first piece ends at the last cut", |r| {
            r.several.ranges = |cuts, range| {
                let mut ranges = ranges(cuts, range);
                ranges[0].1 = ranges[ranges.len() - 1].0;
                ranges
            }
        }),
        step("curves in falling order", |r| {
            r.several.ranges = |cuts, range| ranges(cuts, range).into_iter().rev().collect()
        }),
        step("new curves in falling order", |r| {
            r.several.ranges = |cuts, range| {
                let mut ranges = ranges(cuts, range);
                ranges[1..].reverse();
                ranges
            }
        }),
    ]
}

/// The cuts with another parameter, made of the cut and the range.
fn moved(cuts: &[Place], t: impl Fn(Place) -> f64) -> Vec<Place> {
    let cut = |&[t0, x, y, z]: &Place| [t([t0, x, y, z]), x, y, z];
    cuts.iter().map(cut).collect()
}

/// Curves that are cut elsewhere.
fn wrong_places() -> Vec<Mutant> {
    vec![
        step("cut in the middle", |r| {
            r.several.ranges = |cuts, (t0, t1)| {
                let cuts = moved(cuts, |_| (t0 + t1) / 2.0);
                ranges(&cuts, (t0, t1))
            }
        }),
        step("cut at x", |r| {
            r.several.ranges = |cuts, range| ranges(&moved(cuts, |cut| cut[1]), range)
        }),
        step("negative zero of t lost", |r| {
            r.several.ranges = |cuts, range| ranges(&moved(cuts, |cut| cut[0] + 0.0), range)
        }),
        step("cut in even parts", |r| {
            r.several.ranges = |cuts, (t0, t1)| {
                let part = (t1 - t0) / (cuts.len() + 1) as f64;
                let mut even = cuts.to_vec();
                for (row, cut) in even.iter_mut().enumerate() {
                    cut[0] = t0 + part * (row + 1) as f64;
                }
                ranges(&even, (t0, t1))
            }
        }),
    ]
}

/// Pieces and vertices with other numbers.
fn wrong_numbers() -> Vec<Mutant> {
    vec![
        step("pieces numbered from the last cut", |r| {
            r.several.pieces = |edge, edges, cuts| {
                let mut numbers = pieces(edge, edges, cuts);
                numbers[1..].reverse();
                numbers
            }
        }),
        step("the first piece under a new number", |r| {
            r.several.pieces = |edge, edges, cuts| {
                let mut numbers = pieces(edge, edges, cuts);
                numbers.rotate_left(1);
                numbers
            }
        }),
        step("the first piece under the last number", |r| {
            r.several.pieces = |edge, edges, cuts| {
                let mut numbers = pieces(edge, edges, cuts);
                numbers.reverse();
                numbers
            }
        }),
        step("the first two new pieces exchanged", |r| {
            r.several.pieces = |edge, edges, cuts| {
                let mut numbers = pieces(edge, edges, cuts);
                if cuts > 1 {
                    numbers.swap(1, 2);
                }
                numbers
            }
        }),
        step("vertices numbered from the last cut", |r| {
            r.several.vertices = |first, cuts| vertices(first, cuts).into_iter().rev().collect()
        }),
        step("vertices numbered from the second cut", |r| {
            r.several.vertices = |first, cuts| {
                let mut numbers = vertices(first, cuts);
                numbers.rotate_right(1);
                numbers
            }
        }),
        step("all numbered from the last cut", |r| {
            r.several.pieces = |edge, edges, cuts| {
                let mut numbers = pieces(edge, edges, cuts);
                numbers[1..].reverse();
                numbers
            };
            r.several.vertices = |first, cuts| vertices(first, cuts).into_iter().rev().collect()
        }),
    ]
}

/// Pieces with wrong ends.
pub fn wrong_ends() -> Vec<Mutant> {
    vec![
        step("the old end left", |r| {
            r.several.ends = |(a, b), new| {
                let mut ends = ends((a, b), new);
                ends[0].1 = b;
                ends
            }
        }),
        step("every new piece to the old end", |r| {
            r.several.ends = |(a, b), new| {
                let ends = ends((a, b), new).into_iter().enumerate();
                ends.map(|(i, (from, to))| (from, if i > 0 { b } else { to }))
                    .collect()
            }
        }),
        step("every piece from the old front", |r| {
            r.several.ends = |(a, b), new| {
                let ends = ends((a, b), new).into_iter();
                ends.map(|(_, to)| (a, to)).collect()
            }
        }),
        step("the last piece from the first new vertex", |r| {
            r.several.ends = |(a, b), new| {
                let mut ends = ends((a, b), new);
                let last = ends.len() - 1;
                ends[last].0 = new[0];
                ends
            }
        }),
        step("the last piece ends where the edge began", |r| {
            r.several.ends = |(a, b), new| {
                let mut ends = ends((a, b), new);
                let last = ends.len() - 1;
                ends[last].1 = a;
                ends
            }
        }),
        step("new pieces reversed", |r| {
            r.several.ends = |(a, b), new| {
                let mut ends = ends((a, b), new);
                for end in &mut ends[1..] {
                    *end = (end.1, end.0);
                }
                ends
            }
        }),
        step("the chain from the back to the front", |r| {
            r.several.ends = |(a, b), new| ends((b, a), new)
        }),
        step("a loop at each new vertex", |r| {
            r.several.ends = |(a, b), new| {
                let mut ends = ends((a, b), new);
                let last = ends.len() - 1;
                for end in &mut ends[1..last] {
                    end.1 = end.0;
                }
                ends
            }
        }),
    ]
}

/// Pieces as the Rust appends them: from the last to the first, the last one
/// to the next number, and the first new one to the back.
pub fn as_the_rust_does() -> Vec<Mutant> {
    vec![step("as the Rust does", |r| {
        r.several.pieces = |edge, edges, cuts| {
            let mut numbers = pieces(edge, edges, cuts);
            numbers[1..].reverse();
            numbers
        };
        r.several.ends = |(a, b), new| {
            let mut ends = ends((a, b), new);
            let last = ends.len() - 1;
            ends[last].1 = new[0] + new.len() as u32;
            ends[1].1 = b;
            ends
        };
        r.several.mend = |used, pieces| {
            let mut rows = pieces.to_vec();
            rows[1..].reverse();
            oracle::reference::several_cuts::mend(used, &rows)
        };
    })]
}

/// Pieces with a wrong preparation.
fn wrong_preparations() -> Vec<Mutant> {
    vec![
        step("every new piece square", |r| {
            r.several.preparations = |old, pieces| {
                let mut all = vec![Square; pieces];
                all[0] = old;
                all
            }
        }),
        step("the first piece square", |r| {
            r.several.preparations = |old, pieces| {
                let mut all = vec![old; pieces];
                all[0] = Square;
                all
            }
        }),
        step("the last piece square", |r| {
            r.several.preparations = |old, pieces| {
                let mut all = vec![old; pieces];
                all[pieces - 1] = Square;
                all
            }
        }),
        step("pieces between two cuts square", |r| {
            r.several.preparations = |old, pieces| {
                let mut all = vec![old; pieces];
                all[1..pieces - 1].fill(Square);
                all
            }
        }),
        step("a double bevel gives single ones", |r| {
            r.several.preparations = |old, pieces| match old {
                DoubleBevel => vec![SingleBevel; pieces],
                _ => vec![old; pieces],
            }
        }),
        step("a single bevel gives double ones", |r| {
            r.several.preparations = |old, pieces| match old {
                SingleBevel => vec![DoubleBevel; pieces],
                _ => vec![old; pieces],
            }
        }),
        after("the first edge's for new ones", |answer, before, call| {
            let cuts = made(answer, call);
            let rows = call.pass.edge_numbers.chunks_mut(EDGE_NUMBERS);
            let rows = rows.skip(before.tables.edges.min(4096));
            for row in rows.take(cuts) {
                row[PREPARATION] = before.tables.edge_numbers[PREPARATION];
            }
            answer
        }),
        after("edges that are not cut square", |answer, before, call| {
            let edges = if answer == 0 { before.tables.edges } else { 0 };
            let rows = call.pass.edge_numbers.chunks_mut(EDGE_NUMBERS);
            for (number, row) in rows.take(edges).enumerate() {
                if number != call.edge as usize {
                    row[PREPARATION] = 0;
                }
            }
            answer
        }),
    ]
}

/// New vertices that are wrong.
fn wrong_points() -> Vec<Mutant> {
    vec![
        step("x and y exchanged", |r| {
            r.several.vertex = |[_, x, y, z], _| Vertex::Given(y, x, z)
        }),
        step("y and z exchanged", |r| {
            r.several.vertex = |[_, x, y, z], _| Vertex::Given(x, z, y)
        }),
        step("t for x", |r| {
            r.several.vertex = |[t, x, y, _], _| Vertex::Given(t, x, y)
        }),
        step("z left out", |r| {
            r.several.vertex = |[_, x, y, _], _| Vertex::Given(x, y, 0.0)
        }),
        step("negative zero of a point lost", |r| {
            r.several.vertex = |[_, x, y, z], _| Vertex::Given(x + 0.0, y + 0.0, z + 0.0)
        }),
        step("pending in place of given", |r| {
            r.several.vertex = |[t, ..], curve| Vertex::Pending(curve, t)
        }),
        after("points from the last cut", |answer, before, call| {
            let cuts = made(answer, call);
            let points = call.cuts.chunks_exact(4).take(cuts);
            let rows = call.pass.vertex_floats.chunks_mut(VERTEX_FLOATS);
            let rows = rows.skip(before.tables.vertices.min(4096));
            for (row, point) in rows.zip(points.rev()) {
                row[..3].copy_from_slice(&point[1..]);
            }
            answer
        }),
        after("every vertex at the first point", |answer, before, call| {
            let cuts = made(answer, call);
            let rows = call.pass.vertex_floats.chunks_mut(VERTEX_FLOATS);
            let rows = rows.skip(before.tables.vertices.min(4096));
            for row in rows.take(cuts) {
                row[..3].copy_from_slice(&call.cuts[1..4]);
            }
            answer
        }),
        after("the last point not written", |answer, before, call| {
            if made(answer, call) > 0 {
                let row = (call.pass.out[0] - 1) * VERTEX_FLOATS;
                let old = &before.tables.vertex_floats[row..row + 3];
                call.pass.vertex_floats[row..row + 3].copy_from_slice(old);
            }
            answer
        }),
    ]
}

/// Cuts that are not made.
fn left_out() -> Vec<Mutant> {
    vec![
        step("the first cut left out", |r| {
            r.several.made = |cuts| cuts.iter().skip(1).copied().collect()
        }),
        step("the last cut left out", |r| {
            r.several.made = |cuts| cuts[..cuts.len().saturating_sub(1)].to_vec()
        }),
        step("a middle cut left out", |r| {
            r.several.made = |cuts| {
                let mut cuts = cuts.to_vec();
                if cuts.len() > 2 {
                    cuts.remove(cuts.len() / 2);
                }
                cuts
            }
        }),
        step("only the first cut made", |r| {
            r.several.made = |cuts| cuts.iter().take(1).copied().collect()
        }),
        step("only the last cut made", |r| {
            r.several.made = |cuts| cuts.last().copied().into_iter().collect()
        }),
        step("only two cuts made", |r| {
            r.several.made = |cuts| cuts.iter().take(2).copied().collect()
        }),
        step("only four cuts made", |r| {
            r.several.made = |cuts| cuts.iter().take(4).copied().collect()
        }),
        step("every second cut made", |r| {
            r.several.made = |cuts| cuts.iter().step_by(2).copied().collect()
        }),
        step("no cut made", |r| r.several.made = |_| Vec::new()),
    ]
}
