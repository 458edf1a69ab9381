//! An edge cut at several points, written down from A.1 of document 02 and
//! from nothing else: beside the Rust's one cut, made over and over, the truth
//! where there are two cuts or more.

use crate::records::{Edge, Shell, Vertex};

/// The shell with an edge cut at these points, rows of t, x, y, z in rising
/// order of t.
pub fn cut(shell: &Shell, edge: u32, cuts: &[[f64; 4]]) -> Shell {
    let mother = shell.edges[edge as usize];
    let [first_vertex, first_edge] = [shell.vertices.len(), shell.edges.len()];
    let (t0, t1) = mother.curve.range();
    // Where the chain goes along, from the front of the edge to its back.
    let (mut stops, mut pieces) = (vec![(mother.front, t0)], vec![edge]);
    for (row, cut) in cuts.iter().enumerate() {
        stops.push(((first_vertex + row) as u32, cut[0]));
        pieces.push((first_edge + row) as u32);
    }
    stops.push((mother.back, t1));
    let mut after = shell.clone();
    for (&number, ends) in pieces.iter().zip(stops.windows(2)) {
        let [(front, from), (back, to)] = [ends[0], ends[1]];
        let piece = Edge {
            front,
            back,
            curve: mother.curve.over(from, to),
            preparation: mother.preparation,
        };
        match number == edge {
            true => after.edges[edge as usize] = piece,
            false => after.edges.push(piece),
        }
    }
    let points = cuts.iter().map(|&[_, x, y, z]| Vertex::Given(x, y, z));
    after.vertices.extend(points);
    for wire in &mut after.wires {
        let uses = wire
            .iter()
            .flat_map(|&used| in_place_of(used, edge, &pieces));
        *wire = uses.collect();
    }
    after
}

/// What stands in a wire in place of a use: the chain, or the chain backwards;
/// a use of another edge stays.
fn in_place_of(used: u32, edge: u32, pieces: &[u32]) -> Vec<u32> {
    match (used / 2 == edge, used % 2) {
        (false, _) => vec![used],
        (true, 0) => pieces.iter().map(|piece| 2 * piece).collect(),
        (true, _) => pieces.iter().rev().map(|piece| 2 * piece + 1).collect(),
    }
}

#[cfg(test)]
mod tests {
    use super::cut;
    use crate::records::{wire, wires, Curve, Edge, Preparation, Shell, Vertex};

    /// A line of a preparation.
    fn line(front: u32, back: u32, t0: f64, t1: f64) -> Edge {
        let number = 7;
        Edge {
            front,
            back,
            curve: Curve::Span { number, t0, t1 },
            preparation: Preparation::DoubleBevel,
        }
    }

    #[test]
    fn two_cuts_of_a_line() {
        let ends = [Vertex::Given(0.0, 0.0, 0.0), Vertex::Given(1.0, 0.0, 0.0)];
        let before = Shell {
            vertices: ends.to_vec(),
            edges: vec![line(0, 1, 0.0, 1.0)],
            wires: wires(&["0+", "0-"]),
        };
        let after = cut(&before, 0, &[[0.25, 2.0, 3.0, 4.0], [0.5, 5.0, 6.0, 7.0]]);
        let pieces = [
            line(0, 2, 0.0, 0.25),
            line(2, 3, 0.25, 0.5),
            line(3, 1, 0.5, 1.0),
        ];
        assert_eq!(after.edges, pieces);
        let points = [Vertex::Given(2.0, 3.0, 4.0), Vertex::Given(5.0, 6.0, 7.0)];
        assert_eq!(after.vertices[2..], points);
        assert_eq!(after.wires, [wire("0+ 1+ 2+"), wire("2- 1- 0-")]);
    }

    #[test]
    fn no_cut_changes_nothing() {
        let before = Shell {
            vertices: vec![Vertex::Given(0.0, 0.0, 0.0)],
            edges: vec![line(0, 0, 0.0, 1.0)],
            wires: wires(&["0+ 0-"]),
        };
        assert_eq!(cut(&before, 0, &[]), before);
    }
}
