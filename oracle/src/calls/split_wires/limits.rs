//! Named splits at the corners and bounds of the specification, each with its
//! answer written out by hand.

mod arrays;
mod bounds;
mod room;

use super::{Place, SplitWires};
use crate::calls::tables::{sample_edges, spans, tables, POINTS, SPOILS};
use crate::compare::Case;
use crate::records::{wires, Curve, Edge, Preparation};
use crate::shell::{Tables, EDGE_NUMBERS, PREPARATION};

/// All cases.
pub fn cases() -> Vec<Case<SplitWires>> {
    [
        results(),
        orders(),
        pairs(),
        marks(),
        all_marks(),
        other_faces(),
        walks(),
        loops(),
        long_walks(),
        stuck(),
        crowds(),
        first_reached(),
        vec![
            cell_by_cell("K10 cell by cell", [0; 5]),
            cell_by_cell("a square seam beside single bevels", [1; 5]),
            cell_by_cell("a square seam beside double bevels", [2; 5]),
            cell_by_cell("a square seam among all preparations", [2, 1, 0, 1, 2]),
        ],
        floats(),
        lists(),
        arrays::cases(),
        bounds::cases(),
        room::cases(),
        spoils(),
    ]
    .into_iter()
    .flatten()
    .collect()
}

/// A vertex with a point of its own.
fn place(vertex: u32) -> Place {
    (vertex, [f64::from(vertex), 0.5 - f64::from(vertex)])
}

/// Edges, the face's wires, those to be rebuilt, and a list, with some room
/// behind the result. There are as many vertices as are named.
fn over(edges: &[Edge], face: &[&str], rebuilt: &[&str], list: &[u32]) -> SplitWires {
    let ends = edges.iter().flat_map(|edge| [edge.front, edge.back]);
    let most = ends.chain(list.iter().copied()).max();
    let vertices = most.map_or(0, |most| most as usize + 1);
    let places: Vec<Place> = list.iter().map(|&vertex| place(vertex)).collect();
    let sets = [&wires(face)[..], &wires(rebuilt)[..]];
    SplitWires::over((vertices, edges), sets, &places, 3)
}

/// The same over K9's edges, without the unused seam.
fn of_k9(face: &[&str], rebuilt: &[&str], list: &[u32]) -> SplitWires {
    over(&sample_edges()[..5], face, rebuilt, list)
}

/// K9's wire.
const K9: &str = "1+ 2+ 0+ 3+ 4+ 0-";

/// K10's result.
const K10: [&str; 2] = ["0+ 3+ 5+ 2+", "1+ 5- 4+ 0-"];

/// K10's result where no edge but the new one is marked.
const UNMARKED: [&str; 2] = ["0+ 0-", "1+ 5- 4+ 3+ 5+ 2+"];

/// K10's input.
fn k10() -> SplitWires {
    of_k9(&[K9], &[K9], &[3, 1])
}

/// The ends of K12's edges.
const TO_AND_FRO: [(u32, u32); 6] = [(0, 1), (0, 1), (0, 1), (1, 0), (1, 0), (1, 0)];

/// K12's wire.
const K12: &str = "0+ 1+ 2+ 3+ 4+ 5+";

/// An input that is split into these wires. Each pair is a square seam from its
/// first point to its second, from 0 to 1.
fn split_into(name: &'static str, input: SplitWires, after: &[Vec<u32>]) -> Case<SplitWires> {
    let places = input.places();
    let edge = |pair: &[Place]| Edge {
        front: pair[0].0,
        back: pair[1].0,
        curve: Curve::Seam {
            surface: input.surface,
            p: pair[0].1,
            q: pair[1].1,
            t0: 0.0,
            t1: 1.0,
        },
        preparation: Preparation::Square,
    };
    let new: Vec<Edge> = places.chunks_exact(2).map(edge).collect();
    let expected = input.done(&new, after);
    Case {
        name,
        input,
        expected,
    }
}

/// The same with the wires in notation.
fn done(name: &'static str, input: SplitWires, after: &[&str]) -> Case<SplitWires> {
    split_into(name, input, &wires(after))
}

/// K10 with a change that earns a refusal.
fn no(name: &'static str, number: i32, change: impl Fn(&mut SplitWires)) -> Case<SplitWires> {
    let mut input = k10();
    change(&mut input);
    Case::unchanged(name, input, number)
}

/// K10 with a change that does not matter.
fn same(name: &'static str, change: impl Fn(&mut SplitWires)) -> Case<SplitWires> {
    let mut input = k10();
    change(&mut input);
    done(name, input, &K10)
}

/// The worked examples, and splits of nothing.
fn results() -> Vec<Case<SplitWires>> {
    let loops = |count: usize| over(&spans(&[(0, 0)]), &[], &[&"0+ ".repeat(count)], &[]);
    let one = over(&spans(&[(0, 1)]), &["0+"], &["0+"], &[]);
    let crowd = over(&spans(&TO_AND_FRO), &[K12], &[K12], &[]);
    let three = over(&spans(&[(0, 0); 3]), &["0+ 1+ 2+"], &["0+ 1+ 2+"], &[]);
    let mut no_room = of_k9(&[], &[], &[]);
    (no_room.uses, no_room.lengths) = (vec![], vec![]);
    let nothing = SplitWires::over((0, &[]), [&[], &[]], &[], 0);
    vec![
        done("K10", k10(), &K10),
        Case::unchanged("K11", one, 11),
        Case::unchanged("K12", crowd, 12),
        done("K13", three, &["2+", "1+", "0+"]),
        Case::unchanged("K14", of_k9(&[K9], &[K9], &[3]), 9),
        done("no uses and an empty list", of_k9(&[], &[], &[]), &[]),
        done("no uses, buffers of length 0", no_room, &[]),
        done("nothing lent", nothing, &[]),
        done("empty wires", of_k9(&["", ""], &["", "", ""], &[]), &[]),
        done("a loop used 65 times", loops(65), &["0+"; 65]),
        done("a loop used once", loops(1), &["0+"]),
    ]
}

/// Uses and pairs in other orders.
fn orders() -> Vec<Case<SplitWires>> {
    let gives = |name, rebuilt: &[&str], list: &[u32], after: &[&str]| {
        done(name, of_k9(&[K9], rebuilt, list), after)
    };
    let exchanged = [K10[1], K10[0]];
    vec![
        gives(
            "from back to front",
            &["0- 4+ 3+ 0+ 2+ 1+"],
            &[3, 1],
            &exchanged,
        ),
        gives("turned by two", &["0+ 3+ 4+ 0- 1+ 2+"], &[3, 1], &exchanged),
        gives(
            "in three wires",
            &["1+ 2+", "0+ 3+", "4+ 0-"],
            &[3, 1],
            &K10,
        ),
        gives("empty wires about", &["", K9, ""], &[3, 1], &K10),
        gives(
            "the pair the other way",
            &[K9],
            &[1, 3],
            &["0+ 3+ 5- 2+", "1+ 5+ 4+ 0-"],
        ),
    ]
}

/// Pairs with nothing to be rebuilt.
fn pairs() -> Vec<Case<SplitWires>> {
    let gives = |name, list: &[u32], after: &[&str]| done(name, of_k9(&[K9], &[], list), after);
    let both = ["5+ 5-", "6+ 6-"];
    vec![
        gives("one pair and no uses", &[1, 0], &["5- 5+"]),
        gives("two pairs and no uses", &[0, 1, 2, 3], &both),
        gives("two pairs, falling", &[3, 2, 1, 0], &["6- 6+", "5- 5+"]),
        gives("two pairs that cross", &[0, 2, 1, 3], &both),
    ]
}

/// K10 with marks on edge 0 or on none: these are the face's.
fn marks() -> Vec<Case<SplitWires>> {
    let gives =
        |name, face: &[&str], after: &[&str]| done(name, of_k9(face, &[K9], &[3, 1]), after);
    vec![
        gives("no face", &[], &UNMARKED),
        gives("an edge once in the face", &["0+"], &UNMARKED),
        gives("every edge once", &["0- 1+ 2- 3+ 4-"], &UNMARKED),
        gives("an edge twice forward", &["0+ 0+"], &K10),
        gives("an edge twice reversed", &["0- 0-"], &K10),
        gives("an edge in both directions", &["0+ 0-"], &K10),
        gives("an edge in two wires", &["0+", "0+"], &K10),
        gives("both directions in two wires", &["1+ 0-", "", "0+"], &K10),
        gives("an edge three times", &["0+ 0- 0+"], &K10),
        gives("an edge four times", &["0+ 0+ 0- 0-"], &K10),
    ]
}

/// K10 with marks on other edges.
fn all_marks() -> Vec<Case<SplitWires>> {
    let gives =
        |name, face: &[&str], after: &[&str]| done(name, of_k9(face, &[K9], &[3, 1]), after);
    vec![
        // Edge 3 is rebuilt once: its mark is the face's alone.
        gives(
            "twice in the face, not rebuilt twice",
            &["3+ 3+"],
            &["0+ 3+ 4+ 0-", "1+ 5- 5+ 2+"],
        ),
        gives(
            "a mark on edge 1",
            &["1+ 1-"],
            &["0+ 0-", "1+ 2+", "5- 4+ 3+ 5+"],
        ),
        gives(
            "every edge marked",
            &["0+ 0- 1+ 1- 2+ 2- 3+ 3- 4+ 4-"],
            &["0+ 0-", "1+ 5- 5+ 2+", "3+ 4+"],
        ),
    ]
}

/// Faces that are not rebuilt whole.
fn other_faces() -> Vec<Case<SplitWires>> {
    let gives = |name, rebuilt: &[&str], list: &[u32], after: &[&str]| {
        done(name, of_k9(&[K9], rebuilt, list), after)
    };
    vec![
        gives("a part is rebuilt", &["1+ 2+"], &[], &["1+ 2+"]),
        gives(
            "a pair beside what is rebuilt",
            &["3+ 4+"],
            &[0, 1],
            &["5+ 5-", "3+ 4+"],
        ),
        gives(
            "two pairs between two rings",
            &["1+ 2+", "3+ 4+"],
            &[0, 2, 1, 3],
            &["5+ 3+ 6- 2+", "1+ 6+ 4+ 5-"],
        ),
        gives("a pair and nothing else", &[], &[3, 1], &["5- 5+"]),
        gives("nothing is rebuilt", &[], &[], &[]),
        gives(
            "more is rebuilt than the face has",
            &["1+ 1-", "3+ 4+"],
            &[],
            &["1+ 1-", "3+ 4+"],
        ),
    ]
}

/// An input over edges with these ends that is split into these wires.
fn walked(
    name: &'static str,
    ends: &[(u32, u32)],
    [face, rebuilt]: [&str; 2],
    after: &[&str],
) -> Case<SplitWires> {
    done(name, over(&spans(ends), &[face], &[rebuilt], &[]), after)
}

/// Walks over few vertices.
fn walks() -> Vec<Case<SplitWires>> {
    let star = [(0, 1), (0, 2), (0, 3)];
    let all = "0+ 0- 1+ 1- 2+ 2-";
    let rings = [(4, 2), (2, 4), (3, 1), (1, 3)];
    let from_one = ["3+ 2+", "1+ 0+"];
    vec![
        walked("there and back", &[(0, 1)], ["", "0- 0+"], &["0+ 0-"]),
        // The start has three uses, and no other vertex more than one.
        walked(
            "three uses at the start",
            &star,
            ["", all],
            &["2+ 2-", "1+ 1-", "0+ 0-"],
        ),
        walked(
            "from the smallest vertex",
            &rings,
            ["", "0+ 1+ 2+ 3+"],
            &from_one,
        ),
    ]
}

/// Walks by loops.
fn loops() -> Vec<Case<SplitWires>> {
    let side = [(0, 1), (1, 1), (1, 0)];
    let uses = "0+ 1+ 2+";
    vec![
        walked("a loop reversed", &[(0, 0)], ["", "0-"], &["0-"]),
        walked(
            "a loop in both directions",
            &[(0, 0)],
            ["", "0+ 0-"],
            &["0-", "0+"],
        ),
        walked("a loop beside the way", &side, ["", uses], &["0+ 2+", "1+"]),
        walked(
            "a marked loop on the way",
            &side,
            ["1+ 1+", uses],
            &["0+ 1+ 2+"],
        ),
    ]
}

/// Walks of many uses.
fn long_walks() -> Vec<Case<SplitWires>> {
    let ring: Vec<(u32, u32)> = (0..1024).map(|edge| (edge, (edge + 1) % 1024)).collect();
    let whole: Vec<String> = (0..1024).map(|edge| format!("{edge}+")).collect();
    let (whole, ring) = (whole.join(" "), spans(&ring));
    let back: Vec<&str> = whole.split(' ').rev().collect();
    let falling = over(&ring, &[], &[&back.join(" ")], &[]);
    // Every edge of a path both ways, and marked as it is twice in the face.
    let there: Vec<String> = (0..256).map(|edge| format!("{edge}+")).collect();
    let again: Vec<String> = (0..256).rev().map(|edge| format!("{edge}-")).collect();
    let [there, again] = [there, again].map(|uses| uses.join(" "));
    let path = [there.as_str(), &again].join(" ");
    let of_path = |rebuilt: &[&str]| over(&ring[..256], &[&path], rebuilt, &[]);
    let pairs: Vec<String> = (0..256).map(|edge| format!("{edge}+ {edge}-")).collect();
    let pairs: Vec<&str> = pairs.iter().map(String::as_str).collect();
    let rising = over(&ring, &[], &[&whole], &[]);
    vec![
        done("a ring of 1024 uses", rising, &[&whole]),
        done("a ring, from back to front", falling, &[&whole]),
        done(
            "a way back before the way there",
            of_path(&[&again, &there]),
            &[&path],
        ),
        done(
            "a way there before the way back",
            of_path(&[&there, &again]),
            &pairs,
        ),
    ]
}

/// Walks that come to a dead end.
fn stuck() -> Vec<Case<SplitWires>> {
    let no = |name, number, ends: &[(u32, u32)], rebuilt: &str, list: &[u32]| {
        let input = over(&spans(ends), &[], &[rebuilt], list);
        Case::unchanged(name, input, number)
    };
    vec![
        no("a use alone, reversed", 11, &[(0, 1)], "0-", &[]),
        no("a dead end with a pair", 11, &[(0, 1)], "0+", &[2, 3]),
        no(
            "a dead end behind a wire",
            11,
            &[(0, 0), (1, 2)],
            "0+ 1+",
            &[],
        ),
        no("a dead end behind a pair", 11, &[(2, 3)], "0+", &[0, 1]),
        no(
            "a dead end on the third step",
            11,
            &[(0, 1), (1, 2), (2, 3)],
            "0+ 1+ 2+",
            &[],
        ),
        no("one use too many", 11, &[(0, 1)], "0+ 0- 0+", &[]),
    ]
}

/// Walks that come to a crowd.
fn crowds() -> Vec<Case<SplitWires>> {
    let no = |name, ends: &[(u32, u32)], rebuilt: &str| {
        let input = over(&spans(ends), &[], &[rebuilt], &[]);
        Case::unchanged(name, input, 12)
    };
    let behind = [(0, 0), (1, 2), (1, 2), (1, 2), (2, 1), (2, 1), (2, 1)];
    vec![
        no("the least crowd", &[(0, 1)], "0+ 0- 0- 0-"),
        no("a crowd behind a wire", &behind, "0+ 1+ 2+ 3+ 4+ 5+ 6+"),
        no("a crowd of four", &[(0, 1), (1, 0)], "0+ 1+ 1+ 1+ 1+"),
        Case::unchanged("a crowd by a pair", of_k9(&[K9], &[K9], &[2, 1]), 12),
    ]
}

/// Dead ends and crowds, of which the first that is reached counts.
fn first_reached() -> Vec<Case<SplitWires>> {
    let no = |name, number, ends: &[(u32, u32)], rebuilt: &str| {
        let input = over(&spans(ends), &[], &[rebuilt], &[]);
        Case::unchanged(name, input, number)
    };
    let fan = [(0, 1), (1, 2), (1, 3), (1, 4)];
    let later = [(0, 1), (2, 3), (2, 3), (2, 3), (3, 2), (3, 2), (3, 2)];
    vec![
        no("a crowd before a dead end", 12, &fan, "0+ 1+ 2+ 3+"),
        no(
            "a dead end before a crowd",
            11,
            &later,
            "0+ 1+ 2+ 3+ 4+ 5+ 6+",
        ),
        no("a crowd in balance", 12, &fan, "0+ 1+ 1- 2+ 2- 3+ 3- 0-"),
    ]
}

/// K10 with each cell written out, in buffers of just the result's length, and
/// with edges of these preparations. The cells that hold 77 are no input.
fn cell_by_cell(name: &'static str, preparations: [u32; 5]) -> Case<SplitWires> {
    let mut input = of_k9(&[K9], &[K9], &[3, 1]);
    let other = 77.0f64.to_bits();
    let rows = input.tables.edge_numbers.chunks_mut(EDGE_NUMBERS);
    rows.zip(preparations)
        .for_each(|(row, number)| row[PREPARATION] = number);
    input.tables.edge_numbers.truncate(30);
    input.tables.edge_numbers[25..].fill(77);
    input.tables.edge_floats.truncate(36);
    input.tables.edge_floats[30..].fill(other);
    input.points = [3.5, -0.0, 1.25, 4.0].map(f64::to_bits).to_vec();
    input.surface = 9;
    (input.uses, input.lengths) = (vec![77; 8], vec![77; 8]);
    let mut case = done(name, input, &K10);
    let after = &mut case.expected.after;
    after.tables.edge_numbers[25..].copy_from_slice(&[3, 1, 1, 9, 0]);
    let seam = [3.5, -0.0, 1.25, 4.0, 0.0, 1.0].map(f64::to_bits);
    after.tables.edge_floats[30..].copy_from_slice(&seam);
    after.uses = vec![0, 6, 10, 4, 2, 11, 8, 1];
    after.lengths = vec![4, 4, 77, 77, 77, 77, 77, 77];
    case.expected.out = vec![2, 8, 6];
    case
}

/// Points that are kept to the bit, and such that are refused.
fn floats() -> Vec<Case<SplitWires>> {
    let with = |floats: [f64; 4]| {
        move |input: &mut SplitWires| input.points = floats.map(f64::to_bits).to_vec()
    };
    let above = 1.0e15_f64.next_up();
    vec![
        same("negative zeros", with([-0.0; 4])),
        same(
            "the greatest size",
            with([1.0e15, -1.0e15, 1.0e15, -1.0e15]),
        ),
        same("the least size", with([5.0e-324, -5.0e-324, 0.0, 1.0])),
        same("points that are equal", with([2.0, 3.0, 2.0, 3.0])),
        same("the largest surface", |s| s.surface = u32::MAX),
        same("surface 0", |s| s.surface = 0),
        no("NaN for the first u", 4, with([f64::NAN, 0.0, 0.0, 0.0])),
        no("NaN for the last v", 4, with([0.0, 0.0, 0.0, f64::NAN])),
        no("infinite v", 4, with([0.0, f64::INFINITY, 0.0, 0.0])),
        no(
            "u just above the greatest size",
            4,
            with([0.0, 0.0, above, 0.0]),
        ),
        no("v just below the least", 4, with([0.0, -above, 0.0, 0.0])),
        same("NaN behind the points", |s| {
            s.points.push(f64::NAN.to_bits())
        }),
    ]
}

/// Lists that are odd or have a vertex twice.
fn lists() -> Vec<Case<SplitWires>> {
    let no = |name, number, list: &[u32]| Case::unchanged(name, of_k9(&[K9], &[K9], list), number);
    let stuck = |name, number, ends: &[(u32, u32)], rebuilt: &str, list: &[u32]| {
        Case::unchanged(name, over(&spans(ends), &[], &[rebuilt], list), number)
    };
    vec![
        no("a list of three", 9, &[3, 1, 0]),
        no("a vertex twice", 10, &[0, 0]),
        no("a vertex in both pairs", 10, &[0, 1, 2, 0]),
        no("a vertex last and first of two pairs", 10, &[0, 1, 1, 2]),
        no("a pair twice", 10, &[3, 1, 3, 1]),
        no("odd and repeated", 9, &[0, 0, 1]),
        no("three times the same", 9, &[2, 2, 2]),
        stuck("9 before 11", 9, &[(0, 1)], "0+", &[0]),
        stuck("9 before 12", 9, &TO_AND_FRO, K12, &[1]),
        stuck("10 before 11", 10, &[(0, 1)], "0+", &[0, 0]),
        stuck("10 before 12", 10, &TO_AND_FRO, K12, &[1, 1]),
        stuck("an odd list and no uses", 9, &[], "", &[0]),
        stuck("a vertex twice and no uses", 10, &[], "", &[4, 4]),
    ]
}

/// K10 with something done to its edge table, where the vertex rows are no
/// part of it. Edge 5 is the unused seam, so that the new edge is edge 6, or
/// edge 5 where that one is not counted.
fn spoils() -> Vec<Case<SplitWires>> {
    let whole = tables(&POINTS, &sample_edges());
    let of_edges = |spoilt: &Tables| {
        spoilt.vertex_numbers == whole.vertex_numbers && spoilt.vertex_floats == whole.vertex_floats
    };
    let sample = over(&sample_edges(), &[K9], &[K9], &[3, 1]);
    let mut cases = Vec::new();
    for (name, number, change) in SPOILS {
        let (mut spoilt, mut input) = (whole.clone(), sample.clone());
        change(&mut spoilt);
        if of_edges(&spoilt) {
            let shortened = spoilt.sizes() != whole.sizes();
            if !shortened {
                let cells = &sample.tables.edge_numbers[spoilt.edge_numbers.len()..];
                spoilt.edge_numbers.extend(cells);
                let cells = &sample.tables.edge_floats[spoilt.edge_floats.len()..];
                spoilt.edge_floats.extend(cells);
            }
            (spoilt.vertex_numbers, spoilt.vertex_floats) = (vec![], vec![]);
            input.tables = spoilt;
            cases.push(match (number, input.tables.edges) {
                (0, 5) => done(name, input, &K10),
                (0, _) => done(name, input, &["0+ 3+ 6+ 2+", "1+ 6- 4+ 0-"]),
                _ => Case::unchanged(name, input, number),
            });
        }
    }
    cases
}
