//! Counts at their bounds, numbers past their counts, and the order of the
//! causes.

use super::{done, k10, no, of_k9, over, same, K10, K9, UNMARKED};
use crate::calls::split_wires::SplitWires;
use crate::calls::tables::{sample_edges, spans};
use crate::compare::Case;
use crate::shell::EDGE_FLOATS;

/// All cases.
pub fn cases() -> Vec<Case<SplitWires>> {
    [
        wire_counts(),
        sums(),
        lengths(),
        lists(),
        numbers(),
        lowest(),
        far_apart(),
    ]
    .into_iter()
    .flatten()
    .collect()
}

/// K10 with so many wires in each set; all but the first are empty.
fn wide(face: usize, rebuilt: usize) -> SplitWires {
    let set = |count: usize| match count {
        0 => vec![],
        _ => [&[K9][..], &vec![""; count - 1]].concat(),
    };
    of_k9(&set(face), &set(rebuilt), &[3, 1])
}

/// Counts of wires.
fn wire_counts() -> Vec<Case<SplitWires>> {
    vec![
        done("32 and 32 wires", wide(32, 32), &K10),
        done("63 wires and one", wide(63, 1), &K10),
        done("one wire and 63", wide(1, 63), &K10),
        done("64 wires to be rebuilt", wide(0, 64), &UNMARKED),
        done("64 wires of the face", wide(64, 0), &["5- 5+"]),
        Case::unchanged("33 and 32 wires", wide(33, 32), 1),
        Case::unchanged("32 and 33 wires", wide(32, 33), 1),
        Case::unchanged("64 wires and one", wide(64, 1), 1),
        Case::unchanged("65 wires to be rebuilt", wide(0, 65), 1),
        Case::unchanged("65 wires of the face", wide(65, 0), 1),
        no("more face wires than lengths", 1, |s| s.face.wires = 2),
        no("more rebuilt wires than lengths", 1, |s| {
            s.rebuilt.wires = 2
        }),
        no("the largest face count", 1, |s| s.face.wires = usize::MAX),
        no("the largest rebuilt count", 1, |s| {
            s.rebuilt.wires = usize::MAX
        }),
        no("wire counts whose sum wraps", 1, |s| {
            (s.face.wires, s.rebuilt.wires) = (usize::MAX, 1);
        }),
        no("equal wire counts whose sum wraps", 1, |s| {
            (s.face.wires, s.rebuilt.wires) = (1 << 63, 1 << 63);
        }),
    ]
}

/// One loop, so many times in the face and in what is rebuilt.
fn loops(face: usize, rebuilt: usize) -> SplitWires {
    let [face, rebuilt] = [face, rebuilt].map(|count| "0+ ".repeat(count));
    over(&spans(&[(0, 0)]), &[&face], &[&rebuilt], &[])
}

/// Sums of wire lengths.
fn sums() -> Vec<Case<SplitWires>> {
    vec![
        done("512 and 512 uses", loops(512, 512), &["0+"; 512]),
        done("1024 uses of the face", loops(1024, 0), &[]),
        done("1024 uses to be rebuilt", loops(0, 1024), &["0+"; 1024]),
        done("1023 uses and one", loops(1023, 1), &["0+"]),
        done("one use and 1023", loops(1, 1023), &["0+"; 1023]),
        Case::unchanged("513 and 512 uses", loops(513, 512), 1),
        Case::unchanged("512 and 513 uses", loops(512, 513), 1),
        Case::unchanged("1024 uses and one", loops(1024, 1), 1),
        Case::unchanged("one use and 1024", loops(1, 1024), 1),
        Case::unchanged("1025 uses of the face", loops(1025, 0), 1),
        Case::unchanged("1025 uses to be rebuilt", loops(0, 1025), 1),
    ]
}

/// Lengths and uses that are not lent.
fn lengths() -> Vec<Case<SplitWires>> {
    vec![
        no("one face use too few", 1, |s| s.face.uses.truncate(5)),
        no("one rebuilt use too few", 1, |s| s.rebuilt.uses.truncate(5)),
        no("no face lengths", 1, |s| s.face.lengths.clear()),
        no("no rebuilt lengths", 1, |s| s.rebuilt.lengths.clear()),
        no("a face length above the uses", 1, |s| s.face.lengths[0] = 7),
        no("a rebuilt length above the uses", 1, |s| {
            s.rebuilt.lengths[0] = 7
        }),
        no("the largest face length", 1, |s| {
            s.face.lengths[0] = u32::MAX
        }),
        no("the largest rebuilt length", 1, |s| {
            s.rebuilt.lengths[0] = u32::MAX
        }),
        no("face lengths that wrap", 1, |s| {
            (s.face.lengths, s.face.wires) = (vec![1 << 31; 2], 2);
        }),
        no("rebuilt lengths that wrap", 1, |s| {
            (s.rebuilt.lengths, s.rebuilt.wires) = (vec![1 << 31; 2], 2);
        }),
        no("lengths of both that wrap", 1, |s| {
            (s.face.lengths[0], s.rebuilt.lengths[0]) = (1 << 31, 1 << 31);
        }),
        no("63 lengths of the largest number", 1, |s| {
            (s.face.lengths, s.face.wires) = (vec![u32::MAX; 63], 63);
        }),
        same("a length behind the count", |s| {
            s.rebuilt.lengths.push(u32::MAX)
        }),
    ]
}

/// Lists that are not lent in full.
fn lists() -> Vec<Case<SplitWires>> {
    vec![
        no("a vertex of the list too few", 1, |s| s.divisor.truncate(1)),
        no("one float of a point too few", 1, |s| s.points.truncate(3)),
        no("no points", 1, |s| s.points.clear()),
        no("a list count above both", 1, |s| s.divisor_count = 3),
        no("a list count above the vertices", 1, |s| {
            s.divisor_count = 4;
            s.points.resize(8, 0);
        }),
        no("a list count above the points", 1, |s| {
            s.divisor_count = 4;
            s.divisor.extend([0, 2]);
        }),
        no("the largest list count", 1, |s| {
            s.divisor_count = usize::MAX
        }),
        no("a list count that wraps twice", 1, |s| {
            s.divisor_count = 1 << 63
        }),
        no("a list count that wraps to two floats", 1, |s| {
            s.divisor_count = (1 << 63) + 1;
        }),
        same("vertices behind the list", |s| {
            s.divisor.extend([u32::MAX, 3, 1])
        }),
    ]
}

/// Vertex and edge numbers at and past the counts, and cells that are no
/// input.
fn numbers() -> Vec<Case<SplitWires>> {
    vec![
        no("a vertex of the list at the count", 2, |s| s.divisor[1] = 4),
        no("the largest vertex of the list", 2, |s| {
            s.divisor[0] = u32::MAX
        }),
        no("an odd last vertex at the count", 2, |s| {
            (s.divisor, s.divisor_count) = (vec![3, 1, 4], 3);
            s.points.resize(6, 0);
        }),
        no("a face use at the edge count", 3, |s| s.face.uses[0] = 10),
        no("the largest face use", 3, |s| s.face.uses[5] = u32::MAX),
        no("a use of the new edge", 3, |s| s.rebuilt.uses[5] = 11),
        no("the largest rebuilt use", 3, |s| {
            s.rebuilt.uses[0] = u32::MAX
        }),
        same("bad uses behind the wires", |s| {
            s.face.uses.push(u32::MAX);
            s.rebuilt.uses.push(10);
        }),
        same("bad uses in the buffer for wires", |s| {
            s.uses.fill(u32::MAX)
        }),
        same("vertices that no edge has", |s| s.tables.vertices = 4096),
        same("more points than vertices", |s| s.points.resize(9, 0)),
    ]
}

/// A change of an input.
type Change = fn(&mut SplitWires);

/// Sets a float cell of an edge.
fn edge_float(split: &mut SplitWires, row: usize, cell: usize, value: f64) {
    split.tables.edge_floats[row * EDGE_FLOATS + cell] = value.to_bits();
}

/// One change for each number of a refusal, the last two of the walk.
const CHANGES: [(i32, Change); 10] = [
    (1, |s| s.tables.edge_numbers[2] = 2),
    (2, |s| s.divisor[0] = 4),
    (3, |s| s.face.uses[0] = 10),
    (4, |s| s.points[1] = f64::NAN.to_bits()),
    (5, |s| edge_float(s, 0, 4, 9.0)),
    (6, |s| s.lengths.truncate(4)),
    (9, |s| s.divisor_count = 1),
    (10, |s| s.divisor[1] = s.divisor[0]),
    (11, |s| s.rebuilt.lengths[0] = 5),
    (12, |s| s.rebuilt.uses[0] = 6),
];

/// Two causes of neighbouring numbers: the lower number wins.
fn lowest() -> Vec<Case<SplitWires>> {
    let names = [
        "1 before 2",
        "2 before 3",
        "3 before 4",
        "4 before 5",
        "5 before 6",
        "6 before 9",
        "9 before 10",
        "10 before a dead end",
    ];
    let pair = |(place, name): (usize, &'static str)| {
        let [(number, first), (_, second)] = [CHANGES[place], CHANGES[place + 1]];
        no(name, number, |s| {
            second(s);
            first(s);
        })
    };
    let mut cases: Vec<_> = names.into_iter().enumerate().map(pair).collect();
    cases.push(no("a dead end alone", 11, CHANGES[8].1));
    cases.push(no("a crowd alone", 12, CHANGES[9].1));
    cases
}

/// Several causes at once.
fn far_apart() -> Vec<Case<SplitWires>> {
    let from = |name, place: usize| {
        no(name, CHANGES[place].0, |s| {
            let changes = CHANGES[place..].iter().rev();
            changes.for_each(|(_, change)| change(s));
        })
    };
    let mut full = k10();
    full.tables = over(&sample_edges()[..5], &[], &[], &[]).tables;
    full.tables.vertices = 4097;
    vec![
        from("all causes", 0),
        from("all but 1", 1),
        from("all but 1 and 2", 2),
        from("all from 4 on", 3),
        from("all from 5 on", 4),
        from("all from 6 on", 5),
        from("all from 9 on", 6),
        from("all from 10 on", 7),
        Case::unchanged("4097 vertices and no room", full, 1),
        no("t0 above t1 and no places for uses", 5, |s| {
            edge_float(s, 4, 5, -1.0);
            s.uses.clear();
        }),
    ]
}
