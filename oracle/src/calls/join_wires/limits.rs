//! Named joins at the corners and bounds of the specification, each with its
//! answer written out by hand.

mod arrays;

use super::JoinWires;
use crate::calls::tables::{edge_table, sample_edges, spans, tables, POINTS, SPOILS};
use crate::compare::{Case, NONE};
use crate::records::{wire, wires};
use crate::shell::{Tables, EDGE_FLOATS};

/// All cases.
pub fn cases() -> Vec<Case<JoinWires>> {
    [
        results(),
        turns(),
        places(),
        new_wires(),
        vec![cell_by_cell()],
        nones(),
        bounds(),
        arrays::cases(),
        lengths(),
        numbers(),
        room(),
        empty_open_wires(),
        lowest(),
        spoils(),
    ]
    .into_iter()
    .flatten()
    .collect()
}

/// K9's edges, two open wires, new wires and two vertices, with some room
/// behind the result.
fn over(open: [&str; 2], new: &[&str], ends: [u32; 2]) -> JoinWires {
    let (open, new) = (open.map(wire), wires(new));
    let uses = open.concat().len() + new.concat().len();
    let tables = edge_table(4, &sample_edges());
    JoinWires::over(tables, open, &new, ends, (uses + 3, 2))
}

/// K15's input.
fn k15() -> JoinWires {
    over(["1+ 2+", "3+ 4+"], &["0+ 0-"], [0, 2])
}

/// K15's result.
const K15: &str = "0- 1+ 2+ 0+ 3+ 4+";

/// An input that is joined to these wires.
fn done(name: &'static str, input: JoinWires, after: &[&str]) -> Case<JoinWires> {
    let expected = input.done(&wires(after));
    Case {
        name,
        input,
        expected,
    }
}

/// An input over K9's edges that is joined to these wires.
fn gives(
    name: &'static str,
    open: [&str; 2],
    new: &[&str],
    ends: [u32; 2],
    after: &[&str],
) -> Case<JoinWires> {
    done(name, over(open, new, ends), after)
}

/// K15 with a change that earns a refusal or "none".
fn no(name: &'static str, number: i32, change: impl Fn(&mut JoinWires)) -> Case<JoinWires> {
    let mut input = k15();
    change(&mut input);
    Case::unchanged(name, input, number)
}

/// Results that are written out. The fronts of 0+ to 4+ are 0, 0, 1, 2, 3,
/// those of 0- to 4- are 2, 1, 0, 3, 2.
fn results() -> Vec<Case<JoinWires>> {
    let open = ["1+ 2+", "3+ 4+"];
    vec![
        gives("K15", open, &["0+ 0-"], [0, 2], &[K15]),
        gives("the new wire is turned", open, &["0- 0+"], [0, 2], &[K15]),
        gives(
            "one use each",
            ["1+", "1-"],
            &["2- 2+"],
            [0, 1],
            &["2+ 1+ 2- 1-"],
        ),
        gives(
            "self loops",
            ["5+", "5-"],
            &["5- 5+"],
            [3, 3],
            &["5+ 5- 5+ 5-"],
        ),
    ]
}

/// Open wires that change places or are turned.
fn turns() -> Vec<Case<JoinWires>> {
    let open = ["1+ 2+", "3+ 4+"];
    vec![
        // i = 0, index = 1: the wires change places, the first is not turned.
        gives(
            "the open wires change places",
            ["2+ 1+", "3+ 4+"],
            &["0+ 0-"],
            [0, 0],
            &["0+ 0- 3+ 4+ 1+ 2+"],
        ),
        // i = 1, index = 0: the first is turned by one, though it lacks v0.
        gives(
            "the first wire is turned by one",
            open,
            &["0- 0+"],
            [2, 2],
            &["0- 0+ 2+ 1+ 3+ 4+"],
        ),
        gives(
            "a first wire of one use is turned by one",
            ["1+", "3+ 4+"],
            &["0- 3-"],
            [2, 3],
            &["3- 1+ 0- 4+ 3+"],
        ),
        // i = 1, index = 1: both happen.
        gives(
            "turned by one and places changed",
            open,
            &["3- 2+"],
            [3, 1],
            &["2+ 4+ 3+ 3- 2+ 1+"],
        ),
    ]
}

/// Vertices that stand far behind or in several places.
fn places() -> Vec<Case<JoinWires>> {
    vec![
        // i = 0, index = 2: the place of v0 does not matter further.
        gives(
            "v0 at the third place",
            ["2+ 4+ 1+", "3+"],
            &["0+ 2+"],
            [0, 1],
            &["2+ 3+ 0+ 2+ 4+ 1+"],
        ),
        gives(
            "v0 and v1 the same",
            ["1+ 2+", "0+ 1-"],
            &["1+"],
            [0, 0],
            &["1+ 2+ 1+ 0+ 1-"],
        ),
        // 0 is a front of both: the first open wire counts, at its place 1.
        gives(
            "v0 in both open wires",
            ["2+ 1+", "0+ 3+"],
            &["0+ 2+"],
            [0, 1],
            &["2+ 0+ 3+ 0+ 2+ 1+"],
        ),
        // v1 stands twice in the second and in the first with the new wire.
        gives(
            "the first of two places of v1",
            ["1+ 0-", "4+ 3+ 0-"],
            &["0+ 3+"],
            [0, 2],
            &["0- 0+ 3+ 1+ 3+ 0- 4+"],
        ),
    ]
}

/// Several new wires.
fn new_wires() -> Vec<Case<JoinWires>> {
    let open = ["1+ 2+", "3+ 4+"];
    let many: Vec<&str> = [&["3+"; 61][..], &["0+ 0-"]].concat();
    let many_after: Vec<&str> = [&["3+"; 61][..], &[K15]].concat();
    let first: Vec<&str> = [&["0+ 0-"][..], &["3+"; 61]].concat();
    let first_after: Vec<&str> = [&[K15][..], &["3+"; 61]].concat();
    vec![
        gives(
            "the second of three new wires",
            open,
            &["3+", "0+ 0-", "1-"],
            [0, 2],
            &["3+", K15, "1-"],
        ),
        gives(
            "the first of two new wires with v0",
            open,
            &["0+ 0-", "1+ 0-"],
            [0, 2],
            &[K15, "1+ 0-"],
        ),
        gives(
            "empty new wires about",
            open,
            &["", "0+ 0-", ""],
            [0, 2],
            &["", K15, ""],
        ),
        gives("the last of 62 new wires", open, &many, [0, 2], &many_after),
        gives(
            "the first of 62 new wires",
            open,
            &first,
            [0, 2],
            &first_after,
        ),
    ]
}

/// K15 with each cell written out, in buffers of just the result's length. The
/// cells that hold 77 are no input.
fn cell_by_cell() -> Case<JoinWires> {
    let mut input = k15();
    input.new.uses = vec![0, 1, 77, 77, 77, 77];
    input.new.lengths = vec![2];
    let mut case = done("K15 cell by cell", input, &[K15]);
    case.expected.after.new.uses = vec![1, 2, 4, 0, 6, 8];
    case.expected.after.new.lengths = vec![6];
    case.expected.out = vec![6];
    case
}

/// Open wires that are not joined.
fn nones() -> Vec<Case<JoinWires>> {
    let none = |name, open: [&str; 2], new: &[&str], ends: [u32; 2]| {
        Case::unchanged(name, over(open, new, ends), NONE)
    };
    let open = ["1+ 2+", "3+ 4+"];
    vec![
        none("K16", ["3+ 4+", "1+ 2+"], &["0+ 0-"], [0, 2]),
        none("v0 in no open wire", ["1+", "3+"], &["4+ 2+"], [3, 2]),
        none("v1 not in the second", open, &["0+ 0-"], [0, 1]),
        none(
            "v1 not in what is then the second",
            ["2+ 1+", "3+ 4+"],
            &["0+ 0-"],
            [0, 2],
        ),
        none("no new wires", open, &[], [0, 2]),
        none("only empty new wires", open, &["", ""], [0, 2]),
        none("v0 in no new wire", open, &["3+ 4+", "2+"], [0, 2]),
        none("v0 only a back of the new wire", open, &["2+ 3+"], [0, 2]),
        none("v1 only in the second", open, &["0+ 2+"], [0, 3]),
        none("v1 in another new wire", open, &["0+", "0-"], [0, 2]),
        no("none before 6", NONE, |j| {
            j.v1 = 1;
            j.new.uses.truncate(2);
        }),
        no("no new wires and nothing lent for them", NONE, |j| {
            j.new.wires = 0;
            (j.new.uses, j.new.lengths) = (vec![], vec![]);
        }),
    ]
}

/// So many uses of edge 1 first, of edge 3 second, and K15's new wire: what
/// is lent, and what comes of it.
fn long(first: usize, second: usize) -> (JoinWires, Vec<u32>) {
    let (a, b) = ("1+ ".repeat(first), "3+ ".repeat(second));
    let after = format!("0- {a} 0+ {b}");
    (over([&a, &b], &["0+ 0-"], [0, 2]), wire(&after))
}

/// Counts at their bounds.
fn bounds() -> Vec<Case<JoinWires>> {
    let (most, most_after) = long(511, 511);
    let expected = most.done(&[most_after]);
    let longest = Case {
        name: "1024 uses",
        input: most,
        expected,
    };
    let full = |vertices: usize, edges: usize| {
        let mut input = k15();
        let mut all = sample_edges();
        all.resize(edges, all[0]);
        input.new.tables = edge_table(vertices, &all);
        input
    };
    let wide = |name, wires: usize| {
        let new: Vec<&str> = [&["0+ 0-"][..], &vec![""; wires - 1]].concat();
        Case::unchanged(name, over(["1+ 2+", "3+ 4+"], &new, [0, 2]), 1)
    };
    vec![
        longest,
        Case::unchanged("1025 uses, the first longer", long(512, 511).0, 1),
        Case::unchanged("1025 uses, the second longer", long(511, 512).0, 1),
        done("4096 vertices and edges", full(4096, 4096), &[K15]),
        Case::unchanged("4097 edges", full(4, 4097), 1),
        wide("63 new wires", 63),
        wide("64 new wires", 64),
        wide("65 new wires", 65),
        no("more wires than lengths", 1, |j| j.new.wires = 4),
        no("the largest wire count", 1, |j| j.new.wires = usize::MAX),
        no("a wire count that wraps with two more", 1, |j| {
            j.new.wires = usize::MAX - 1;
        }),
    ]
}

/// Lengths and counts of uses above what was lent.
fn lengths() -> Vec<Case<JoinWires>> {
    vec![
        no("a first count above what was lent", 1, |j| {
            j.first_count = 3
        }),
        no("a second count above what was lent", 1, |j| {
            j.second_count = 3;
        }),
        no("both counts the largest", 1, |j| {
            (j.first_count, j.second_count) = (usize::MAX, usize::MAX);
        }),
        no("counts whose sum wraps", 1, |j| {
            (j.first_count, j.second_count) = (usize::MAX, 1);
        }),
        no("a length above the uses", 1, |j| j.new.lengths[0] = 10),
        no("the largest length", 1, |j| j.new.lengths[0] = u32::MAX),
        no("one use of a new wire too few", 1, |j| {
            j.new.uses.truncate(1);
        }),
        no("no uses", 1, |j| j.new.uses.clear()),
        no("no lengths", 1, |j| j.new.lengths.clear()),
        no("lengths that wrap to nothing", 1, |j| {
            j.new.lengths = vec![1 << 31, 1 << 31];
            j.new.wires = 2;
        }),
        no("62 lengths of the largest number", 1, |j| {
            j.new.lengths = vec![u32::MAX; 62];
            j.new.wires = 62;
        }),
    ]
}

/// Vertex and edge numbers at and past the counts, and cells that are no
/// input.
fn numbers() -> Vec<Case<JoinWires>> {
    let same = |name, change: fn(&mut JoinWires)| {
        let mut input = k15();
        change(&mut input);
        done(name, input, &[K15])
    };
    vec![
        no("v0 at the vertex count", 2, |j| j.v0 = 4),
        no("the largest v0", 2, |j| j.v0 = u32::MAX),
        no("v1 at the vertex count", 2, |j| j.v1 = 4),
        no("the largest v1", 2, |j| j.v1 = u32::MAX),
        no("a first use at the edge count", 3, |j| j.first[0] = 12),
        no("the largest first use", 3, |j| j.first[1] = u32::MAX),
        no("a second use at the edge count", 3, |j| j.second[1] = 13),
        no("a new use at the edge count", 3, |j| j.new.uses[0] = 12),
        no("the largest new use", 3, |j| j.new.uses[1] = u32::MAX),
        no("a bad use in a new wire that is not taken", 3, |j| {
            (j.new.uses[2], j.new.lengths[1]) = (12, 1);
            j.new.wires = 2;
        }),
        same("bad uses behind the open wires", |j| {
            j.first.push(u32::MAX);
            j.second.push(12);
        }),
        same("bad uses behind the new wires", |j| {
            (j.new.uses[2], j.new.uses[8]) = (12, u32::MAX);
        }),
        same("vertices that no edge has", |j| {
            j.new.tables.vertices = 4096
        }),
    ]
}

/// The joined wires fit just so, or not.
fn room() -> Vec<Case<JoinWires>> {
    let with = |uses: usize| {
        let mut input = k15();
        input.new.uses.truncate(uses);
        input
    };
    let (mut most, most_after) = long(511, 511);
    most.new.uses.truncate(1024);
    let expected = most.done(&[most_after]);
    let mut short = most.clone();
    short.new.uses.truncate(1023);
    let mut behind = over(["1+ 2+", "3+ 4+"], &["0+ 0-", "3+"], [0, 2]);
    behind.new.uses.truncate(6);
    vec![
        done("just enough room", with(6), &[K15]),
        done("one use to spare", with(7), &[K15]),
        Case::unchanged("one use too few", with(5), 6),
        Case::unchanged("room for the new wire alone", with(2), 6),
        Case::unchanged("room for the joined wire alone", behind, 6),
        Case {
            name: "1024 uses, just enough room",
            input: most,
            expected,
        },
        Case::unchanged("1024 uses, one too few", short, 6),
    ]
}

/// Open wires without a use, whatever the Rust would do.
fn empty_open_wires() -> Vec<Case<JoinWires>> {
    let refused = |name, ends: &[(u32, u32)], open: [&str; 2], new: &[&str], v: u32| {
        let vertices = ends.iter().map(|ends| ends.0.max(ends.1) + 1).max();
        let tables = edge_table(vertices.unwrap_or(1) as usize, &spans(ends));
        let room = (8, 1);
        let input = JoinWires::over(tables, open.map(wire), &wires(new), [v, v], room);
        Case::unchanged(name, input, 15)
    };
    vec![
        refused("the Rust panics", &[(0, 0)], ["", "0+"], &[], 0),
        refused(
            "the Rust panics beside a new wire",
            &[(0, 0)],
            ["", "0+"],
            &["0+"],
            0,
        ),
        refused("the Rust says none, no uses", &[], ["", ""], &[], 0),
        refused(
            "the Rust says none, no second",
            &[(0, 0)],
            ["0+", ""],
            &["0+"],
            0,
        ),
        refused("the Rust answers", &[(0, 1)], ["0+ 0-", ""], &["0-"], 1),
        no("no first wire", 15, |j| j.first_count = 0),
        no("no second wire", 15, |j| j.second_count = 0),
        no("15 before none", 15, |j| (j.second_count, j.v0) = (0, 3)),
        no("15 before 6", 15, |j| {
            j.first_count = 0;
            j.new.uses.truncate(2);
        }),
        no("15 with nothing lent for new wires", 15, |j| {
            (j.first_count, j.new.wires) = (0, 0);
            (j.new.uses, j.new.lengths) = (vec![], vec![]);
        }),
    ]
}

/// Sets a float cell of an edge.
fn edge_float(join: &mut JoinWires, row: usize, cell: usize, value: f64) {
    join.new.tables.edge_floats[row * EDGE_FLOATS + cell] = value.to_bits();
}

/// Two causes at once: the lower number wins, then "none", and 6 comes last.
fn lowest() -> Vec<Case<JoinWires>> {
    type Change = fn(&mut JoinWires);
    let both = |name, number, first: Change, second: Change| {
        no(name, number, |j| {
            first(j);
            second(j);
        })
    };
    let kind: Change = |j| j.new.tables.edge_numbers[2] = 2;
    let count: Change = |j| j.first_count = 3;
    let v0: Change = |j| j.v0 = 4;
    let v1: Change = |j| j.v1 = 4;
    let used: Change = |j| j.second[0] = 12;
    let nan: Change = |j| edge_float(j, 5, 0, f64::NAN);
    let order: Change = |j| edge_float(j, 0, 4, 9.0);
    let empty: Change = |j| j.second_count = 0;
    let short: Change = |j| j.new.uses.truncate(2);
    vec![
        both("a kind and v0", 1, v0, kind),
        both("a count and v1", 1, v1, count),
        both("a count and an empty wire", 1, empty, count),
        both("v0 and a use", 2, used, v0),
        both("v1 and NaN", 2, nan, v1),
        both("v1 and an empty wire", 2, empty, v1),
        both("a use and NaN", 3, nan, used),
        both("a use and no room", 3, short, used),
        both("NaN and t0 above t1", 4, order, nan),
        both("NaN and an empty wire", 4, empty, nan),
        both("t0 above t1 and an empty wire", 5, empty, order),
        both("t0 above t1 and no room", 5, short, order),
        both("an empty wire and no room", 15, short, empty),
        no("a use and a wire that is empty", 3, |j| {
            (j.first[0], j.second_count) = (12, 0);
        }),
        no("no vertices, an empty wire", 2, |j| {
            (j.new.tables.vertices, j.first_count) = (0, 0);
        }),
    ]
}

/// K15 with something done to its edge table, where the vertex rows are no
/// part of it.
fn spoils() -> Vec<Case<JoinWires>> {
    let whole = tables(&POINTS, &sample_edges());
    let of_edges = |spoilt: &Tables| {
        spoilt.vertex_numbers == whole.vertex_numbers && spoilt.vertex_floats == whole.vertex_floats
    };
    let mut cases = Vec::new();
    for (name, number, change) in SPOILS {
        let mut spoilt = whole.clone();
        change(&mut spoilt);
        if of_edges(&spoilt) {
            let mut input = k15();
            (spoilt.vertex_numbers, spoilt.vertex_floats) = (vec![], vec![]);
            input.new.tables = spoilt;
            cases.push(match number {
                0 => done(name, input, &[K15]),
                _ => Case::unchanged(name, input, number),
            });
        }
    }
    cases
}
