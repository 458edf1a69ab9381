//! Results that fit just so, or not: 6 is judged by the count of uses, and
//! comes before 9, 10 and the walk.

use super::{done, no, of_k9, over, place, same, wires, K12, K9, TO_AND_FRO};
use crate::calls::split_wires::{Place, SplitWires};
use crate::calls::tables::{sample_edges, spans};
use crate::compare::Case;
use crate::shell::{EDGE_FLOATS, EDGE_NUMBERS};

/// All cases.
pub fn cases() -> Vec<Case<SplitWires>> {
    [buffers(), before_others(), uses_out(), lists(), edges()]
        .into_iter()
        .flatten()
        .collect()
}

/// Drops the cells past so many uses, lengths and rows of edges.
fn shorten(split: &mut SplitWires, uses: usize, lengths: usize, edges: usize) {
    split.uses.truncate(uses);
    split.lengths.truncate(lengths);
    split.tables.edge_numbers.truncate(edges * EDGE_NUMBERS);
    split.tables.edge_floats.truncate(edges * EDGE_FLOATS);
}

/// K10, which needs 8 places for uses, 8 for lengths and 6 rows of edges.
fn buffers() -> Vec<Case<SplitWires>> {
    let numbers = 6 * EDGE_NUMBERS;
    let floats = 6 * EDGE_FLOATS;
    vec![
        same("just enough room", |s| shorten(s, 8, 8, 6)),
        no("one use too few out", 6, |s| s.uses.truncate(7)),
        no("one length too few out", 6, |s| s.lengths.truncate(7)),
        no("one edge number too few out", 6, |s| {
            s.tables.edge_numbers.truncate(numbers - 1)
        }),
        no("one edge float too few out", 6, |s| {
            s.tables.edge_floats.truncate(floats - 1)
        }),
        no("no row for the new edge", 6, |s| shorten(s, 8, 8, 5)),
        no("as many lengths as wires", 6, |s| s.lengths.truncate(2)),
        no("room for what is rebuilt alone", 6, |s| shorten(s, 6, 6, 6)),
        no("no places for uses", 6, |s| s.uses.clear()),
        no("no places for lengths", 6, |s| s.lengths.clear()),
        no("no places at all", 6, |s| shorten(s, 0, 0, 6)),
    ]
}

/// No room, and something else that is wrong or would be.
fn before_others() -> Vec<Case<SplitWires>> {
    let short = |name, number, mut input: SplitWires, places: usize| {
        shorten(&mut input, places, places, 99);
        Case::unchanged(name, input, number)
    };
    let of_list = |list: &[u32]| of_k9(&[K9], &[K9], list);
    let dead_end = over(&spans(&[(0, 1)]), &[], &["0+"], &[]);
    let crowd = over(&spans(&TO_AND_FRO), &[], &[K12], &[]);
    let mut whole = of_list(&[]);
    shorten(&mut whole, 6, 6, 5);
    let mut odd = of_list(&[1]);
    shorten(&mut odd, 6, 6, 5);
    vec![
        short("an odd list without room", 6, of_list(&[3, 1, 0]), 7),
        // The odd last vertex makes no edge and needs no room.
        short(
            "an odd list with room for its pair",
            9,
            of_list(&[3, 1, 0]),
            8,
        ),
        short("a list of one with room for the rest", 9, of_list(&[3]), 6),
        short("a list of one without room", 6, of_list(&[3]), 5),
        short("a vertex twice without room", 6, of_list(&[1, 1]), 7),
        short("a dead end without room", 6, dead_end, 0),
        short("a crowd without room", 6, crowd, 5),
        done(
            "no new edge, just enough room",
            whole,
            &["0+ 3+ 4+ 0-", "1+ 2+"],
        ),
        Case::unchanged("a list of one, no row for an edge", odd, 9),
    ]
}

/// Loops at vertex 0, so many times, and a list.
fn loops(rebuilt: usize, list: &[u32]) -> SplitWires {
    let rebuilt = "0+ ".repeat(rebuilt);
    over(&spans(&[(0, 0)]), &[], &[&rebuilt], list)
}

/// The count of uses at its bound of 1,024.
fn uses_out() -> Vec<Case<SplitWires>> {
    let mut after = vec!["0+"; 1022];
    after.push("1+ 1-");
    let no =
        |name, number, rebuilt, list: &[u32]| Case::unchanged(name, loops(rebuilt, list), number);
    vec![
        done("1022 uses and a list of two", loops(1022, &[1, 2]), &after),
        no("1023 uses and a list of two", 6, 1023, &[1, 2]),
        no("1024 uses and a list of two", 6, 1024, &[1, 2]),
        no("1024 uses and a list of one", 9, 1024, &[1]),
        no("1023 uses and a list of one", 9, 1023, &[1]),
        no("1024 uses and a list of three", 6, 1024, &[1, 2, 3]),
        no("1023 uses and the list 0, 0, 1", 6, 1023, &[0, 0, 1]),
        no("1022 uses and the list 0, 0, 1", 9, 1022, &[0, 0, 1]),
        no("1023 uses and the list 0, 0", 6, 1023, &[0, 0]),
        no("1022 uses and the list 0, 0", 10, 1022, &[0, 0]),
    ]
}

/// So many vertices on the divisor, and nothing else.
fn long_list(count: u32) -> SplitWires {
    let places: Vec<Place> = (0..count).map(place).collect();
    SplitWires::over((4096, &[]), [&[], &[]], &places, 0)
}

/// Lists without a bound of their own.
fn lists() -> Vec<Case<SplitWires>> {
    let after: Vec<String> = (0..512).map(|edge| format!("{edge}+ {edge}-")).collect();
    let after: Vec<&str> = after.iter().map(String::as_str).collect();
    let mut equal = long_list(1026);
    equal.divisor.fill(5);
    vec![
        done("a list of 1024", long_list(1024), &after),
        Case::unchanged("a list of 1025", long_list(1025), 9),
        Case::unchanged("a list of 1026", long_list(1026), 6),
        Case::unchanged("a list of 1027", long_list(1027), 6),
        Case::unchanged("a list of 4096", long_list(4096), 6),
        Case::unchanged("1026 times the same vertex", equal, 6),
    ]
}

/// The count of edges at its bound of 4,096.
fn edges() -> Vec<Case<SplitWires>> {
    let full = |count: usize, list: &[u32]| {
        let mut edges = sample_edges();
        edges.resize(count, edges[5]);
        let places: Vec<Place> = list.iter().map(|&vertex| place(vertex)).collect();
        SplitWires::over((4, &edges), [&wires(&[K9])[..]; 2], &places, 1)
    };
    let no = |name, number, count, list: &[u32]| Case::unchanged(name, full(count, list), number);
    let whole = ["0+ 3+ 4+ 0-", "1+ 2+"];
    vec![
        done("4096 edges and no list", full(4096, &[]), &whole),
        done(
            "4095 edges and a pair",
            full(4095, &[3, 1]),
            &["0+ 3+ 4095+ 2+", "1+ 4095- 4+ 0-"],
        ),
        no("4096 edges and a pair", 6, 4096, &[3, 1]),
        no("4095 edges and two pairs", 6, 4095, &[3, 1, 0, 2]),
        no("4096 edges and a list of one", 9, 4096, &[3]),
        no("4096 edges and a vertex twice", 6, 4096, &[3, 3]),
        no("4096 edges and a list of three", 6, 4096, &[3, 1, 0]),
        no("4095 edges and a list of three", 9, 4095, &[3, 1, 0]),
        no("4097 edges", 1, 4097, &[]),
        no("4097 edges and a pair", 1, 4097, &[3, 1]),
    ]
}
