//! The named cases: each answer is written out by hand, and the plain
//! implementation, the model and the Rust all give it.

use oracle::calls::cut_edge::CutEdge;
use oracle::calls::find_divisor::FindDivisor;
use oracle::calls::join_wires::JoinWires;
use oracle::calls::nearest_correction::NearestEnds;
use oracle::calls::several_cuts::SeveralCuts;
use oracle::calls::sort_wires::SortWires;
use oracle::calls::split_closed_edges::SplitClosed;
use oracle::calls::split_wires::SplitWires;
use oracle::calls::Families;
use oracle::compare::difference;
use oracle::port::{CutParameter, NearestCopy, Unwrap, WireEnds};
use oracle::reference::Reference;
use std::collections::BTreeSet;

/// The cases of preparations that every call over edges has.
const OF_PREPARATIONS: [&str; 8] = [
    "preparation 3 in a used edge row",
    "preparation 3 in an unused edge row",
    "largest preparation",
    "largest preparation of an unused edge",
    "preparation 3 and a front too large before it",
    "preparation 3 and a back too large behind it",
    "one number of each edge row too few",
    "preparation 3 behind the edges",
];

/// The same with the names of further cases.
fn with_preparations(more: &[&'static str]) -> Vec<&'static str> {
    [&OF_PREPARATIONS, more].concat()
}

/// The reference, the model and the Rust give the written answers of a call;
/// every answer occurs, no name stands twice, and these names stand there.
fn hold<I: Families + std::fmt::Debug>(wanted: &[&str]) {
    let cases = I::limits();
    for case in &cases {
        let (_, what) = difference(&Reference::default(), &case.input, &case.expected);
        assert_eq!(what, None, "{} {}", I::NAME, case.name);
        #[cfg(rust_at_hand)]
        assert!(
            case.input.expected() == case.expected,
            "{} {}: {:?}",
            I::NAME,
            case.name,
            case.input.expected()
        );
    }
    let answers: BTreeSet<i32> = cases.iter().map(|case| case.expected.answer).collect();
    assert_eq!(answers, I::ANSWERS.iter().copied().collect());
    let names: BTreeSet<&str> = cases.iter().map(|case| case.name).collect();
    assert_eq!(names.len(), cases.len(), "a name stands twice");
    for name in wanted {
        assert!(names.contains(name), "{name}");
    }
}

#[test]
fn split_closed_edges() {
    hold::<SplitClosed>(&with_preparations(&[
        "K1",
        "K2",
        "K3",
        "both directions",
        "negative zero to negative zero",
        "4096 vertices, one closed edge",
        "4096 vertices, no closed edge",
        "512 uses of one closed edge",
        "513 uses of one closed edge",
        "64 edges and 64 uses",
        "65 edges and 2 uses",
        "2 edges and 65 uses, no room",
        "unused edge, t0 above t1",
        "64 wire lengths of the largest number",
        "kind 2 in an edge row",
        "kind 2 in a vertex row",
        "kind 2 in a pending curve",
        "NaN for t0 of a span",
        "NaN for u beside a span",
        "all counts the largest",
        "a single bevel cell by cell",
        "a double bevel cell by cell",
        "closed and open edges of both bevels",
        "K1 and K2 with k 1",
        "negative zero to itself, k 1",
        "negative zero to itself, k 4",
        "the least float to its double, k 3",
        "the least float to its double, k 4",
        "the greatest sizes, k 7",
        "the greatest size to itself, k 1",
        "k 0",
        "k 8",
        "the largest k",
        "k 0 and no closed edge",
        "k 0 and nothing lent",
        "4096 vertices, one closed edge, k 0",
        "4096 edges, none closed, k 0",
        "18 before 6, no room for a use",
        "1 before 18",
        "2 before 18",
        "3 before 18",
        "4 before 18",
        "5 before 18",
    ]));
}

#[test]
fn cut_parameter() {
    hold::<CutParameter>(&[
        "0 to 8, k 1",
        "negative zero to itself, k 1",
        "negative zero to itself, k 4",
        "the least float to its double, k 1",
        "the least float to its double, k 7",
        "the greatest sizes, k 1",
        "the greatest size, k 3",
        "a tenth, k 5",
        "k 0",
        "k 8",
        "the largest k",
        "5 before 18",
        "4 before 18",
    ]);
}

#[test]
fn get_mindiff() {
    hold::<Unwrap>(&[
        "K4",
        "K5",
        "negative zero, nearest unmoved",
        "no period, negative zero",
        "no period, NaN for u0",
        "period negative zero",
    ]);
}

#[test]
fn nearest_copy() {
    hold::<NearestCopy>(&[
        "no periods, negative zero becomes zero",
        "the first of copies whose squares are lost",
    ]);
}

#[test]
fn boundary_type() {
    hold::<WireEnds>(&["K17", "K18", "K19", "just at the threshold"]);
}

#[test]
fn sort_wires() {
    hold::<SortWires>(&["64 wires", "65 wires", "none before 6"]);
}

#[test]
fn nearest_correction() {
    hold::<NearestEnds>(&with_preparations(&[
        "K9's own start",
        "coincident vertices",
        "equal after rounding",
        "no first stretch",
        "the last vertex pending",
        "each preparation",
    ]));
}

#[test]
fn find_divisor() {
    hold::<FindDivisor>(&with_preparations(&[
        "K6",
        "K7",
        "K8",
        "K9",
        "an answer before 8",
        "8 before an answer",
        "7 before 8",
        "each preparation",
    ]));
}

#[test]
fn cut_edge() {
    hold::<CutEdge>(&with_preparations(&[
        "a cut cell by cell",
        "at t0",
        "at t1",
        "no cut, the edge at the count",
        "two cuts, x of the second NaN",
        "4096 vertices, two cuts",
        "512 uses of the edge, just enough room",
        "64 edges and 64 uses",
        "65 edges and 2 uses",
        "2 edges and 65 uses, no room",
        "unused edge, t0 above t1",
        "a square line beside bevels",
        "a single bevel beside others",
        "a double bevel beside others",
        "a double bevel cut cell by cell",
        "no cut, a preparation unknown",
    ]));
}

#[test]
fn several_cuts() {
    hold::<SeveralCuts>(&with_preparations(&[
        "edge (0, 1) reversed, two cuts",
        "a closed edge, three cuts",
        "at t0, between and at t1",
        "both directions, twice",
        "a closed seam",
        "the last edge",
        "two double bevel cuts cell by cell",
        "a single bevel beside others",
        "negative zero at zero",
        "at neighbours",
        "negative zero, then zero",
        "the last of 64 as the one before",
        "64 cuts",
        "65 cuts",
        "65 equal cuts",
        "65 cuts and 64 rows",
        "65 cuts and no room",
        "65 cuts, the last outside",
        "65 cuts, z of the last NaN",
        "no cut in full tables",
        "no cut, the edge at the count",
        "no cut, a preparation unknown",
        "4063 vertices, 33 cuts",
        "4096 vertices, falling",
        "4096 edges, 65 cuts",
        "64 cuts, used 15 times",
        "64 cuts, used 16 times",
        "256 uses, three cuts, just enough room",
        "65 edges and 65 uses",
        "2 edges and 65 uses, no room",
        "room for the first cut alone",
        "too many cuts, most outside",
        "too many cuts, which do not rise",
        "falling cuts and no room",
        "unused edge, t0 above t1",
    ]));
}

#[test]
fn join_wires() {
    hold::<JoinWires>(&with_preparations(&[
        "K15",
        "K16",
        "K15 cell by cell",
        "none before 6",
        "15 before none",
        "15 before 6",
        "the last of 62 new wires",
        "64 uses laid and 64 new",
        "65 uses laid and 3 new",
        "3 uses laid and 65 new, no room",
        "63 new wires",
        "just enough room",
        "each preparation",
    ]));
}

#[test]
fn split_wires() {
    hold::<SplitWires>(&with_preparations(&[
        "K10",
        "K11",
        "K12",
        "K13",
        "K14",
        "K10 cell by cell",
        "no uses, buffers of length 0",
        "a loop used 65 times",
        "two pairs and no uses",
        "1024 uses and a list of one",
        "1024 uses and a list of two",
        "1023 uses and the list 0, 0, 1",
        "odd and repeated",
        "just enough room",
        "4095 edges and a pair",
        "4096 edges and a pair",
        "64 vertices and 64 edges",
        "65 vertices and 6 edges",
        "6 vertices and 65 edges, no room",
        "the last of 65 vertices twice",
        "65 pairs",
        "twice in the face, not rebuilt twice",
        "an edge in both directions",
        "unused edge, t0 above t1",
        "each preparation",
        "a square seam beside double bevels",
        "a square seam among all preparations",
    ]));
}
