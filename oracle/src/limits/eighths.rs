//! Cuts away from the middle, and values of k that may not be handed in.

use super::ways::{ample, done_at, edge, edge_float, edge_number, held, sample, sample_at};
use super::ways::{shell, span, vertex_float, vertex_number};
use super::{full_tables, ORIGIN};
use crate::calls::split_closed_edges::SplitClosed;
use crate::compare::Case;
use crate::random::Random;
use crate::records::{Preparation, Vertex};
use crate::shell::{needed, Lent};

/// All cases.
pub fn cases() -> Vec<Case<SplitClosed>> {
    [
        of_ring(),
        of_kinds(),
        negative_zero(),
        least(),
        greatest(),
        no_length(),
        unknown(),
        unknown_and_nothing_to_cut(),
        unknown_in_full_tables(),
        unknown_without_room(),
        lower_causes(),
    ]
    .into_iter()
    .flatten()
    .collect()
}

/// K1's edge over another range, cut at a parameter.
fn cut(name: &'static str, k: u32, [t0, t1]: [f64; 2], t: f64) -> Case<SplitClosed> {
    let whole = span(7, t0, t1);
    let before = shell(&[ORIGIN], &[edge(0, 0, whole)], &["0+", "0-"]);
    let halves = [edge(0, 1, span(7, t0, t)), edge(1, 0, span(7, t, t1))];
    let new = Vertex::Pending(whole, t);
    let after = shell(&[ORIGIN, new], &halves, &["0+ 1+", "1- 0-"]);
    done_at(name, k, &before, &after)
}

/// A range with some of the values of k.
fn each(cases: &[(&'static str, u32, f64)], range: [f64; 2]) -> Vec<Case<SplitClosed>> {
    let case = |&(name, k, t): &(&'static str, u32, f64)| cut(name, k, range, t);
    cases.iter().map(case).collect()
}

/// K1 and K2 with each k.
fn of_ring() -> Vec<Case<SplitClosed>> {
    let cases = [
        ("K1 and K2 with k 1", 1, 1.0),
        ("K1 and K2 with k 2", 2, 2.0),
        ("K1 and K2 with k 3", 3, 3.0),
        ("K1 and K2 with k 4", 4, 4.0),
        ("K1 and K2 with k 5", 5, 5.0),
        ("K1 and K2 with k 6", 6, 6.0),
        ("K1 and K2 with k 7", 7, 7.0),
    ];
    each(&cases, [0.0, 8.0])
}

/// Records of each kind and preparation, and two closed edges.
fn of_kinds() -> Vec<Case<SplitClosed>> {
    let (first, second) = (span(7, 0.0, 8.0), span(8, 1.0, 2.0));
    let single = |front: u32, back: u32, t0: f64, t1: f64| {
        edge(front, back, span(8, t0, t1)).prepared(Preparation::SingleBevel)
    };
    let before = shell(
        &[ORIGIN, ORIGIN],
        &[edge(0, 0, first), single(1, 1, 1.0, 2.0)],
        &["0+ 1-", "1+ 0-"],
    );
    let new = [Vertex::Pending(first, 7.0), Vertex::Pending(second, 1.875)];
    let after = shell(
        &[ORIGIN, ORIGIN, new[0], new[1]],
        &[
            edge(0, 2, span(7, 0.0, 7.0)),
            single(1, 3, 1.0, 1.875),
            edge(2, 0, span(7, 7.0, 8.0)),
            single(3, 1, 1.875, 2.0),
        ],
        &["0+ 2+ 3- 1-", "1+ 3+ 2- 0-"],
    );
    let open = shell(&[ORIGIN, ORIGIN], &[edge(0, 1, first)], &["0+"]);
    vec![
        sample_at("one of each kind, k 1", 1),
        sample_at("one of each kind, k 5", 5),
        done_at("two closed edges, k 7", 7, &before, &after),
        done_at("no closed edge, k 7", 7, &open, &open),
    ]
}

/// From negative zero to itself only the middle is negative zero.
fn negative_zero() -> Vec<Case<SplitClosed>> {
    let cases = [
        ("negative zero to itself, k 1", 1, 0.0),
        ("negative zero to itself, k 3", 3, 0.0),
        ("negative zero to itself, k 4", 4, -0.0),
        ("negative zero to itself, k 5", 5, 0.0),
        ("negative zero to itself, k 7", 7, 0.0),
    ];
    each(&cases, [-0.0, -0.0])
}

/// From the least float to its double, and to so many of it that it makes a
/// difference whether the product or the eighth comes first.
fn least() -> Vec<Case<SplitClosed>> {
    let (one, two) = (5.0e-324, 1.0e-323);
    let cases = [
        ("the least float to its double, k 1", 1, one),
        ("the least float to its double, k 2", 2, one),
        ("the least float to its double, k 3", 3, one),
        ("the least float to its double, k 4", 4, two),
        ("the least float to its double, k 5", 5, two),
        ("the least float to its double, k 6", 6, two),
        ("the least float to its double, k 7", 7, two),
    ];
    let [length, t] = [3_002_399_751_580_343, 1_125_899_906_842_628].map(f64::from_bits);
    let product_first = cut("the product before the eighth", 3, [0.0, length], t);
    each(&cases, [one, two])
        .into_iter()
        .chain([product_first])
        .collect()
}

/// Between the greatest sizes.
fn greatest() -> Vec<Case<SplitClosed>> {
    let cases = [
        ("the greatest sizes, k 1", 1, -7.5e14),
        ("the greatest sizes, k 2", 2, -5.0e14),
        ("the greatest sizes, k 3", 3, -2.5e14),
        ("the greatest sizes, k 4", 4, 0.0),
        ("the greatest sizes, k 5", 5, 2.5e14),
        ("the greatest sizes, k 6", 6, 5.0e14),
        ("the greatest sizes, k 7", 7, 7.5e14),
    ];
    each(&cases, [-1.0e15, 1.0e15])
}

/// Ranges without a length.
fn no_length() -> Vec<Case<SplitClosed>> {
    let of = |name, k: u32, t: f64| cut(name, k, [t, t], t);
    vec![
        of("the greatest size to itself, k 1", 1, 1.0e15),
        of("the least size to itself, k 7", 7, -1.0e15),
        of("the least float to itself, k 3", 3, 5.0e-324),
        of("a tenth to itself, k 6", 6, 0.1),
    ]
}

/// A call that is refused.
fn no(name: &'static str, number: i32, lent: Lent, k: u32) -> Case<SplitClosed> {
    Case::unchanged(name, SplitClosed { lent, k }, number)
}

/// The sample with a k that may not be handed in.
fn unknown() -> Vec<Case<SplitClosed>> {
    let no = |name, k: u32| no(name, 18, sample("").input.lent, k);
    vec![
        no("k 0", 0),
        no("k 8", 8),
        no("k 9", 9),
        no("k 260", 260),
        no("k 2^31 + 4", (1 << 31) + 4),
        no("the largest k", u32::MAX),
    ]
}

/// 18 where nothing would be cut.
fn unknown_and_nothing_to_cut() -> Vec<Case<SplitClosed>> {
    let line = edge(0, 1, span(3, 0.0, 2.0));
    let open = shell(&[ORIGIN, ORIGIN], &[line], &["0+"]);
    let no_edges = shell(&[ORIGIN], &[], &[""]);
    let nothing = Lent::poisoned([0; 6], &mut Random::new(0, 0, 0));
    let ample = |shell| held(shell, ample([3, 3, 3], 2));
    vec![
        no("k 0 and no closed edge", 18, ample(&open), 0),
        no("k 8 and no closed edge", 18, ample(&open), 8),
        no(
            "the largest k and no closed edge",
            18,
            ample(&open),
            u32::MAX,
        ),
        no("k 0 and no edges", 18, ample(&no_edges), 0),
        no("k 0 and nothing lent", 18, nothing, 0),
    ]
}

/// The full tables with k 0 in place of the middle: 18 where the call would be
/// done and where it has no room, and 1 as before.
fn unknown_in_full_tables() -> Vec<Case<SplitClosed>> {
    let names = [
        "4096 vertices, one closed edge, k 0",
        "4096 vertices, no closed edge, k 0",
        "4096 edges, the last one closed, k 0",
        "4096 edges, none closed, k 0",
        "4097 vertices, k 0",
        "4097 edges, k 0",
    ];
    let with_0 = |(case, name): (Case<SplitClosed>, &'static str)| {
        let number = if case.expected.answer == 1 { 1 } else { 18 };
        no(name, number, case.input.lent, 0)
    };
    full_tables().into_iter().zip(names).map(with_0).collect()
}

/// 18 before 6: buffers that are one cell too short for the result.
fn unknown_without_room() -> Vec<Case<SplitClosed>> {
    let names = [
        "18 before 6, no room for a vertex number",
        "18 before 6, no room for a vertex float",
        "18 before 6, no room for an edge number",
        "18 before 6, no room for an edge float",
        "18 before 6, no room for a use",
    ];
    let short = |(buffer, name): (usize, &'static str)| {
        let mut lent = sample("").input.lent;
        let mut sizes = needed([4, 4, 6], 3);
        sizes[buffer] -= 1;
        lent.shorten(sizes);
        no(name, 18, lent, 8 * (buffer as u32 % 2))
    };
    names.into_iter().enumerate().map(short).collect()
}

/// Two causes at once: 1 to 5 come before 18.
fn lower_causes() -> Vec<Case<SplitClosed>> {
    let both = |name, number, k: u32, change: &dyn Fn(&mut Lent)| {
        let mut lent = sample("").input.lent;
        change(&mut lent);
        no(name, number, lent, k)
    };
    vec![
        both("1 before 18", 1, 0, &vertex_number(2, 0, 2)),
        both("1 before 18, k 8", 1, 8, &|lent| lent.wires = 65),
        both("2 before 18", 2, 0, &edge_number(2, 0, 9)),
        both("3 before 18", 3, 0, &|lent| lent.uses[3] = 6),
        both("4 before 18", 4, 0, &vertex_float(2, 6, f64::NAN)),
        both("5 before 18", 5, 0, &edge_float(0, 4, 1.5)),
        both(
            "5 before 18, the largest k",
            5,
            u32::MAX,
            &edge_float(2, 4, 3.5),
        ),
        both("5 before 18 and 6", 5, 0, &|lent| {
            edge_float(0, 4, 1.5)(lent);
            lent.uses.truncate(5);
        }),
    ]
}
