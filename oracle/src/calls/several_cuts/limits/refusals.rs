//! Cuts that are refused under 1 to 6, and two causes at once.

use super::{at, no, sample_after, unharmed, SeveralCuts, CUT};
use crate::calls::split_closed_edges::SplitClosed;
use crate::compare::Case;
use crate::limits;
use crate::limits::ways::{edge_number, vertex_number};
use crate::shell::needed;

/// All cases.
pub fn cases() -> Vec<Case<SeveralCuts>> {
    [
        numbers(),
        counts(),
        floats(),
        ranges(),
        room(),
        lowest(),
        of_the_pass(),
    ]
    .into_iter()
    .flatten()
    .collect()
}

/// Edge numbers that are not there.
fn numbers() -> Vec<Case<SeveralCuts>> {
    vec![
        no("the edge at the count", 3, |c| c.0.edge = 3),
        no("the second new edge", 3, |c| c.0.edge = 4),
        no("the largest edge", 3, |c| c.0.edge = u32::MAX),
        no("the edge at twice the count", 3, |c| c.0.edge = 6),
        no("no edges and two cuts", 3, |c| c.0.lent.tables.edges = 0),
        no("a use of the first new edge", 3, |c| c.0.lent.uses[1] = 6),
    ]
}

/// Rows of cuts that are too few, or past the count.
fn counts() -> Vec<Case<SeveralCuts>> {
    vec![
        no("one float of the last cut too few", 1, |c| {
            c.0.cuts.truncate(7)
        }),
        no("one row for two cuts", 1, |c| c.0.cuts.truncate(4)),
        no("no float of the cuts", 1, |c| c.0.cuts.clear()),
        no("one cut too many", 1, |c| c.0.cut_count = 3),
        no("the largest cut count", 1, |c| c.0.cut_count = usize::MAX),
        no("a cut count whose rows wrap to none", 1, |c| {
            c.0.cut_count = 1 << 62;
        }),
        no("a cut count whose rows wrap to two", 1, |c| {
            c.0.cut_count = (1 << 62) + 2;
        }),
        unharmed("NaN behind the cuts", |c| {
            c.0.cuts.push(f64::NAN.to_bits());
        }),
        unharmed("a cut of NaN behind the count", |c| {
            c.0.cuts.extend([f64::NAN.to_bits(); CUT]);
        }),
        unharmed("a cut outside behind the count", |c| {
            c.0.cuts.extend([9.0f64.to_bits(); CUT]);
        }),
    ]
}

/// Changes a float of the cuts.
fn float(cell: usize, value: f64) -> impl Fn(&mut SeveralCuts) {
    move |c| c.0.cuts[cell] = value.to_bits()
}

/// Floats of the cuts that may not be handed in.
fn floats() -> Vec<Case<SeveralCuts>> {
    let (nan, infinite, above) = (f64::NAN, f64::INFINITY, f64::next_up(1.0e15));
    vec![
        no("NaN for t of the first cut", 4, float(0, nan)),
        no("NaN for x of the first cut", 4, float(1, -nan)),
        no("NaN for t of the last cut", 4, float(4, nan)),
        no("infinite y of the last cut", 4, float(6, -infinite)),
        no("z of the last cut just too large", 4, float(7, above)),
        no("x of the last cut just too small", 4, float(5, -above)),
        no("infinite t of the first cut", 4, float(0, infinite)),
        no("t of the last cut just too large", 4, float(4, above)),
    ]
}

/// Parameters outside the range of the edge.
fn ranges() -> Vec<Case<SeveralCuts>> {
    let (below, above) = (-5.0e-324, 1.0f64.next_up());
    vec![
        no("the first t just below t0", 5, float(0, below)),
        no("the first t just above t1", 5, float(0, above)),
        no("the last t just above t1", 5, float(4, above)),
        no("the last t just below t0", 5, float(4, below)),
        no("the last t in another range", 5, float(4, 2.0)),
        no("t below t0 of the seam", 5, |c| {
            c.0.edge = 1;
            c.0.cuts[0] = (-1.0f64).to_bits();
        }),
        no("the middle one of three outside", 5, |c| {
            let cuts = at(&[0.25, 1.5, 0.75]).concat();
            c.0.cuts = cuts.into_iter().map(f64::to_bits).collect();
            c.0.cut_count = 3;
        }),
    ]
}

/// Buffers that hold the input and are too short for the result.
fn room() -> Vec<Case<SeveralCuts>> {
    let names = [
        "no room for a vertex number of the cuts",
        "no room for a vertex float of the cuts",
        "no room for an edge number of the cuts",
        "no room for an edge float of the cuts",
        "no room for a use of the cuts",
    ];
    let short = |(buffer, name): (usize, &'static str)| {
        no(name, 6, |c| {
            let mut sizes = needed([5, 5, 8], 3);
            sizes[buffer] -= 1;
            c.0.lent.shorten(sizes);
        })
    };
    let mut cases: Vec<Case<SeveralCuts>> = names.into_iter().enumerate().map(short).collect();
    cases.push(no("room for the first cut alone", 6, |c| {
        c.0.lent.shorten(needed([4, 4, 6], 3))
    }));
    cases.push(no("no room but for the input", 6, |c| {
        c.0.lent.shorten(needed([3, 3, 4], 3))
    }));
    // What is written past the new length is gone on both sides.
    let mut exact = unharmed("just enough room for the cuts", |_| {});
    let sizes = needed(sample_after().counts(), 3);
    exact.input.0.lent.shorten(sizes);
    exact.expected.after.0.lent.shorten(sizes);
    cases.push(exact);
    cases
}

/// Two causes at once: the lower number wins, and 6 comes last.
fn lowest() -> Vec<Case<SeveralCuts>> {
    type Change = fn(&mut SeveralCuts);
    let both = |name, number, first: Change, second: Change| {
        no(name, number, |c| {
            first(c);
            second(c);
        })
    };
    let kind: Change = |c| vertex_number(2, 0, 2)(&mut c.0.lent);
    let front: Change = |c| edge_number(2, 0, 9)(&mut c.0.lent);
    let missing: Change = |c| c.0.edge = 3;
    let nan: Change = |c| c.0.cuts[7] = f64::NAN.to_bits();
    let outside: Change = |c| c.0.cuts[4] = 1.5f64.to_bits();
    let falling: Change = |c| c.0.cuts.swap(0, 4);
    let many: Change = |c| {
        let row = c.0.cuts[4..].to_vec();
        (2..65).for_each(|_| c.0.cuts.extend(&row));
        c.0.cut_count = 65;
    };
    let few: Change = |c| c.0.cuts.truncate(6);
    let short: Change = |c| c.0.lent.shorten(needed([3, 3, 4], 3));
    vec![
        both("a kind and the edge", 1, missing, kind),
        both("a kind and NaN in a cut", 1, nan, kind),
        both("a kind and falling cuts", 1, falling, kind),
        both("a kind and too many cuts", 1, many, kind),
        both("few floats and a front", 1, front, few),
        both("few floats and falling cuts", 1, falling, few),
        both("a front and the edge", 2, missing, front),
        both("a front and NaN in a cut", 2, nan, front),
        both("a front and too many cuts", 2, many, front),
        both("the edge and NaN in a cut", 3, nan, missing),
        both("the edge and a cut outside", 3, outside, missing),
        both("the edge and falling cuts", 3, falling, missing),
        both("the edge and too many cuts", 3, many, missing),
        both("NaN in a cut and one outside", 4, outside, nan),
        both("NaN in a cut and falling cuts", 4, falling, nan),
        both("NaN in most of too many cuts", 4, nan, many),
        both("a cut outside and falling cuts", 5, falling, outside),
        both("too many cuts, most outside", 5, outside, many),
        both("too many cuts, which do not rise", 16, falling, many),
        both("too many cuts and no room", 16, many, short),
        both("falling cuts and no room", 17, falling, short),
        both("the edge and no room", 3, short, missing),
        both("NaN in a cut and no room", 4, short, nan),
        both("a cut outside and no room", 5, short, outside),
    ]
}

/// What the closed-edge pass refuses under 1 to 5, two cuts are refused as
/// well.
fn of_the_pass() -> Vec<Case<SeveralCuts>> {
    let refused = |case: &Case<SplitClosed>| (1..=5).contains(&case.expected.answer);
    let with_cuts = |case: Case<SplitClosed>| {
        let input = SeveralCuts::over(case.input.lent, 0, &at(&[0.25, 0.5]));
        Case::unchanged(case.name, input, case.expected.answer)
    };
    let cases = limits::of_shells().into_iter();
    cases.filter(refused).map(with_cuts).collect()
}
