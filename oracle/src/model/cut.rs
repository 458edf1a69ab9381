//! The refusals of the cut of an edge, and what its result counts: with any
//! count of cuts, since 1 to 5 are the same where several are made.

use super::{edge_float, end_unknown, float_unfit, kind_or_preparation_unknown, range_unfit};
use super::{lowest, tables_passed, unfit, use_count, use_unknown, wires_passed};
use crate::shell::Lent;

/// Floats in a row of the cuts: t, x, y, z.
pub const CUT: usize = 4;

/// The cuts, how many of them count, and the edge that they cut.
pub struct Cuts<'a> {
    pub cuts: &'a [u64],
    pub count: usize,
    pub edge: u32,
}

/// Why a cut is refused, save for its result: the lowest of 1 to 5, else 14.
pub fn cut_refused(lent: &Lent, cuts: &Cuts) -> Option<i32> {
    unsound(lent, cuts).or((cuts.count >= 2).then_some(14))
}

/// The lowest of 1 to 5, over all that is lent.
pub fn unsound(lent: &Lent, cuts: &Cuts) -> Option<i32> {
    let tables = &lent.tables;
    let uses = || &lent.uses[..use_count(lent) as usize];
    lowest(&[
        (1, &|| tables_passed(tables)),
        (1, &|| wires_passed(lent)),
        (1, &|| cuts_passed(cuts)),
        (1, &|| kind_or_preparation_unknown(tables)),
        (2, &|| end_unknown(tables)),
        (3, &|| use_unknown(uses(), tables.edges)),
        (3, &|| cuts.edge as usize >= tables.edges),
        (4, &|| float_unfit(tables)),
        (4, &|| cut_unfit(cuts)),
        (5, &|| range_unfit(tables)),
        (5, &|| cut_outside(lent, cuts)),
    ])
}

/// 1: there are fewer rows than cuts.
fn cuts_passed(cuts: &Cuts) -> bool {
    cuts.count as u128 * CUT as u128 > cuts.cuts.len() as u128
}

/// 4: a float of a cut is not a number or above 1.0e15 in size.
fn cut_unfit(cuts: &Cuts) -> bool {
    let cells = &cuts.cuts[..cuts.count * CUT];
    cells.iter().any(|&bits| unfit(f64::from_bits(bits)))
}

/// 5: a cut's parameter is outside the range of the edge's curve.
fn cut_outside(lent: &Lent, cuts: &Cuts) -> bool {
    let [t0, t1] = [4, 5].map(|cell| edge_float(&lent.tables, cuts.edge as usize, cell));
    (0..cuts.count).any(|row| {
        let t = f64::from_bits(cuts.cuts[row * CUT]);
        t < t0 || t > t1
    })
}

/// What the result of a call that passes the causes above counts: for each cut
/// one vertex and one edge more, and one use more for each use of the edge.
pub fn cut_counts(lent: &Lent, cuts: &Cuts) -> [usize; 3] {
    let uses = &lent.uses[..use_count(lent) as usize];
    let used = uses.iter().filter(|&&number| number / 2 == cuts.edge);
    [
        lent.tables.vertices + cuts.count,
        lent.tables.edges + cuts.count,
        uses.len() + cuts.count * used.count(),
    ]
}
