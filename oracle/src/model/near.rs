//! The refusals of unwrapping, of the nearest copy, of the kind of a wire and
//! of the sorting of wires.

use super::{lowest, unfit, MOST_WIRES};
use crate::port::{NearestCopy, Period, Unwrap, WireEnds};

/// Floats in a row of a wire's ends: first u, v, last u, v, area.
pub const ENDS: usize = 5;

/// Why `get_mindiff` is refused.
pub fn unwrap_refused(call: &Unwrap) -> Option<i32> {
    numbers_refused(&[call.u, call.u0], &[call.period])
}

/// Why `nearest_copy` is refused.
pub fn copy_refused(call: &NearestCopy) -> Option<i32> {
    numbers_refused(&[call.p, call.q].concat(), &call.periods)
}

/// Why floats and periods are refused. The size of an absent period is no
/// input.
fn numbers_refused(floats: &[u64], periods: &[Period]) -> Option<i32> {
    let sizes = || {
        let there = periods.iter().filter(|period| period.kind == 1);
        there.map(|period| f64::from_bits(period.size))
    };
    let floats = || floats.iter().map(|&bits| f64::from_bits(bits));
    lowest(&[
        (1, &|| periods.iter().any(|period| period.kind > 1)),
        (4, &|| floats().any(unfit)),
        (4, &|| sizes().any(unfit)),
        (5, &|| sizes().any(|size| size <= 0.0)),
    ])
}

/// Why `boundary_type` is refused.
pub fn ends_refused(call: &WireEnds) -> Option<i32> {
    let [u0, v0] = call.first;
    let [u1, v1] = call.last;
    row_unfit(&[u0, v0, u1, v1, call.area]).then_some(4)
}

/// 4: a float of a row is not a number or above 1.0e15 in size.
fn row_unfit(row: &[u64]) -> bool {
    row.iter().any(|&bits| unfit(f64::from_bits(bits)))
}

/// Why `sort_wires` is refused, before its wires are looked at.
pub fn sort_refused(ends: &[u64], wires: usize) -> Option<i32> {
    lowest(&[
        (1, &|| wires > MOST_WIRES),
        (1, &|| wires * ENDS > ends.len()),
        (4, &|| row_unfit(&ends[..wires * ENDS])),
    ])
}

/// 6: the groups do not fit into what was lent for them.
pub fn sort_cause_6(open: &[u32], closed: &[u32], closed_wires: usize) -> bool {
    open.len() < 2 || closed.len() < closed_wires
}
