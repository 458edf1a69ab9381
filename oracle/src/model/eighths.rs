//! The refusals of k, in the closed-edge pass and in the call that tells where
//! a curve would be cut.

use super::{lowest, refused, unfit};
use crate::port::CutParameter;
use crate::shell::Lent;

/// Why the closed-edge pass is refused, save for its result: the lowest of 1 to
/// 5, else 18, whether an edge is closed or not.
pub fn pass_refused(lent: &Lent, k: u32) -> Option<i32> {
    refused(lent).or(unknown(k).then_some(18))
}

/// Why `cut_parameter` is refused.
pub fn parameter_refused(call: &CutParameter) -> Option<i32> {
    let [t0, t1] = [call.t0, call.t1].map(f64::from_bits);
    lowest(&[
        (4, &|| unfit(t0) || unfit(t1)),
        (5, &|| t0 > t1),
        (18, &|| unknown(call.k)),
    ])
}

/// 18: k is outside 1 to 7.
fn unknown(k: u32) -> bool {
    !matches!(k, 1..=7)
}
