//! Wrong parameters of a cut, for the closed-edge pass and for the call that
//! tells them.

use super::{behind, step, Mutant};
use oracle::port::CutParameter;
use oracle::reference::eighths::range_causes;

/// All wrong ports of `cut_parameter`.
pub fn lists_of_parameter() -> Vec<Vec<Mutant>> {
    vec![
        wrong_middles(),
        wrong_eighths(),
        wrong_keeping(),
        wrong_bounds(),
        wrong_ks(),
        wrong_order(),
        wrong_ranges(),
        wrong_told(),
    ]
}

/// Middles that are wrong, some of them in the last bit.
pub fn wrong_middles() -> Vec<Mutant> {
    vec![
        step("t0 for the middle", |r| r.eighths.middle = |t0, _| t0),
        step("t1 for the middle", |r| r.eighths.middle = |_, t1| t1),
        step("half the length added", |r| {
            r.eighths.middle = |t0, t1| t0 + (t1 - t0) / 2.0
        }),
        step("halves added", |r| {
            r.eighths.middle = |t0, t1| t0 / 2.0 + t1 / 2.0
        }),
        step("negative zero lost", |r| {
            r.eighths.middle = |t0, t1| (t0 + t1) / 2.0 + 0.0
        }),
        step("k 4 by the formula of the others", |r| {
            r.eighths.is_middle = |_| false
        }),
    ]
}

/// Eighths that are wrong, some of them in the last bit.
pub fn wrong_eighths() -> Vec<Mutant> {
    vec![
        step("the eighth before the product", |r| {
            r.eighths.eighths = |t0, t1, k| t0 + (t1 - t0) * (k / 8.0)
        }),
        step("the length's eighth before the product", |r| {
            r.eighths.eighths = |t0, t1, k| t0 + (t1 - t0) / 8.0 * k
        }),
        step("product and sum with one rounding", |r| {
            r.eighths.eighths = |t0, t1, k| (t1 - t0).mul_add(k / 8.0, t0)
        }),
        step("eighth and sum with one rounding", |r| {
            r.eighths.eighths = |t0, t1, k| ((t1 - t0) * k).mul_add(0.125, t0)
        }),
        step("both ends weighed", |r| {
            r.eighths.eighths = |t0, t1, k| (t0 * (8.0 - k) + t1 * k) / 8.0
        }),
        step("eighths of 32 bits", |r| {
            r.eighths.eighths = |t0, t1, k| t0 + f64::from(((t1 - t0) * k / 8.0) as f32)
        }),
        step("from t1 on", |r| {
            r.eighths.eighths = |t0, t1, k| t1 + (t0 - t1) * k / 8.0
        }),
        step("from t1 back", |r| {
            r.eighths.eighths = |t0, t1, k| t1 - (t1 - t0) * (8.0 - k) / 8.0
        }),
        step("8 - k for k", |r| {
            r.eighths.eighths = |t0, t1, k| t0 + (t1 - t0) * (8.0 - k) / 8.0
        }),
        step("sixteenths", |r| {
            r.eighths.eighths = |t0, t1, k| t0 + (t1 - t0) * k / 16.0
        }),
        step("the middle for every k", |r| r.eighths.is_middle = |_| true),
        step("the middle for k 3 and 5 too", |r| {
            r.eighths.is_middle = |k| matches!(k, 3..=5)
        }),
        step("eighths without t0", |r| {
            r.eighths.eighths = |t0, t1, k| (t1 - t0) * k / 8.0
        }),
    ]
}

/// Parameters that are kept within their range in a wrong way: most of them turn
/// the sign of a zero.
pub fn wrong_keeping() -> Vec<Mutant> {
    vec![
        step("kept between exchanged ends", |r| {
            r.eighths.within = |t, [t0, t1]| match t {
                t if t < t1 => t1,
                t if t > t0 => t0,
                t => t,
            }
        }),
        step("what equals t0 becomes t0", |r| {
            r.eighths.within = |t, [t0, t1]| match t {
                t if t <= t0 => t0,
                t if t > t1 => t1,
                t => t,
            }
        }),
        step("what equals t1 becomes t1", |r| {
            r.eighths.within = |t, [t0, t1]| match t {
                t if t < t0 => t0,
                t if t >= t1 => t1,
                t => t,
            }
        }),
        step("negative zero below zero", |r| {
            r.eighths.within = |t, [t0, t1]| {
                let least = if t.total_cmp(&t0).is_lt() { t0 } else { t };
                if least.total_cmp(&t1).is_gt() {
                    t1
                } else {
                    least
                }
            }
        }),
        step("negative zero kept for every k", |r| {
            r.eighths.eighths = |t0, t1, k| match t0 == t1 {
                true => t0,
                false => t0 + (t1 - t0) * k / 8.0,
            }
        }),
    ]
}

/// Parameters that leave their range. None is here that is right but for not
/// being kept within: over ranges that are accepted the sum never leaves them,
/// so that no input tells such a port from the right one.
pub fn wrong_bounds() -> Vec<Mutant> {
    vec![
        step("quarters, not kept within", |r| {
            r.eighths.eighths = |t0, t1, k| t0 + (t1 - t0) * k / 4.0;
            r.eighths.within = |t, _| t;
        }),
        step("eighths without t0, not kept within", |r| {
            r.eighths.eighths = |t0, t1, k| (t1 - t0) * k / 8.0;
            r.eighths.within = |t, _| t;
        }),
        step("every k passes, not kept within", |r| {
            r.eighths.is_known = |_| true;
            r.eighths.within = |t, _| t;
        }),
    ]
}

/// Values of k that pass or are refused wrongly.
pub fn wrong_ks() -> Vec<Mutant> {
    vec![
        step("k 0 passes", |r| r.eighths.is_known = |k| k < 8),
        step("k 8 passes", |r| {
            r.eighths.is_known = |k| matches!(k, 1..=8)
        }),
        step("every k above 0 passes", |r| r.eighths.is_known = |k| k > 0),
        step("every k passes", |r| r.eighths.is_known = |_| true),
        step("the low byte of k alone looked at", |r| {
            r.eighths.is_known = |k| matches!(k & 255, 1..=7)
        }),
        step("the sign of k not looked at", |r| {
            r.eighths.is_known = |k| matches!(k << 1 >> 1, 1..=7)
        }),
        step("k 1 refused", |r| {
            r.eighths.is_known = |k| matches!(k, 2..=7)
        }),
        step("k 7 refused", |r| {
            r.eighths.is_known = |k| matches!(k, 1..=6)
        }),
        step("k 4 refused", |r| {
            r.eighths.is_known = |k| matches!(k, 1..=3 | 5..=7)
        }),
    ]
}

/// Refusals in a wrong order.
fn wrong_order() -> Vec<Mutant> {
    vec![
        step("18 before 5", |r| {
            r.eighths.choose = |causes| match causes.iter().min() {
                Some(5) if causes.contains(&18) => Some(18),
                least => least.copied(),
            }
        }),
        step("18 before 4", |r| {
            r.eighths.choose = |causes| match causes.iter().min() {
                Some(4) if causes.contains(&18) => Some(18),
                least => least.copied(),
            }
        }),
        step("the highest cause wins", |r| {
            r.eighths.choose = |causes| causes.iter().max().copied()
        }),
        step("5 before 4", |r| {
            r.eighths.choose = |causes| causes.first().copied()
        }),
    ]
}

/// Ranges that are looked at wrongly.
fn wrong_ranges() -> Vec<Mutant> {
    vec![
        step("NaN passes", |r| {
            r.eighths.range_causes = |range| {
                let number = |t: f64| if t.is_nan() { 0.0 } else { t };
                range_causes(range.map(number))
            }
        }),
        step("NaN earns 5", |r| {
            r.eighths.range_causes = |range| match range.iter().any(|t| t.is_nan()) {
                true => vec![5],
                false => range_causes(range),
            }
        }),
        step("t1 is not looked at", |r| {
            r.eighths.range_causes = |[t0, t1]| {
                let mut found = range_causes([t0, t0]);
                found.extend((t0 > t1).then_some(5));
                found
            }
        }),
        step("1.0e15 is too large", |r| {
            r.eighths.range_causes = |range| {
                let large = |t: f64| if t.abs() == 1.0e15 { 2.0 * t } else { t };
                range_causes(range.map(large))
            }
        }),
        step("never 5", |r| {
            r.eighths.range_causes = |[t0, t1]| range_causes([t0.min(t1), t0.max(t1)])
        }),
        step("equal ends earn 5", |r| {
            r.eighths.range_causes = |[t0, t1]| match t0 == t1 {
                true => vec![5],
                false => range_causes([t0, t1]),
            }
        }),
        step("zero to negative zero earns 5", |r| {
            r.eighths.range_causes = |[t0, t1]| match t0.total_cmp(&t1).is_gt() {
                true => [range_causes([t0, t1]), vec![5]].concat(),
                false => range_causes([t0, t1]),
            }
        }),
    ]
}

/// Places that are written wrongly, and calls that are not read.
fn wrong_told() -> Vec<Mutant> {
    let after = |name, spoil: fn(i32, CutParameter, &mut [u64]) -> i32| {
        behind(name, |behind| behind.parameter = spoil)
    };
    vec![
        after("the place is written on a refusal", |answer, call, out| {
            if answer != 0 {
                out[0] = call.t0;
            }
            answer
        }),
        after("the place is written on 18", |answer, call, out| {
            if answer == 18 {
                out[0] = call.t0;
            }
            answer
        }),
        after("always 1.0", |answer, _, out| {
            if answer == 0 {
                out[0] = 1.0f64.to_bits();
            }
            answer
        }),
        after("every call refused", |_, _, _| 18),
        after("every call done", |_, _, _| 0),
    ]
}
