//! Named ranges at the corners and bounds of the specification, each with its
//! answer written out by hand.

use super::parameter;
use crate::compare::Case;
use crate::port::CutParameter;

/// All cases.
pub fn cases() -> Vec<Case<CutParameter>> {
    [results(), least(), unknown(), refusals(), order()]
        .into_iter()
        .flatten()
        .collect()
}

/// The names of a range with each k from 1 to 7.
macro_rules! each_k {
    ($range:literal) => {
        [
            concat!($range, ", k 1"),
            concat!($range, ", k 2"),
            concat!($range, ", k 3"),
            concat!($range, ", k 4"),
            concat!($range, ", k 5"),
            concat!($range, ", k 6"),
            concat!($range, ", k 7"),
        ]
    };
}

/// A range with each k from 1 to 7, and the parameters.
fn each(names: [&'static str; 7], [t0, t1]: [f64; 2], ts: [f64; 7]) -> Vec<Case<CutParameter>> {
    let case = |(k, (name, t)): (u32, (&'static str, f64))| {
        Case::told(name, parameter(t0, t1, k), &[t.to_bits()])
    };
    (1..=7).zip(names.into_iter().zip(ts)).map(case).collect()
}

/// Parameters of each k.
fn results() -> Vec<Case<CutParameter>> {
    let (whole, tenth) = (1.0e15, 0.1);
    let eighths = [1.0, 2.0, 3.0, 4.0, 5.0, 6.0, 7.0];
    [
        each(each_k!("0 to 8"), [0.0, 8.0], eighths),
        each(
            each_k!("negative zero to itself"),
            [-0.0, -0.0],
            [0.0, 0.0, 0.0, -0.0, 0.0, 0.0, 0.0],
        ),
        each(each_k!("negative zero to zero"), [-0.0, 0.0], [0.0; 7]),
        each(each_k!("zero to negative zero"), [0.0, -0.0], [0.0; 7]),
        each(each_k!("zero to itself"), [0.0, 0.0], [0.0; 7]),
        each(
            each_k!("the greatest sizes"),
            [-whole, whole],
            [-7.5e14, -5.0e14, -2.5e14, 0.0, 2.5e14, 5.0e14, 7.5e14],
        ),
        each(each_k!("the greatest size"), [whole; 2], [whole; 7]),
        each(each_k!("the least size"), [-whole; 2], [-whole; 7]),
        each(each_k!("a tenth"), [tenth; 2], [tenth; 7]),
        // The length is rounded to 2.0e15.
        each(
            each_k!("the greatest size and a step"),
            [-whole, whole - 0.125],
            [-7.5e14, -5.0e14, -2.5e14, -0.0625, 2.5e14, 5.0e14, 7.5e14],
        ),
    ]
    .into_iter()
    .flatten()
    .collect()
}

/// Ranges near the least float, by counts of it.
fn least() -> Vec<Case<CutParameter>> {
    let each_of = |names, range: [u64; 2], ts: [u64; 7]| {
        each(names, range.map(f64::from_bits), ts.map(f64::from_bits))
    };
    // So many least floats, times 3, need 54 bits; an eighth of that is below
    // the least normal float and is rounded once more.
    let length = 3_002_399_751_580_343;
    let product_first = Case::told(
        "the product before the eighth",
        parameter(0.0, f64::from_bits(length), 3),
        &[1_125_899_906_842_628],
    );
    [
        each_of(
            each_k!("the least float to its double"),
            [1, 2],
            [1, 1, 1, 2, 2, 2, 2],
        ),
        each_of(
            each_k!("zero to the least float"),
            [0, 1],
            [0, 0, 0, 0, 1, 1, 1],
        ),
        each_of(
            each_k!("the least float to three of it"),
            [1, 3],
            [1, 1, 2, 2, 2, 3, 3],
        ),
        each_of(each_k!("the least float to itself"), [1, 1], [1; 7]),
        vec![product_first],
    ]
    .into_iter()
    .flatten()
    .collect()
}

/// Values of k that may not be handed in.
fn unknown() -> Vec<Case<CutParameter>> {
    let no = |name, k: u32| Case::unchanged(name, parameter(0.0, 8.0, k), 18);
    vec![
        no("k 0", 0),
        no("k 8", 8),
        no("k 9", 9),
        no("k 16", 16),
        no("k 256", 256),
        no("k 257", 257),
        no("k 260", 260),
        no("k 2^31 + 4", (1 << 31) + 4),
        no("the largest k", u32::MAX),
    ]
}

/// Ranges that may not be handed in.
fn refusals() -> Vec<Case<CutParameter>> {
    let no = |name, number, t0: f64, t1: f64, k: u32| {
        Case::unchanged(name, parameter(t0, t1, k), number)
    };
    let (nan, above) = (f64::NAN, 1.0e15_f64.next_up());
    vec![
        no("NaN for t0", 4, nan, 8.0, 1),
        no("NaN for t1", 4, 0.0, -nan, 1),
        no("NaN for both, k 4", 4, nan, nan, 4),
        no("infinite t1", 4, 0.0, f64::INFINITY, 1),
        no("infinite t0", 4, f64::NEG_INFINITY, 8.0, 1),
        no("t1 above the size", 4, 0.0, above, 7),
        no("t0 below the size", 4, -above, 8.0, 4),
        no("t0 above t1", 5, 8.0, 0.0, 1),
        no("t0 above t1, k 4", 5, 8.0, 0.0, 4),
        no("t0 a step above t1", 5, 1.0_f64.next_up(), 1.0, 7),
        no("t0 above t1 by the least float", 5, 5.0e-324, 0.0, 3),
        no("t0 above t1, both at their size", 5, 1.0e15, -1.0e15, 2),
    ]
}

/// Two causes at once: the lower number wins.
fn order() -> Vec<Case<CutParameter>> {
    let no = |name, number, t0: f64, t1: f64, k: u32| {
        Case::unchanged(name, parameter(t0, t1, k), number)
    };
    let (nan, above) = (f64::NAN, 1.0e15_f64.next_up());
    vec![
        no("4 before 18", 4, nan, 8.0, 0),
        no("4 before 18, NaN for t1, k 8", 4, 0.0, nan, 8),
        no("4 before 18, above the size", 4, 0.0, above, u32::MAX),
        no("5 before 18", 5, 8.0, 0.0, 0),
        no("5 before 18, k 8", 5, 8.0, 0.0, 8),
        no("5 before 18, the largest k", 5, 8.0, 0.0, u32::MAX),
        no("4 before 5", 4, above, 0.0, 1),
        no("4 before 5 and 18", 4, above, 0.0, 0),
    ]
}
