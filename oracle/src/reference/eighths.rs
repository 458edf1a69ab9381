//! The plain parameter of a cut, k eighths of the way along a range.

use super::tables::sized;
use crate::port::CutParameter;

/// The steps.
#[derive(Clone, Copy)]
pub struct Steps {
    /// Whether k may be handed in.
    pub is_known: fn(u32) -> bool,
    /// All causes that a range meets.
    pub range_causes: fn([f64; 2]) -> Vec<i32>,
    /// The cause that wins.
    pub choose: fn(&[i32]) -> Option<i32>,
    /// Whether k stands for the middle of document 01.
    pub is_middle: fn(u32) -> bool,
    /// The middle.
    pub middle: fn(f64, f64) -> f64,
    /// So many eighths of the way from t0 to t1.
    pub eighths: fn(f64, f64, f64) -> f64,
    /// A parameter that is kept within a range.
    pub within: fn(f64, [f64; 2]) -> f64,
}

impl Default for Steps {
    fn default() -> Self {
        Steps {
            is_known: |k| 0 < k && k < 8,
            range_causes,
            choose: |causes| causes.iter().min().copied(),
            is_middle: |k| k == 4,
            middle: |t0, t1| (t0 + t1) / 2.0,
            eighths: |t0, t1, k| t0 + (t1 - t0) * k / 8.0,
            within: |t, [t0, t1]| match t {
                t if t < t0 => t0,
                t if t > t1 => t1,
                t => t,
            },
        }
    }
}

/// All causes that a range meets, in any order.
pub fn range_causes([t0, t1]: [f64; 2]) -> Vec<i32> {
    let mut found = Vec::new();
    found.extend((t0 > t1).then_some(5));
    found.extend((!sized(t0) || !sized(t1)).then_some(4));
    found
}

impl Steps {
    /// Where a curve of this range is cut.
    pub fn parameter(&self, [t0, t1]: [f64; 2], k: u32) -> f64 {
        match (self.is_middle)(k) {
            true => (self.middle)(t0, t1),
            false => (self.within)((self.eighths)(t0, t1, k.into()), [t0, t1]),
        }
    }

    /// Tells where a curve would be cut.
    pub fn cut_parameter(&self, call: CutParameter, out: &mut [u64]) -> i32 {
        let range = [call.t0, call.t1].map(f64::from_bits);
        let mut causes = (self.range_causes)(range);
        causes.extend((!(self.is_known)(call.k)).then_some(18));
        if let Some(number) = (self.choose)(&causes) {
            return number;
        }
        out[0] = self.parameter(range, call.k).to_bits();
        0
    }
}
