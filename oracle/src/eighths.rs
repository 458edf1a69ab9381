//! Where a curve is cut, written down from A.3 of document 02 and from nothing
//! else: the truth for every k but 4, which is the Rust's.

/// The parameter k eighths of the way from t0 to t1, one rounding a step.
pub fn parameter(t0: f64, t1: f64, k: u32) -> f64 {
    if k == 4 {
        let sum = t0 + t1;
        return sum / 2.0;
    }
    let length = t1 - t0;
    let product = length * f64::from(k);
    let share = product / 8.0;
    let t = t0 + share;
    if t < t0 {
        return t0;
    }
    if t > t1 {
        return t1;
    }
    t
}

#[cfg(test)]
mod tests {
    use super::parameter;
    use crate::calls::cut_parameter::range;
    use crate::random::Random;

    /// The parameters for k from 1 to 7, as bits.
    fn bits(t0: f64, t1: f64) -> [u64; 7] {
        [1, 2, 3, 4, 5, 6, 7].map(|k| parameter(t0, t1, k).to_bits())
    }

    #[test]
    fn whole_eighths() {
        let eighths = [1.0, 2.0, 3.0, 4.0, 5.0, 6.0, 7.0].map(f64::to_bits);
        assert_eq!(bits(0.0, 8.0), eighths);
    }

    #[test]
    fn negative_zero_is_kept_in_the_middle_alone() {
        let (zero, negative) = (0.0f64.to_bits(), (-0.0f64).to_bits());
        let wanted = [zero, zero, zero, negative, zero, zero, zero];
        assert_eq!(bits(-0.0, -0.0), wanted);
    }

    /// Over ranges that are accepted the sum is never beyond an end: to keep it
    /// within changes nothing.
    #[test]
    fn the_sum_never_leaves_its_range() {
        let random = &mut Random::new(1, 11, 0);
        for _ in 0..100_000 {
            let (t0, t1) = range(random);
            for k in 1..=7 {
                let sum = t0 + (t1 - t0) * f64::from(k) / 8.0;
                assert!(t0 <= sum && sum <= t1, "{t0:?} {t1:?} {k}");
            }
        }
    }

    /// The bits of these are their counts of the least float.
    #[test]
    fn between_neighbours() {
        assert_eq!(bits(5.0e-324, 1.0e-323), [1, 1, 1, 2, 2, 2, 2]);
    }
}
