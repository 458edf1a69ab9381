//! The parameter of a cut, k eighths of the way along a range.

mod limits;

use super::numbers::{any_bits, UNFIT};
use super::Families;
use crate::cells::{Cells, Kind, Slice};
use crate::compare::{Case, Input, Lending};
use crate::describe;
use crate::inputs::{self, float};
use crate::port::{CutParameter, Port};
use crate::random::Random;

impl Input for CutParameter {
    const NAME: &'static str = "cut_parameter";
    /// No call of it is stored.
    const NUMBER: u64 = 11;
    const ANSWERS: &'static [i32] = &[0, 4, 5, 18];
    const SCALARS: usize = 3;
    const SLICES: &'static [Lending] = &[];
    const OUT: (Kind, usize) = (Kind::Float, 1);

    fn scalars(&self) -> Vec<u64> {
        vec![self.t0, self.t1, self.k.into()]
    }

    fn slices(&self) -> Vec<Cells> {
        Vec::new()
    }

    fn put_together(scalars: &[u64], _slices: Vec<Cells>) -> Result<Self, String> {
        Ok(CutParameter {
            t0: scalars[0],
            t1: scalars[1],
            k: u32::try_from(scalars[2]).map_err(|_| "k is too large")?,
        })
    }

    fn ask(&self, port: &dyn Port, _slices: Vec<Slice<'_>>, out: Slice<'_>) -> i32 {
        port.cut_parameter(*self, out.floats())
    }

    fn describe(&self) -> String {
        let text = describe::floats(&["t0", "t1"], &[self.t0, self.t1]);
        format!("k {}, {text}\n", self.k)
    }

    /// The parameter never leaves its range.
    fn breach(&self, answer: i32, out: &[u64], _after: &[Cells]) -> Option<&'static str> {
        let [t0, t1, t] = [self.t0, self.t1, out[0]].map(f64::from_bits);
        let within = t0 <= t && t <= t1;
        (answer == 0 && !within).then_some("the parameter leaves its range")
    }
}

/// An input.
fn parameter(t0: f64, t1: f64, k: u32) -> CutParameter {
    CutParameter {
        t0: t0.to_bits(),
        t1: t1.to_bits(),
        k,
    }
}

/// Values of k that may not be handed in, some of them with a low byte that
/// may.
const UNKNOWN: [u32; 12] = [
    0,
    8,
    9,
    15,
    16,
    256,
    257,
    260,
    263,
    (1 << 16) + 4,
    (1 << 31) + 1,
    u32::MAX,
];

/// k, often 4 and seldom one that may not be handed in.
pub fn k(random: &mut Random) -> u32 {
    match random.below(16) {
        0..4 => 4,
        15 => random.pick(&UNKNOWN),
        _ => 1 + random.below(7) as u32,
    }
}

/// k, a few times in sixteen one that may not be handed in.
pub fn any_k(random: &mut Random) -> u32 {
    match random.below(8) {
        0 => random.pick(&UNKNOWN),
        1 => random.word() as u32 >> random.below(32),
        _ => k(random),
    }
}

/// A range in which eighths are hard to tell apart.
pub fn range(random: &mut Random) -> (f64, f64) {
    let (a, b) = match random.below(10) {
        0 => inputs::range(random),
        1 => near(random),
        2 => (least(random), least(random)),
        3 => (subnormal(random), subnormal(random)),
        4 => (low(random), low(random)),
        5 => (random.pick(&ENDS), random.pick(&ENDS)),
        6 => (float(random), low(random)),
        7 => (share(random), share(random)),
        8 => alike(random),
        _ => (sized(random), sized(random)),
    };
    match a > b {
        true => (b, a),
        false => (a, b),
    }
}

/// Ends of ranges at which rules change.
const ENDS: [f64; 12] = [
    0.0,
    -0.0,
    5.0e-324,
    -5.0e-324,
    f64::MIN_POSITIVE,
    -f64::MIN_POSITIVE,
    1.0,
    -1.0,
    1.0e15,
    -1.0e15,
    999_999_999_999_999.9,
    -999_999_999_999_999.9,
];

/// Any bits of a float that may be handed in.
fn sized(random: &mut Random) -> f64 {
    loop {
        let any = f64::from_bits(random.word());
        if any.abs() <= 1.0e15 {
            return any;
        }
    }
}

/// A float with either sign.
fn signed(random: &mut Random, bits: u64) -> f64 {
    f64::from_bits(bits | random.word() << 63)
}

/// A few times the least float.
fn least(random: &mut Random) -> f64 {
    let bits = random.below(40) as u64;
    signed(random, bits)
}

/// A float below the least normal one.
fn subnormal(random: &mut Random) -> f64 {
    let bits = random.word() >> (12 + random.below(52));
    signed(random, bits)
}

/// A float with one of the least exponents: eighths of such lengths are rounded
/// below the least normal float.
fn low(random: &mut Random) -> f64 {
    let bits = (random.below(6) as u64) << 52 | random.word() >> 12;
    signed(random, bits)
}

/// Some sixteenths.
fn share(random: &mut Random) -> f64 {
    (random.below(4001) as f64 - 2000.0) / 16.0
}

/// A float and one that is at most 64 steps above it.
fn near(random: &mut Random) -> (f64, f64) {
    let a = match random.below(4) {
        0 => sized(random),
        1 => float(random),
        2 => share(random),
        _ => low(random),
    };
    let many = 1 + random.below(64);
    let steps = random.pick(&[1, 2, 3, 4, 5, 7, 8, 9, many]);
    let b = (0..steps).fold(a, |b, _| b.next_up());
    (a, b.min(1.0e15))
}

/// Two floats whose exponents are at most two apart.
fn alike(random: &mut Random) -> (f64, f64) {
    let exponent = 4 + random.below(1065) as u64;
    let mut any = || {
        let exponent = exponent + random.below(3) as u64;
        let bits = exponent << 52 | random.word() >> 12;
        signed(random, bits)
    };
    (any(), any())
}

impl Families for CutParameter {
    const TIMES: usize = 140;

    /// Each range is gone through with every k.
    const ROW: usize = 7;

    /// Each k from 1 to 7 in turn; another k with other upper bits.
    fn at(self, place: usize) -> Self {
        let k = match self.k {
            1..=7 => 1 + place as u32,
            other => other.wrapping_add((place as u32) << 28),
        };
        CutParameter { k, ..self }
    }

    fn limits() -> Vec<Case<Self>> {
        limits::cases()
    }

    fn small(visit: &mut dyn FnMut(&Self) -> bool) {
        let floats = || ENDS.iter().chain(&UNFIT[..5]).chain(&MORE);
        let ks = || (0..=8).chain(UNKNOWN);
        let pairs = floats().flat_map(|&t0| floats().map(move |&t1| (t0, t1)));
        let mut all = pairs.flat_map(|(t0, t1)| ks().map(move |k| parameter(t0, t1, k)));
        all.all(|input| visit(&input));
    }

    fn random(random: &mut Random) -> Self {
        let (t0, t1) = range(random);
        parameter(t0, t1, 1)
    }

    fn damaged(random: &mut Random) -> Self {
        let (t0, t1) = range(random);
        let mut input = parameter(t0, t1, 1);
        for _ in 0..1 + random.below(2) {
            match random.below(5) {
                0 => input.t0 = any_bits(random),
                1 => input.t1 = any_bits(random),
                2 => (input.t0, input.t1) = (input.t1, input.t0),
                _ => input.k = any_k(random),
            }
        }
        input
    }

    fn noise(random: &mut Random) -> Self {
        CutParameter {
            t0: any_bits(random),
            t1: any_bits(random),
            k: any_k(random),
        }
    }

    #[cfg(rust_at_hand)]
    fn expected(&self) -> crate::compare::Expected<Self> {
        use crate::compare::Expected;
        use crate::{eighths, healing, model};
        if let Some(number) = model::eighths::parameter_refused(self) {
            return Expected::unchanged(self, number);
        }
        let [t0, t1] = [self.t0, self.t1].map(f64::from_bits);
        let t = match self.k {
            4 => healing::middle(t0, t1),
            k => eighths::parameter(t0, t1, k),
        };
        Expected::told(self, &[t.to_bits()])
    }
}

/// Further ends of ranges that are gone through in full.
const MORE: [f64; 14] = [
    1.0e-323,
    1.5e-323,
    2.0e-323,
    2.5e-323,
    -1.0e-323,
    2.0 * f64::MIN_POSITIVE,
    0.1,
    0.3,
    0.7,
    -0.3,
    8.0,
    -8.0,
    1.0 + f64::EPSILON,
    std::f64::consts::TAU,
];

#[cfg(test)]
mod tests {
    use super::{parameter, range, CutParameter};
    use crate::calls::Families;
    use crate::random::Random;
    use std::collections::BTreeSet;

    /// The values of k in the row of an input.
    fn row(k: u32) -> BTreeSet<u32> {
        let input = parameter(0.0, 8.0, k);
        let places = 0..CutParameter::ROW;
        places.map(|place| input.at(place).k).collect()
    }

    #[test]
    fn a_row_has_each_k_or_no_k_twice() {
        let each = (1..=7).collect();
        assert!((1..=7).all(|k| row(k) == each));
        assert!([0, 8, 260, u32::MAX].iter().all(|&k| row(k).len() == 7));
    }

    /// Ranges without a length, a step apart, below the least normal float, from
    /// one size to the other, and some that eighths divide into ties.
    #[test]
    fn ranges_of_every_kind_are_made() {
        let mut random = Random::new(1, 11, 1);
        let ranges: Vec<_> = (0..20_000).map(|_| range(&mut random)).collect();
        assert!(ranges.iter().all(|(t0, t1)| t0 <= t1));
        assert!(ranges
            .iter()
            .all(|(t0, t1)| t0.max(-t0).max(t1.abs()) <= 1.0e15));
        let kinds: [fn(f64, f64) -> bool; 6] = [
            |t0, t1| t0 == t1,
            |t0, t1| t0.next_up() == t1,
            |t0, t1| t0 != t1 && t0.abs().max(t1.abs()) < f64::MIN_POSITIVE,
            |t0, t1| t0 == -1.0e15 && t1 == 1.0e15,
            |t0, t1| (t0.to_bits(), t1) == ((-0.0f64).to_bits(), 0.0),
            |t0, t1| t0 + (t1 - t0) * (3.0 / 8.0) != t0 + (t1 - t0) * 3.0 / 8.0,
        ];
        for (place, kind) in kinds.iter().enumerate() {
            let found = ranges.iter().filter(|(t0, t1)| kind(*t0, *t1)).count();
            assert!(found > 10, "kind {place} was made {found} times");
        }
    }
}
