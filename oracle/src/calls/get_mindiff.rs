//! Unwrapping: the candidate nearest to a number.

use super::numbers::{any_bits, any_kind, triple, CORNERS, PERIODS, UNFIT};
use super::Families;
use crate::cells::{Cells, Kind, Slice};
use crate::compare::{Case, Input, Lending};
use crate::describe;
use crate::port::{Period, Port, Unwrap};
use crate::random::Random;

impl Input for Unwrap {
    const NAME: &'static str = "get_mindiff";
    const NUMBER: u64 = 2;
    const ANSWERS: &'static [i32] = &[0, 1, 4, 5];
    const SCALARS: usize = 4;
    const SLICES: &'static [Lending] = &[];
    const OUT: (Kind, usize) = (Kind::Float, 1);

    fn scalars(&self) -> Vec<u64> {
        vec![self.u, self.u0, self.period.kind.into(), self.period.size]
    }

    fn slices(&self) -> Vec<Cells> {
        Vec::new()
    }

    fn put_together(scalars: &[u64], _slices: Vec<Cells>) -> Result<Self, String> {
        Ok(Unwrap {
            u: scalars[0],
            u0: scalars[1],
            period: Period::put_together(scalars[2], scalars[3])?,
        })
    }

    fn ask(&self, port: &dyn Port, _slices: Vec<Slice<'_>>, out: Slice<'_>) -> i32 {
        port.get_mindiff(*self, out.floats())
    }

    fn describe(&self) -> String {
        let floats = [self.u, self.u0, self.period.size];
        let text = describe::floats(&["u", "u0", "period"], &floats);
        format!("period kind {}, {text}\n", self.period.kind)
    }
}

impl Period {
    /// No period.
    pub const ABSENT: Period = Period { kind: 0, size: 0 };

    /// A period of this size.
    pub fn of(size: f64) -> Period {
        Period {
            kind: 1,
            size: size.to_bits(),
        }
    }

    /// The period, if it is there.
    pub fn there(self) -> Option<f64> {
        (self.kind == 1).then_some(f64::from_bits(self.size))
    }

    /// The period of a stored kind and size.
    pub fn put_together(kind: u64, size: u64) -> Result<Period, String> {
        let kind = u32::try_from(kind).map_err(|_| "a kind is too large")?;
        Ok(Period { kind, size })
    }

    /// A period that is absent in one of four cases.
    pub fn maybe(random: &mut Random, size: f64) -> Period {
        match random.once_in(4) {
            true => Period {
                kind: 0,
                size: any_bits(random),
            },
            false => Period::of(size),
        }
    }

    /// Spoils the kind or the size.
    pub fn spoil(&mut self, random: &mut Random) {
        match random.below(3) {
            0 => self.kind = random.pick(&[0, 1, 2, 3, u32::MAX]),
            1 => self.size = any_bits(random),
            _ => self.size = f64::to_bits(random.pick(&[0.0, -0.0, -1.0, 5.0e-324, -5.0e-324])),
        }
    }
}

/// An input.
fn unwrap(u: f64, u0: f64, period: Period) -> Unwrap {
    Unwrap {
        u: u.to_bits(),
        u0: u0.to_bits(),
        period,
    }
}

/// A period of another kind.
fn kind(kind: u32, size: f64) -> Period {
    Period {
        kind,
        size: size.to_bits(),
    }
}

/// Results that are written out.
fn results() -> Vec<Case<Unwrap>> {
    let gives = |name, u: f64, u0: f64, period: f64, result: f64| {
        let input = unwrap(u, u0, Period::of(period));
        Case::told(name, input, &[result.to_bits()])
    };
    let kept = |name, u: f64, u0: f64, size: f64| {
        Case::told(name, unwrap(u, u0, kind(0, size)), &[u.to_bits()])
    };
    let pi = std::f64::consts::PI;
    let whole = 1.0e15;
    vec![
        gives("K4", 0.5, 6.0, 4.0, 4.5),
        gives("K5", 0.0, 2.0, 4.0, 0.0),
        gives("a tie below", 0.0, -2.0, 4.0, -4.0),
        gives("farther than two periods up", 0.0, 100.0, 4.0, 8.0),
        gives("farther than two periods down", 0.0, -100.0, 4.0, -8.0),
        gives("negative zero, nearest unmoved", -0.0, -0.0, 4.0, 0.0),
        gives("negative zero, moved", -0.0, -4.0, 4.0, -4.0),
        gives("a move onto zero", 4.0, 0.0, 4.0, 0.0),
        gives("all candidates equal", whole, whole, 0.01, whole),
        gives("all candidates tie", 1.0, -1.0, 5.0e-324, 1.0),
        gives("the least period", 0.0, 5.0e-324, 5.0e-324, 5.0e-324),
        gives("the greatest period", whole, -whole, whole, -whole),
        gives("a result above the size", 9.0e14, whole, 1.5e14, 1.05e15),
        gives("half a turn", 0.0, pi, 2.0 * pi, 0.0),
        kept("no period", 0.5, 6.0, 4.0),
        kept("no period, negative zero", -0.0, 6.0, 4.0),
        kept("no period, its size not a number", 0.5, 6.0, f64::NAN),
        kept("no period, its size zero", 0.5, 6.0, 0.0),
        kept("no period, the greatest size", 1.0e15, -1.0e15, 4.0),
    ]
}

/// Refusals that are written out.
fn refusals() -> Vec<Case<Unwrap>> {
    let no = |name, number, u: f64, u0: f64, period: Period| {
        Case::unchanged(name, unwrap(u, u0, period), number)
    };
    let (nan, four, above) = (f64::NAN, Period::of(4.0), 1.0e15_f64.next_up());
    vec![
        no("kind 2", 1, 0.5, 6.0, kind(2, 4.0)),
        no("the largest kind", 1, 0.5, 6.0, kind(u32::MAX, 4.0)),
        no("kind 2 and NaN", 1, nan, nan, kind(2, nan)),
        no("NaN for u", 4, nan, 6.0, four),
        no("NaN for u0", 4, 0.5, -nan, four),
        no("NaN for the period", 4, 0.5, 6.0, Period::of(nan)),
        no("no period, NaN for u", 4, nan, 6.0, Period::ABSENT),
        no("no period, NaN for u0", 4, 0.5, nan, Period::ABSENT),
        no("no period, large u0", 4, 0.5, -above, Period::ABSENT),
        no("u above the size", 4, above, 6.0, four),
        no("u0 below the size", 4, 0.5, -above, four),
        no("period above the size", 4, 0.5, 6.0, Period::of(above)),
        no("infinite period", 4, 0.5, 6.0, Period::of(f64::INFINITY)),
        no(
            "period below the size",
            4,
            0.5,
            6.0,
            Period::of(f64::NEG_INFINITY),
        ),
        no("period zero", 5, 0.5, 6.0, Period::of(0.0)),
        no("period negative zero", 5, 0.5, 6.0, Period::of(-0.0)),
        no("negative period", 5, 0.5, 6.0, Period::of(-4.0)),
        no("period zero and NaN for u", 4, nan, 6.0, Period::of(0.0)),
        no("the least below zero", 5, 0.5, 6.0, Period::of(-5.0e-324)),
    ]
}

impl Families for Unwrap {
    const TIMES: usize = 20;

    fn limits() -> Vec<Case<Self>> {
        [results(), refusals()].into_iter().flatten().collect()
    }

    fn small(visit: &mut dyn FnMut(&Self) -> bool) {
        let floats: Vec<f64> = CORNERS.iter().chain(&UNFIT[..4]).copied().collect();
        let sizes: Vec<f64> = PERIODS
            .iter()
            .chain(&UNFIT)
            .chain(&[0.0, -0.0, -4.0])
            .copied()
            .collect();
        for &u in &floats {
            for &u0 in &floats {
                for &size in &sizes {
                    let all = [0, 1, 2].map(|code| unwrap(u, u0, kind(code, size)));
                    if !all.iter().all(&mut *visit) {
                        return;
                    }
                }
            }
        }
    }

    fn random(random: &mut Random) -> Self {
        let [u, u0, size] = triple(random);
        unwrap(u, u0, Period::maybe(random, size))
    }

    fn damaged(random: &mut Random) -> Self {
        let mut input = Unwrap::random(random);
        for _ in 0..1 + random.below(2) {
            match random.below(4) {
                0 => input.u = any_bits(random),
                1 => input.u0 = any_bits(random),
                _ => input.period.spoil(random),
            }
        }
        input
    }

    fn noise(random: &mut Random) -> Self {
        Unwrap {
            u: any_bits(random),
            u0: any_bits(random),
            period: Period {
                kind: any_kind(random),
                size: any_bits(random),
            },
        }
    }

    #[cfg(rust_at_hand)]
    fn expected(&self) -> crate::compare::Expected<Self> {
        use crate::compare::Expected;
        if let Some(number) = crate::model::near::unwrap_refused(self) {
            return Expected::unchanged(self, number);
        }
        let [u, u0] = [self.u, self.u0].map(f64::from_bits);
        let result = match self.period.there() {
            Some(period) => crate::healing::get_mindiff(u, u0, period).to_bits(),
            None => self.u,
        };
        Expected::told(self, &[result])
    }
}
