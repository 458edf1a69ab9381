//! The copy of a point that is nearest to another.

use super::numbers::{any_bits, any_kind, triple, UNFIT};
use super::Families;
use crate::cells::{Cells, Kind, Slice};
use crate::compare::{Case, Input, Lending};
use crate::describe;
use crate::port::{NearestCopy, Period, Port};
use crate::random::Random;

impl Input for NearestCopy {
    const NAME: &'static str = "nearest_copy";
    const NUMBER: u64 = 3;
    const ANSWERS: &'static [i32] = &[0, 1, 4, 5];
    const SCALARS: usize = 8;
    const SLICES: &'static [Lending] = &[];
    const OUT: (Kind, usize) = (Kind::Float, 2);

    fn scalars(&self) -> Vec<u64> {
        let periods = self.periods.map(|period| [period.kind.into(), period.size]);
        [self.p, self.q, periods[0], periods[1]].concat()
    }

    fn slices(&self) -> Vec<Cells> {
        Vec::new()
    }

    fn put_together(scalars: &[u64], _slices: Vec<Cells>) -> Result<Self, String> {
        Ok(NearestCopy {
            p: [scalars[0], scalars[1]],
            q: [scalars[2], scalars[3]],
            periods: [
                Period::put_together(scalars[4], scalars[5])?,
                Period::put_together(scalars[6], scalars[7])?,
            ],
        })
    }

    fn ask(&self, port: &dyn Port, _slices: Vec<Slice<'_>>, out: Slice<'_>) -> i32 {
        port.nearest_copy(*self, out.floats())
    }

    fn describe(&self) -> String {
        let points = describe::floats(&["pu", "pv", "qu", "qv"], &[self.p, self.q].concat());
        let kinds = self.periods.map(|period| period.kind);
        let sizes = self.periods.map(|period| period.size);
        let sizes = describe::floats(&["u period", "v period"], &sizes);
        format!("{points}, period kinds {kinds:?}, {sizes}\n")
    }
}

/// An input.
fn near(p: [f64; 2], q: [f64; 2], periods: [Period; 2]) -> NearestCopy {
    NearestCopy {
        p: p.map(f64::to_bits),
        q: q.map(f64::to_bits),
        periods,
    }
}

/// Results that are written out.
fn results() -> Vec<Case<NearestCopy>> {
    let gives = |name, p: [f64; 2], q: [f64; 2], periods: [Period; 2], copy: [f64; 2]| {
        Case::told(name, near(p, q, periods), &copy.map(f64::to_bits))
    };
    let (none, four) = (Period::ABSENT, Period::of(4.0));
    let strange = Period {
        kind: 0,
        size: f64::NAN.to_bits(),
    };
    let large = 1.0e8;
    vec![
        gives(
            "no periods",
            [9.0, 9.0],
            [1.0, 2.0],
            [none, none],
            [1.0, 2.0],
        ),
        gives(
            "no periods, negative zero becomes zero",
            [0.0, 0.0],
            [-0.0, -0.0],
            [none, none],
            [0.0, 0.0],
        ),
        gives(
            "sizes of absent periods are not read",
            [0.0, 0.0],
            [1.0, 2.0],
            [strange, strange],
            [1.0, 2.0],
        ),
        gives(
            "a period for u",
            [6.0, 6.0],
            [0.5, 0.5],
            [four, none],
            [4.5, 0.5],
        ),
        gives(
            "a period for v",
            [6.0, 6.0],
            [0.5, 0.5],
            [none, four],
            [0.5, 4.5],
        ),
        gives(
            "both periods",
            [6.0, -6.0],
            [0.5, 0.5],
            [four, four],
            [4.5, -7.5],
        ),
        gives(
            "a tie in u and v",
            [2.0, 2.0],
            [0.0, 0.0],
            [four, four],
            [0.0, 0.0],
        ),
        gives(
            "a tie between 0 and -4",
            [-2.0, 0.0],
            [0.0, -0.0],
            [four, none],
            [-4.0, 0.0],
        ),
        gives(
            "negative zero with a period",
            [0.0, 0.0],
            [-0.0, -0.0],
            [four, four],
            [0.0, 0.0],
        ),
        // All of v's copies are as far away: u's distance swallows theirs.
        gives(
            "the first of copies that tie by rounding",
            [large, 0.0],
            [0.0, 0.0],
            [Period::of(1.0), Period::of(0.125)],
            [2.0, -0.25],
        ),
        // Every squared distance is zero.
        gives(
            "the first of copies whose squares are lost",
            [0.0, 0.0],
            [0.0, 0.0],
            [Period::of(1.0e-170), Period::of(1.0e-170)],
            [-2.0e-170, -2.0e-170],
        ),
    ]
}

/// Refusals that are written out.
fn refusals() -> Vec<Case<NearestCopy>> {
    let no = |name, number, change: fn(&mut NearestCopy)| {
        let four = Period::of(4.0);
        let mut input = near([6.0, 6.0], [0.5, 0.5], [four, four]);
        change(&mut input);
        Case::unchanged(name, input, number)
    };
    vec![
        no("kind 2 for u", 1, |n| n.periods[0].kind = 2),
        no("kind 2 for v", 1, |n| n.periods[1].kind = 2),
        no("kind 2 for v and NaN for pu", 1, |n| {
            n.periods[1].kind = 2;
            n.p[0] = f64::NAN.to_bits();
        }),
        no("NaN for pu", 4, |n| n.p[0] = f64::NAN.to_bits()),
        no("NaN for pv", 4, |n| n.p[1] = f64::NAN.to_bits()),
        no("infinite qu", 4, |n| n.q[0] = f64::INFINITY.to_bits()),
        no("qv above the size", 4, |n| {
            n.q[1] = 1.0e15_f64.next_up().to_bits();
        }),
        no("pv above the size, no periods", 4, |n| {
            n.periods = [Period::ABSENT; 2];
            n.p[1] = (-1.0e15_f64.next_up()).to_bits();
        }),
        no("NaN for the u period", 4, |n| {
            n.periods[0] = Period::of(f64::NAN);
        }),
        no("infinite v period", 4, |n| {
            n.periods[1] = Period::of(f64::INFINITY);
        }),
        no("u period zero", 5, |n| n.periods[0] = Period::of(0.0)),
        no("v period negative zero", 5, |n| {
            n.periods[1] = Period::of(-0.0);
        }),
        no("negative v period", 5, |n| n.periods[1] = Period::of(-4.0)),
        no("u period zero and v period NaN", 4, |n| {
            n.periods = [Period::of(0.0), Period::of(f64::NAN)];
        }),
    ]
}

/// Coordinates that are gone through in full.
const COORDINATES: [f64; 6] = [0.0, -0.0, 2.0, 1.0e15, 1.0e-170, 0.5];

/// Periods that are gone through in full.
fn periods() -> Vec<Period> {
    let mut periods = vec![Period {
        kind: 0,
        size: f64::NAN.to_bits(),
    }];
    periods.extend([4.0, 5.0e-324, 1.0e15, 1.0e-170].map(Period::of));
    periods
}

/// A point that is about half a period away in both coordinates, from a copy
/// below and a copy above it, so that the rounding of the sums decides which
/// copies tie: they need not be all pairs of some in u and some in v.
fn almost_tied(random: &mut Random) -> NearestCopy {
    let size = (1.0 + random.below(1 << 30) as f64 / (1 << 30) as f64) * 2.0f64.powi(5);
    let nudge = |random: &mut Random, x: f64| {
        let up = random.once_in(2);
        (0..random.below(5)).fold(x, |x, _| if up { x.next_up() } else { x.next_down() })
    };
    let mut one = || {
        let share = (32 + random.below(64)) as f64 / 192.0;
        let q = nudge(random, -size * share);
        (nudge(random, q + size / 2.0), q)
    };
    let ((pu, qu), (pv, qv)) = (one(), one());
    near([pu, pv], [qu, qv], [Period::of(size); 2])
}

impl Families for NearestCopy {
    const TIMES: usize = 10;

    fn limits() -> Vec<Case<Self>> {
        [results(), refusals()].into_iter().flatten().collect()
    }

    fn small(visit: &mut dyn FnMut(&Self) -> bool) {
        let periods = periods();
        let count = COORDINATES.len();
        for code in 0..count.pow(4) {
            let at = |digit: u32| COORDINATES[code / count.pow(digit) % count];
            for &u_period in &periods {
                for &v_period in &periods {
                    let (p, q) = ([at(0), at(1)], [at(2), at(3)]);
                    if !visit(&near(p, q, [u_period, v_period])) {
                        return;
                    }
                }
            }
        }
    }

    fn random(random: &mut Random) -> Self {
        if random.once_in(3) {
            return almost_tied(random);
        }
        let [qu, pu, up] = triple(random);
        let [qv, pv, vp] = triple(random);
        let periods = [up, vp].map(|size| Period::maybe(random, size));
        near([pu, pv], [qu, qv], periods)
    }

    fn damaged(random: &mut Random) -> Self {
        let mut input = NearestCopy::random(random);
        for _ in 0..1 + random.below(2) {
            let place = random.below(2);
            match random.below(4) {
                0 => input.p[place] = random.pick(&UNFIT).to_bits(),
                1 => input.q[place] = any_bits(random),
                _ => input.periods[place].spoil(random),
            }
        }
        input
    }

    fn noise(random: &mut Random) -> Self {
        let mut two = || [any_bits(random), any_bits(random)];
        let (p, q, sizes) = (two(), two(), two());
        NearestCopy {
            p,
            q,
            periods: sizes.map(|size| Period {
                kind: any_kind(random),
                size,
            }),
        }
    }

    #[cfg(rust_at_hand)]
    fn expected(&self) -> crate::compare::Expected<Self> {
        use crate::compare::Expected;
        if let Some(number) = crate::model::near::copy_refused(self) {
            return Expected::unchanged(self, number);
        }
        let [p, q] = [self.p, self.q].map(|point| point.map(f64::from_bits));
        let copy = crate::healing::nearest_copy(p, q, self.periods.map(Period::there));
        Expected::told(self, &copy.map(f64::to_bits))
    }
}
