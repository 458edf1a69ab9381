//! The kind of a wire, from its ends and its area.

use super::numbers::{any_bits, CORNERS, UNFIT};
use super::Families;
use crate::cells::{Cells, Kind, Slice};
use crate::compare::{Case, Input, Lending};
use crate::describe;
use crate::inputs::float;
use crate::port::{Port, WireEnds};
use crate::random::Random;

/// The names of the five floats.
pub const NAMES: [&str; 5] = ["u0", "v0", "u1", "v1", "area"];

/// The squared distance below which a wire is closed.
const NEAR: f64 = 1.0e-3;

impl WireEnds {
    /// The five floats in the order of a row.
    pub fn row(&self) -> [u64; 5] {
        let ([u0, v0], [u1, v1]) = (self.first, self.last);
        [u0, v0, u1, v1, self.area]
    }

    /// The ends and the area of a row.
    pub fn of(row: &[u64]) -> WireEnds {
        WireEnds {
            first: [row[0], row[1]],
            last: [row[2], row[3]],
            area: row[4],
        }
    }

    /// The number of the kind that the Rust gives.
    #[cfg(rust_at_hand)]
    pub fn kind(&self) -> u32 {
        let [first, last] = [self.first, self.last].map(|point| point.map(f64::from_bits));
        crate::healing::boundary_type(first, last, f64::from_bits(self.area))
    }

    /// Ends that are this far apart in u and v, and an area.
    pub fn apart(step: [f64; 2], area: f64) -> WireEnds {
        WireEnds {
            first: [0.0; 2].map(f64::to_bits),
            last: step.map(f64::to_bits),
            area: area.to_bits(),
        }
    }

    /// Ends near to or far from each other.
    pub fn any(random: &mut Random) -> WireEnds {
        let step = step(random);
        let base = match random.below(4) {
            0 => [float(random), float(random)],
            1 => [random.below(9) as f64, -(random.below(9) as f64)],
            _ => [0.0, -0.0],
        };
        let mut ends = WireEnds {
            first: base.map(f64::to_bits),
            last: [base[0] + step[0], base[1] + step[1]]
                .map(|x| x.clamp(-1.0e15, 1.0e15).to_bits()),
            area: area(random).to_bits(),
        };
        if random.once_in(2) {
            std::mem::swap(&mut ends.first, &mut ends.last);
        }
        ends
    }
}

impl Input for WireEnds {
    const NAME: &'static str = "boundary_type";
    const NUMBER: u64 = 4;
    const ANSWERS: &'static [i32] = &[0, 4];
    const RESULTS: &'static [u64] = &[0, 1, 2];
    const SCALARS: usize = 5;
    const SLICES: &'static [Lending] = &[];
    const OUT: (Kind, usize) = (Kind::Number, 1);

    fn scalars(&self) -> Vec<u64> {
        self.row().to_vec()
    }

    fn slices(&self) -> Vec<Cells> {
        Vec::new()
    }

    fn put_together(scalars: &[u64], _slices: Vec<Cells>) -> Result<Self, String> {
        Ok(WireEnds::of(scalars))
    }

    fn ask(&self, port: &dyn Port, _slices: Vec<Slice<'_>>, out: Slice<'_>) -> i32 {
        port.boundary_type(*self, out.numbers())
    }

    fn describe(&self) -> String {
        format!("{}\n", describe::floats(&NAMES, &self.row()))
    }
}

/// A step whose square is just the one below which a wire is closed, and with
/// no less of v.
fn at_threshold(random: &mut Random) -> [f64; 2] {
    loop {
        let x = random.below(31_000) as f64 / 1_000_000.0;
        let root = (NEAR - x * x).sqrt();
        let mut y = (0..4).fold(root, |y, _| y.next_down());
        for _ in 0..8 {
            if x * x + y * y == NEAR {
                return [x, y];
            }
            y = y.next_up();
        }
    }
}

/// A step from the first point to the last.
fn step(random: &mut Random) -> [f64; 2] {
    let root = NEAR.sqrt();
    let [x, y] = match random.below(8) {
        0 => at_threshold(random),
        1 => {
            let [x, y] = at_threshold(random);
            [x, random.pick(&[y.next_up(), y.next_down()])]
        }
        2 => [
            random.pick(&[root, root.next_up(), root.next_down(), 0.03125, 0.032]),
            random.pick(&[0.0, 1.0e-170]),
        ],
        3 => [random.below(64) as f64 / 1024.0, 0.0],
        4 => [random.pick(&[0.0, 1.0e-170, 5.0e-324]), 0.0],
        5 => [float(random), float(random)],
        _ => [
            random.below(60) as f64 / 1000.0,
            random.below(60) as f64 / 1000.0,
        ],
    };
    let sign = |random: &mut Random, x: f64| if random.once_in(2) { -x } else { x };
    let (x, y) = (sign(random, x), sign(random, y));
    random.pick(&[[x, y], [y, x]])
}

/// An area.
fn area(random: &mut Random) -> f64 {
    match random.below(3) {
        0 => random.pick(&[0.0, -0.0, 5.0e-324, -5.0e-324, 1.0e15, -1.0e15]),
        1 => random.pick(&[1.0, -1.0]),
        _ => float(random),
    }
}

/// Kinds that are written out: 0 Positive, 1 Negative, 2 NotClosed.
fn results() -> Vec<Case<WireEnds>> {
    let gives = |name, step: [f64; 2], area: f64, kind: u64| {
        Case::told(name, WireEnds::apart(step, area), &[kind])
    };
    let far = |name, first: [f64; 2], last: [f64; 2], kind: u64| {
        let ends = WireEnds {
            first: first.map(f64::to_bits),
            last: last.map(f64::to_bits),
            area: 1.0f64.to_bits(),
        };
        Case::told(name, ends, &[kind])
    };
    let edge = at_threshold(&mut Random::new(1, 1, 1));
    vec![
        gives("K17", [0.03125, 0.0], 1.0, 0),
        gives("K18", [0.032, 0.0], 1.0, 2),
        gives("K19", [0.0, 0.0], 0.0, 1),
        gives("K17 with a negative area", [0.03125, 0.0], -1.0, 1),
        gives("K17 along v", [0.0, -0.03125], 1.0, 0),
        gives("K18 along v, negative area", [0.0, 0.032], -1.0, 2),
        gives("K19 with negative zero", [-0.0, 0.0], -0.0, 1),
        gives("the least area", [0.0, 0.0], 5.0e-324, 0),
        gives("the least area below zero", [0.0, 0.0], -5.0e-324, 1),
        gives("the greatest area", [0.0, 0.0], 1.0e15, 0),
        gives("just at the threshold", edge, 1.0, 2),
        gives("just below it", [edge[0], edge[1].next_down()], 1.0, 0),
        gives("a lost square", [1.0e-170, 1.0e-170], 1.0, 0),
        gives("both steps closed by themselves", [0.03, 0.03], 1.0, 2),
        far(
            "equal ends far out",
            [1.0e15, -1.0e15],
            [1.0e15, -1.0e15],
            0,
        ),
        far("a step far out", [1.0e15, 0.0], [1.0e15 - 0.125, 0.0], 2),
        far("opposite ends", [1.0e15, 1.0e15], [-1.0e15, -1.0e15], 2),
    ]
}

/// Refusals that are written out.
fn refusals() -> Vec<Case<WireEnds>> {
    let no = |name, place: usize, float: f64| {
        let mut row = WireEnds::apart([0.0, 0.0], 1.0).row();
        row[place] = float.to_bits();
        Case::unchanged(name, WireEnds::of(&row), 4)
    };
    let mut open = WireEnds::apart([1.0, 0.0], 1.0);
    open.area = f64::NAN.to_bits();
    let above = 1.0e15_f64.next_up();
    vec![
        no("NaN for u0", 0, f64::NAN),
        no("infinite v0", 1, f64::INFINITY),
        no("u1 above the size", 2, above),
        no("v1 below the size", 3, -above),
        no("NaN for the area", 4, f64::NAN),
        no("area above the size", 4, above),
        no("infinite area", 4, f64::NEG_INFINITY),
        Case::unchanged("NaN for the area of an open wire", open, 4),
    ]
}

/// Steps that are gone through in full.
const STEPS: [f64; 10] = [
    0.0,
    -0.0,
    0.03125,
    0.032,
    -0.032,
    0.01,
    1.0e-170,
    1.0e15,
    -1.0e15,
    f64::NAN,
];

impl Families for WireEnds {
    const TIMES: usize = 20;

    fn limits() -> Vec<Case<Self>> {
        [results(), refusals()].into_iter().flatten().collect()
    }

    fn small(visit: &mut dyn FnMut(&Self) -> bool) {
        let areas: Vec<f64> = CORNERS.iter().chain(&UNFIT).copied().collect();
        for code in 0..STEPS.len().pow(4) {
            let at = |digit: u32| STEPS[code / STEPS.len().pow(digit) % STEPS.len()];
            let area = areas[code % areas.len()];
            let row = [at(0), at(1), at(2), at(3), area].map(f64::to_bits);
            if !visit(&WireEnds::of(&row)) {
                return;
            }
        }
    }

    fn random(random: &mut Random) -> Self {
        WireEnds::any(random)
    }

    fn damaged(random: &mut Random) -> Self {
        let mut row = WireEnds::any(random).row();
        for _ in 0..1 + random.below(2) {
            row[random.below(5)] = any_bits(random);
        }
        WireEnds::of(&row)
    }

    fn noise(random: &mut Random) -> Self {
        let row = [0; 5].map(|_| any_bits(random));
        WireEnds::of(&row)
    }

    #[cfg(rust_at_hand)]
    fn expected(&self) -> crate::compare::Expected<Self> {
        use crate::compare::Expected;
        match crate::model::near::ends_refused(self) {
            Some(number) => Expected::unchanged(self, number),
            None => Expected::told(self, &[self.kind().into()]),
        }
    }
}
