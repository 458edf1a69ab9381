//! Numbers that are hard to tell apart, for the calls over plain floats.

use crate::inputs::float;
use crate::random::Random;

/// Numbers at which rules change, for lists that are gone through in full.
pub const CORNERS: [f64; 16] = [
    0.0,
    -0.0,
    0.5,
    1.0,
    2.0,
    -2.0,
    6.0,
    -6.0,
    5.0e-324,
    -1.0e-170,
    1.0e-170,
    1.0e15,
    -1.0e15,
    0.01,
    999_999_999_999_999.9,
    std::f64::consts::PI,
];

/// Periods, the least and the greatest among them.
pub const PERIODS: [f64; 9] = [
    4.0,
    1.0,
    std::f64::consts::TAU,
    0.01,
    5.0e-324,
    1.0e-170,
    1.0e15,
    0.1,
    250_000_000_000_000.0,
];

/// Floats that may not be handed in, and some that just may.
pub const UNFIT: [f64; 7] = [
    f64::NAN,
    f64::INFINITY,
    f64::NEG_INFINITY,
    1_000_000_000_000_000.1,
    -1_000_000_000_000_000.1,
    1.0e15,
    -1.0e15,
];

/// The nearest float that may be handed in.
fn fit(x: f64) -> f64 {
    x.clamp(-1.0e15, 1.0e15)
}

/// A period.
pub fn period(random: &mut Random) -> f64 {
    match random.below(4) {
        0 | 1 => random.pick(&PERIODS),
        2 => (1 + random.below(4000)) as f64 / 250.0,
        _ => float(random).abs().max(5.0e-324),
    }
}

/// A number, one to be near to, and a period.
pub fn triple(random: &mut Random) -> [f64; 3] {
    let period = period(random);
    let quarter = |random: &mut Random| (random.below(33) as f64 - 16.0) / 4.0;
    let [x, x0] = match random.below(10) {
        // Often just between two candidates.
        0..=2 => {
            let x = fit(quarter(random) * period);
            [x, fit(x + quarter(random) * period)]
        }
        // Next to it.
        3 => {
            let x0 = fit(quarter(random) * period);
            let x = random.pick(&[0.0, period, -period]);
            [fit(x), fit(random.pick(&[x0.next_up(), x0.next_down()]))]
        }
        // Differences whose squares are lost.
        4 => {
            let tiny = |random: &mut Random| (random.below(9) as f64 - 4.0) * 1.0e-170;
            [tiny(random), tiny(random)]
        }
        // Digits that are lost.
        5 => {
            let large = random.pick(&[1.0e15, -1.0e15, 9.0e14, 0.01, 3.0e7]);
            [large, random.pick(&[large, 0.01, 0.0, -large])]
        }
        6 => [random.pick(&[0.0, -0.0]), random.pick(&[0.0, -0.0, period])],
        7 => {
            let x = float(random);
            [x, x]
        }
        _ => [float(random), float(random)],
    };
    [fit(x), fit(x0), fit(period)]
}

/// Bits of any float, or of one that may not be handed in.
pub fn any_bits(random: &mut Random) -> u64 {
    match random.below(8) {
        0 => random.pick(&UNFIT).to_bits(),
        1 => 0x7ff0_0000_0000_0001 | random.word() & 0x800f_ffff_ffff_ffff,
        2 => float(random).to_bits(),
        _ => random.word(),
    }
}

/// Any kind of a period, mostly one that is there.
pub fn any_kind(random: &mut Random) -> u32 {
    let any = random.word() as u32;
    random.pick(&[0, 1, 1, 1, 1, 1, 2, any])
}
