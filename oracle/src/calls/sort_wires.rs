//! The sorting of wires into open and closed ones.

use super::boundary_type::NAMES;
use super::numbers::any_bits;
use super::Families;
use crate::cells::{Cells, Kind, Slice};
use crate::compare::{read, written, Case, Expected, Input, Lending, NONE};
use crate::describe;
use crate::inputs::{any_count, spoil_one_of};
use crate::port::{Port, Sort, WireEnds};
use crate::random::Random;
use crate::shell::{float_poison, numbers_poison};
use std::fmt::Write as _;

/// What a call is lent.
#[derive(Clone, Debug, PartialEq, Eq)]
pub struct SortWires {
    pub ends: Vec<u64>,
    pub wires: usize,
    pub open: Vec<u32>,
    pub closed: Vec<u32>,
}

/// Floats in a row.
const ROW: usize = 5;

impl Input for SortWires {
    const NAME: &'static str = "sort_wires";
    const NUMBER: u64 = 5;
    const ANSWERS: &'static [i32] = &[0, NONE, 1, 4, 6];
    const SCALARS: usize = 1;
    const SLICES: &'static [Lending] = &[
        read("ends", Kind::Float),
        written("open", Kind::Number),
        written("closed", Kind::Number),
    ];
    const OUT: (Kind, usize) = (Kind::Count, 1);

    fn scalars(&self) -> Vec<u64> {
        vec![self.wires as u64]
    }

    fn slices(&self) -> Vec<Cells> {
        vec![
            Cells::Floats(self.ends.clone()),
            Cells::Numbers(self.open.clone()),
            Cells::Numbers(self.closed.clone()),
        ]
    }

    fn put_together(scalars: &[u64], slices: Vec<Cells>) -> Result<Self, String> {
        let mut slices = slices.into_iter();
        let mut next = || slices.next().expect("three slices");
        Ok(SortWires {
            ends: next().floats(),
            wires: scalars[0] as usize,
            open: next().numbers(),
            closed: next().numbers(),
        })
    }

    fn ask(&self, port: &dyn Port, slices: Vec<Slice<'_>>, out: Slice<'_>) -> i32 {
        let mut slices = slices.into_iter();
        let mut next = || slices.next().expect("three slices");
        port.sort_wires(Sort {
            ends: next().floats(),
            wires: self.wires,
            open: next().numbers(),
            closed: next().numbers(),
            out: out.counts(),
        })
    }

    fn describe(&self) -> String {
        let (open, closed) = (self.open.len(), self.closed.len());
        let mut text = format!("{} wires, ", self.wires);
        let _ = writeln!(text, "{open} places for open ones, {closed} for closed");
        let rows = self.ends.chunks_exact(ROW);
        for (number, row) in rows.enumerate().take(self.wires) {
            let row = describe::floats(&NAMES, row);
            let _ = writeln!(text, "  wire {number}: {row}");
        }
        text
    }
}

impl SortWires {
    /// Wires in buffers of these lengths: floats past the wires, open places,
    /// closed places.
    fn holding(wires: &[WireEnds], spare: [usize; 3], random: &mut Random) -> SortWires {
        let mut ends: Vec<u64> = wires.iter().flat_map(WireEnds::row).collect();
        ends.extend((0..spare[0]).map(|_| float_poison(random)));
        SortWires {
            ends,
            wires: wires.len(),
            open: numbers_poison(spare[1], random),
            closed: numbers_poison(spare[2], random),
        }
    }

    /// The expected sorting into these groups.
    fn sorted(&self, open: &[u32], closed: &[u32]) -> Expected<Self> {
        let mut after = self.clone();
        after.open[..open.len()].copy_from_slice(open);
        after.closed[..closed.len()].copy_from_slice(closed);
        Expected {
            answer: 0,
            out: vec![closed.len() as u64],
            after,
        }
    }
}

/// A wire of a kind: 0 Positive, 1 Negative, 2 NotClosed.
fn wire(kind: usize) -> WireEnds {
    match kind {
        0 => WireEnds::apart([0.03125, 0.0], 1.0),
        1 => WireEnds::apart([0.0, 0.0], 0.0),
        _ => WireEnds::apart([0.032, 0.0], 1.0),
    }
}

/// Wires from a word: `+` and `-` for closed ones, `o` for open ones.
fn wires(word: &str) -> Vec<WireEnds> {
    let kind = |sign: char| match sign {
        '+' => wire(0),
        '-' => wire(1),
        _ => wire(2),
    };
    word.chars().map(kind).collect()
}

/// The wires of a word in buffers of these lengths.
fn held(word: &str, open: usize, closed: usize) -> SortWires {
    SortWires::holding(&wires(word), [3, open, closed], &mut Random::new(7, 7, 7))
}

/// Results that are written out.
fn results() -> Vec<Case<SortWires>> {
    let gives = |name, word: &str, places: [usize; 2], open: [u32; 2], closed: &[u32]| {
        let input = held(word, places[0], places[1]);
        let expected = input.sorted(&open, closed);
        Case {
            name,
            input,
            expected,
        }
    };
    let none = |name, word: &str, places: [usize; 2]| {
        Case::unchanged(name, held(word, places[0], places[1]), NONE)
    };
    let most = "+".repeat(31) + "o" + &"-".repeat(31) + "o";
    let most_closed: Vec<u32> = (0..31).chain(32..63).collect();
    vec![
        gives("two open wires", "oo", [2, 0], [0, 1], &[]),
        gives("one closed between", "o+o", [2, 1], [0, 2], &[1]),
        gives("closed on both sides", "-oo+", [4, 4], [1, 2], &[0, 3]),
        gives("closed ones first", "+-oo", [2, 2], [2, 3], &[0, 1]),
        gives("64 wires", &most, [2, 62], [31, 63], &most_closed),
        none("no wires", "", [0, 0]),
        none("no open wire", "+-", [2, 2]),
        none("one open wire", "+o-", [2, 2]),
        none("three open wires", "oo+o", [3, 3]),
        none("64 open wires", &"o".repeat(64), [64, 64]),
        none("none before 6", "o+++", [0, 0]),
    ]
}

/// Refusals that are written out.
fn refusals() -> Vec<Case<SortWires>> {
    let no = |name, number, change: fn(&mut SortWires)| {
        let mut input = held("o+-o", 2, 2);
        change(&mut input);
        Case::unchanged(name, input, number)
    };
    vec![
        no("one float too few", 1, |s| s.ends.truncate(19)),
        no("one wire too many", 1, |s| s.wires = 5),
        no("the largest wire count", 1, |s| s.wires = usize::MAX),
        no("a wire count whose rows wrap", 1, |s| {
            s.wires = usize::MAX / 5 + 1;
        }),
        no("65 wires", 1, |s| {
            s.ends = vec![0; 65 * ROW];
            s.wires = 65;
        }),
        no("one wire too many and NaN", 1, |s| {
            s.wires = 5;
            s.ends[0] = f64::NAN.to_bits();
        }),
        no("NaN for u of the first wire", 4, |s| {
            s.ends[0] = f64::NAN.to_bits();
        }),
        no("NaN for the area of an open wire", 4, |s| {
            s.ends[19] = f64::NAN.to_bits();
        }),
        no("area above the size", 4, |s| {
            s.ends[9] = 1.0e15_f64.next_up().to_bits();
        }),
        no("NaN and one open wire", 4, |s| {
            s.ends[12] = f64::NAN.to_bits();
            s.wires = 3;
        }),
        no("NaN and no places", 4, |s| {
            s.ends[12] = f64::NAN.to_bits();
            s.open.clear();
        }),
        no("one open place", 6, |s| s.open.truncate(1)),
        no("no open place", 6, |s| s.open.clear()),
        no("one closed place too few", 6, |s| s.closed.truncate(1)),
        no("no places", 6, |s| {
            s.open.clear();
            s.closed.clear();
        }),
    ]
}

impl Families for SortWires {
    const TIMES: usize = 2;

    fn limits() -> Vec<Case<Self>> {
        [results(), refusals()].into_iter().flatten().collect()
    }

    fn small(visit: &mut dyn FnMut(&Self) -> bool) {
        let random = &mut Random::new(3, 3, 3);
        for count in 0..=6u32 {
            for code in 0..3usize.pow(count) {
                let kinds = (0..count).map(|digit| code / 3usize.pow(digit) % 3);
                let wires: Vec<WireEnds> = kinds.map(wire).collect();
                for places in 0..5 * 4 {
                    let (open, less) = (places % 5, places / 5);
                    let closed = (count as usize).saturating_sub(less);
                    let spare = [places % 3, open, closed];
                    if !visit(&SortWires::holding(&wires, spare, random)) {
                        return;
                    }
                }
            }
        }
    }

    fn random(random: &mut Random) -> Self {
        let count = match random.below(8) {
            0 => 64,
            1 => random.below(66),
            _ => random.below(9),
        };
        let open = random.pick(&[0, 1, 2, 2, 2, 2, 2, 3]);
        let mut wires: Vec<WireEnds> = (0..count).map(|_| wire(random.below(2))).collect();
        for _ in 0..open.min(count) {
            wires[random.below(count)] = wire(2);
        }
        if random.once_in(4) {
            wires.fill_with(|| WireEnds::any(random));
        }
        let spare = [
            random.below(6),
            random.pick(&[0, 1, 2, 2, 2, 2, 3, 7]),
            (count + 2).saturating_sub(random.below(6)),
        ];
        SortWires::holding(&wires, spare, random)
    }

    fn damaged(random: &mut Random) -> Self {
        let mut input = SortWires::random(random);
        for _ in 0..1 + random.below(2) {
            let size = input.ends.len();
            match random.below(4) {
                0 | 1 if size > 0 => input.ends[random.below(size)] = any_bits(random),
                2 => input
                    .ends
                    .truncate(size.saturating_sub(1 + random.below(6))),
                _ => spoil_one_of(random, [&mut input.wires]),
            }
        }
        input
    }

    fn noise(random: &mut Random) -> Self {
        let floats = random.below(40);
        let spare = [floats, random.below(4), random.below(6)];
        let mut input = SortWires::holding(&[], spare, random);
        let small = |random: &mut Random| (random.below(3) as f64 / 40.0).to_bits();
        for cell in &mut input.ends {
            *cell = match random.once_in(16) {
                true => any_bits(random),
                false => small(random),
            };
        }
        input.wires = any_count(random);
        input
    }

    #[cfg(rust_at_hand)]
    fn expected(&self) -> Expected<Self> {
        use crate::model;
        if let Some(number) = model::near::sort_refused(&self.ends, self.wires) {
            return Expected::unchanged(self, number);
        }
        let (mut open, mut closed) = (Vec::new(), Vec::new());
        let rows = self.ends.chunks_exact(ROW).take(self.wires);
        for (number, row) in rows.enumerate() {
            match WireEnds::of(row).kind() {
                2 => open.push(number as u32),
                _ => closed.push(number as u32),
            }
        }
        if open.len() != 2 {
            return Expected::unchanged(self, NONE);
        }
        if model::near::sort_cause_6(&self.open, &self.closed, closed.len()) {
            return Expected::unchanged(self, 6);
        }
        self.sorted(&open, &closed)
    }
}
