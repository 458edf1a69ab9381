//! Plain unwrapping, nearest copy, kind of wire and sorting of wires.

use super::tables::sized;
use crate::port::{NearestCopy, Period, Sort, Unwrap, WireEnds};

/// The steps of the four calls.
#[derive(Clone, Copy)]
pub struct Steps {
    /// All causes that floats and periods meet.
    pub causes: fn(&[u64], &[Period]) -> Vec<i32>,
    /// The cause that wins.
    pub choose: fn(&[i32]) -> Option<i32>,
    /// The candidates of unwrapping.
    pub candidates: fn(f64, f64) -> Vec<f64>,
    /// How far a candidate is away.
    pub away: fn(f64, f64) -> f64,
    /// Whether the first distance wins over the second, which is an earlier
    /// candidate's.
    pub wins: fn(f64, f64) -> bool,
    /// What comes back where there is no period.
    pub unwrapped: fn(u64) -> u64,
    /// The copies of one coordinate.
    pub copies: fn(f64, Option<f64>) -> Vec<f64>,
    /// The pairs of copies, in their order.
    pub pairs: fn(&[f64], &[f64]) -> Vec<[f64; 2]>,
    /// The squared distance of two points.
    pub distance2: fn([f64; 2], [f64; 2]) -> f64,
    /// The kind of a wire, from the squared distance of its ends and its area.
    pub kind: fn(f64, f64) -> u32,
    /// The steps of the sorting.
    pub sort: Sorting,
}

/// The steps of the sorting of wires.
#[derive(Clone, Copy)]
pub struct Sorting {
    /// Whether so many wires are too many for what was lent.
    pub too_many: fn(usize, usize) -> bool,
    /// Which of the floats are looked at.
    pub seen: fn(&[u64], usize) -> &[u64],
    /// Whether so many open wires are sorted.
    pub right: fn(usize) -> bool,
    /// Whether the groups fit: places and wires, open ones first.
    pub fits: fn([usize; 2], [usize; 2]) -> bool,
    /// The open and the closed wires, from the kinds of all.
    pub groups: fn(&[u32]) -> [Vec<u32>; 2],
}

impl Default for Steps {
    fn default() -> Self {
        Steps {
            causes,
            choose: |causes| causes.iter().min().copied(),
            candidates: |u, period| [-2.0, -1.0, 0.0, 1.0, 2.0].map(|i| u + i * period).to_vec(),
            away: |u, u0| (u - u0).abs(),
            wins: |distance, best| distance < best,
            unwrapped: |bits| bits,
            copies,
            pairs,
            distance2,
            kind: |distance2, area| match distance2 < 1.0e-3 {
                true => u32::from(area <= 0.0),
                false => 2,
            },
            sort: Sorting::default(),
        }
    }
}

impl Default for Sorting {
    fn default() -> Self {
        Sorting {
            too_many: |wires, floats| wires > 64 || floats / 5 < wires,
            seen: |ends, wires| &ends[..5 * wires],
            right: |open| open == 2,
            fits: |places, wires| places[0] >= wires[0] && places[1] >= wires[1],
            groups,
        }
    }
}

impl Steps {
    /// The first item that no other one wins over.
    fn best<T>(&self, items: Vec<T>, distance: impl Fn(&T) -> f64) -> T {
        let mut items = items.into_iter();
        let mut best = items.next().expect("there is an item");
        for item in items {
            if (self.wins)(distance(&item), distance(&best)) {
                best = item;
            }
        }
        best
    }

    pub fn get_mindiff(&self, call: Unwrap, out: &mut [u64]) -> i32 {
        let causes = (self.causes)(&[call.u, call.u0], &[call.period]);
        if let Some(number) = (self.choose)(&causes) {
            return number;
        }
        out[0] = match period(call.period) {
            None => (self.unwrapped)(call.u),
            Some(period) => {
                let candidates = (self.candidates)(f64::from_bits(call.u), period);
                let u0 = f64::from_bits(call.u0);
                self.best(candidates, |&u| (self.away)(u, u0)).to_bits()
            }
        };
        0
    }

    pub fn nearest_copy(&self, call: NearestCopy, out: &mut [u64]) -> i32 {
        let causes = (self.causes)(&[call.p, call.q].concat(), &call.periods);
        if let Some(number) = (self.choose)(&causes) {
            return number;
        }
        let (p, q) = (call.p.map(f64::from_bits), call.q.map(f64::from_bits));
        let [up, vp] = call.periods.map(period);
        let pairs = (self.pairs)(&(self.copies)(q[0], up), &(self.copies)(q[1], vp));
        let best = self.best(pairs, |&copy| (self.distance2)(p, copy));
        out.copy_from_slice(&best.map(f64::to_bits));
        0
    }

    pub fn boundary_type(&self, call: WireEnds, out: &mut [u32]) -> i32 {
        let floats = [&call.first[..], &call.last, &[call.area]].concat();
        if let Some(number) = (self.choose)(&(self.causes)(&floats, &[])) {
            return number;
        }
        out[0] = self.kind_of(&floats);
        0
    }

    /// The kind of a wire, from the five floats of its row.
    fn kind_of(&self, row: &[u64]) -> u32 {
        let at = |cell: usize| f64::from_bits(row[cell]);
        let (first, last) = ([at(0), at(1)], [at(2), at(3)]);
        (self.kind)((self.distance2)(first, last), at(4))
    }

    pub fn sort_wires(&self, call: Sort<'_>) -> i32 {
        if (self.sort.too_many)(call.wires, call.ends.len()) {
            return 1;
        }
        let floats = (self.sort.seen)(call.ends, call.wires);
        if let Some(number) = (self.choose)(&(self.causes)(floats, &[])) {
            return number;
        }
        let rows = call.ends.chunks(5).take(call.wires);
        let kinds: Vec<u32> = rows.map(|row| self.kind_of(row)).collect();
        let not_closed = kinds.iter().filter(|&&kind| kind == 2).count();
        if !(self.sort.right)(not_closed) {
            return -1;
        }
        let [open, closed] = (self.sort.groups)(&kinds);
        let places = [call.open.len(), call.closed.len()];
        if !(self.sort.fits)(places, [open.len(), closed.len()]) {
            return 6;
        }
        put(call.open, &open);
        put(call.closed, &closed);
        call.out[0] = closed.len();
        0
    }
}

/// Writes numbers over the first cells, as many as there is room for.
fn put(cells: &mut [u32], numbers: &[u32]) {
    for (cell, number) in cells.iter_mut().zip(numbers) {
        *cell = *number;
    }
}

/// The period, if it is there.
fn period(period: Period) -> Option<f64> {
    (period.kind == 1).then_some(f64::from_bits(period.size))
}

/// All causes that floats and periods meet.
pub fn causes(floats: &[u64], periods: &[Period]) -> Vec<i32> {
    let mut found = Vec::new();
    for one in periods {
        match period(*one) {
            Some(size) if !sized(size) => found.push(4),
            Some(size) if size <= 0.0 => found.push(5),
            None if one.kind != 0 => found.push(1),
            _ => {}
        }
    }
    let unfit = |&bits: &u64| !sized(f64::from_bits(bits));
    found.extend(floats.iter().any(unfit).then_some(4));
    found
}

/// The copies of one coordinate. Without a period there is one copy, to which
/// nothing is added.
pub fn copies(x: f64, period: Option<f64>) -> Vec<f64> {
    match period {
        Some(size) => [-2.0, -1.0, 0.0, 1.0, 2.0].map(|i| x + i * size).to_vec(),
        None => vec![x + 0.0],
    }
}

/// All pairs, the first coordinate outermost.
pub fn pairs(us: &[f64], vs: &[f64]) -> Vec<[f64; 2]> {
    let row = |&u: &f64| vs.iter().map(move |&v| [u, v]).collect::<Vec<_>>();
    us.iter().flat_map(row).collect()
}

/// The squared distance of two points.
pub fn distance2(p: [f64; 2], q: [f64; 2]) -> f64 {
    let [x, y] = [0, 1].map(|i| (p[i] - q[i]) * (p[i] - q[i]));
    x + y
}

/// The numbers of the open and of the closed wires, in given order.
pub fn groups(kinds: &[u32]) -> [Vec<u32>; 2] {
    let numbers = |open: bool| {
        let all = kinds.iter().enumerate();
        let some = all.filter(move |(_, &kind)| (kind == 2) == open);
        some.map(|(number, _)| number as u32).collect()
    };
    [numbers(true), numbers(false)]
}
