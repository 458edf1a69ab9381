//! The cut of an edge at several points along it, and the mending of wires.

mod limits;

use super::cut_edge::{result_counts, CutEdge};
use super::Families;
use crate::cells::{Cells, Kind, Slice};
use crate::compare::{Case, Expected, Input, Lending};
use crate::inputs::{any_sizes, damage, lend_for, little_sizes, Sizes};
use crate::inputs::{float, shell, spoil_float, spoil_one_of};
use crate::model::cut::CUT;
use crate::model::several_cuts::{torn, Left};
use crate::port::Port;
use crate::random::Random;
use crate::records::Shell;
use crate::shell::{float_poison, needed, Lent, EDGE_FLOATS};
use crate::small;

/// What a call is lent: the same as for one cut.
#[derive(Clone, Debug, PartialEq, Eq)]
pub struct SeveralCuts(pub CutEdge);

impl Input for SeveralCuts {
    const NAME: &'static str = "cut_edge_at_points";
    const NUMBER: u64 = 11;
    const ANSWERS: &'static [i32] = &[0, 1, 2, 3, 4, 5, 6, 16, 17];
    const SCALARS: usize = CutEdge::SCALARS;
    const SLICES: &'static [Lending] = CutEdge::SLICES;
    const OUT: (Kind, usize) = CutEdge::OUT;

    fn scalars(&self) -> Vec<u64> {
        self.0.scalars()
    }

    fn slices(&self) -> Vec<Cells> {
        self.0.slices()
    }

    fn put_together(scalars: &[u64], slices: Vec<Cells>) -> Result<Self, String> {
        CutEdge::put_together(scalars, slices).map(SeveralCuts)
    }

    fn ask(&self, port: &dyn Port, slices: Vec<Slice<'_>>, out: Slice<'_>) -> i32 {
        port.cut_edge_at_points(self.0.call(slices, out))
    }

    fn describe(&self) -> String {
        self.0.describe()
    }

    fn breach(&self, answer: i32, _out: &[u64], after: &[Cells]) -> Option<&'static str> {
        let [_, _, Cells::Numbers(edge_numbers), _, Cells::Numbers(uses), Cells::Numbers(lengths), _] =
            after
        else {
            panic!("three rows of numbers");
        };
        let left = Left {
            edge_numbers,
            uses,
            lengths,
        };
        let torn = || torn(&self.0.lent, &self.0.all_cuts(), &left);
        (answer == 0).then(torn).flatten()
    }
}

impl SeveralCuts {
    /// Tables and wires with cuts that are lent in full.
    fn over(lent: Lent, edge: u32, cuts: &[[f64; CUT]]) -> SeveralCuts {
        SeveralCuts(CutEdge::over(lent, edge, cuts))
    }

    /// A shell with cuts in buffers of just the result's length.
    fn exact(shell: &Shell, edge: u32, cuts: &[[f64; CUT]], turn: usize) -> SeveralCuts {
        let sizes = needed(result_counts(shell, edge, cuts.len()), shell.wires.len());
        let lent = Lent::holding(shell, sizes, &mut Random::new(1, 11, turn as u64));
        SeveralCuts::over(lent, edge, cuts)
    }

    /// A call that is done, and the shell that stands there afterwards.
    fn done(&self, after: &Shell) -> Expected<Self> {
        let Expected { answer, out, after } = self.0.done(after);
        let after = SeveralCuts(after);
        Expected { answer, out, after }
    }

    /// A random shell of the given sizes, mostly with an edge, and so many cuts
    /// of it, or about as many.
    pub fn made(random: &mut Random, mut sizes: Sizes, count: usize) -> SeveralCuts {
        if !random.once_in(16) {
            (sizes.vertices, sizes.edges) = (sizes.vertices.max(1), sizes.edges.max(1));
        }
        let mut shell = shell(random, &sizes);
        let edges = shell.edges.len();
        let edge = match random.below(24) {
            0 => edges as u32,
            _ => random.below(edges.max(1)) as u32,
        };
        if !random.once_in(4) {
            use_often(random, &mut shell, edge);
        }
        let range = match shell.edges.get(edge as usize) {
            Some(edge) => edge.curve.range(),
            None => (0.0, 1.0),
        };
        let cut = |t: f64, random: &mut Random| [t, float(random), float(random), float(random)];
        let ts = parameters(random, range, count);
        let cuts: Vec<[f64; CUT]> = ts.into_iter().map(|t| cut(t, random)).collect();
        let result = result_counts(&shell, edge, cuts.len());
        let lent = lend_for(random, &shell, result);
        let mut input = CutEdge::over(lent, edge, &cuts);
        let spare = (0..random.below(6)).map(|_| float_poison(random));
        input.cuts.extend(spare);
        SeveralCuts(input)
    }

    /// Spoils one thing.
    fn damage(&mut self, random: &mut Random) {
        let input = &mut self.0;
        let short = input.cuts.len().saturating_sub(1 + random.below(4));
        match random.below(16) {
            0..=4 => damage(random, &mut input.lent),
            5 => input.edge = random.pick(&[0, 1, 2, 4, 4096, u32::MAX]),
            6 => spoil_one_of(random, [&mut input.cut_count]),
            7 => input.cuts.truncate(short),
            8 => input.cut_count = random.pick(&[0, 1, 2, 64, 65]),
            9 | 10 => move_past_range(random, input),
            11 | 12 => disorder(random, input),
            _ => spoil_float(random, &mut input.cuts),
        }
    }
}

/// How many cuts: mostly few, and often about the bound.
fn any_cuts(random: &mut Random) -> usize {
    match random.below(16) {
        0 => 0,
        1 => 1,
        2..=7 => 2 + random.below(3),
        8..=10 => 5 + random.below(8),
        11 | 12 => random.below(64),
        13 => 64,
        14 => 63 + random.below(3),
        _ => 65 + random.below(6),
    }
}

/// Most uses are made uses of this edge, in either direction.
fn use_often(random: &mut Random, shell: &mut Shell, edge: u32) {
    if edge as usize >= shell.edges.len() {
        return;
    }
    for used in shell.wires.iter_mut().flatten() {
        if !random.once_in(4) {
            *used = 2 * edge + random.below(2) as u32;
        }
    }
}

/// So many parameters within a range, fewer where it has not as many. They
/// rise, and begin and end now and then at its ends; of twelve rows four have
/// a place where they may not rise.
fn parameters(random: &mut Random, (t0, t1): (f64, f64), count: usize) -> Vec<f64> {
    let share = |part: usize, random: &mut Random| {
        let share = (16 * part + random.below(16)) as f64 / (16 * count.max(1)) as f64;
        (t0 + (t1 - t0) * share).clamp(t0, t1)
    };
    let mut ts: Vec<f64> = (0..count).map(|part| share(part, random)).collect();
    if random.once_in(4) {
        let mut t = share(random.below(count.max(1)), random);
        ts.fill_with(|| {
            t = t.next_up().min(t1);
            t
        });
    }
    if !random.once_in(16) {
        ts.dedup();
    }
    let ends = [random.once_in(4), random.once_in(4)];
    if let (true, Some(first)) = (ends[0], ts.first_mut()) {
        *first = t0;
    }
    if let (true, Some(last)) = (ends[1], ts.last_mut()) {
        *last = t1;
    }
    let place = random.below(ts.len().max(1));
    match (random.below(12), ts.get(place).copied()) {
        (0, Some(t)) => ts.insert(place, t),
        (1, Some(t)) => ts.insert(place, t.next_up().min(t1)),
        (2, Some(_)) if place > 0 => ts.swap(place - 1, place),
        (3, Some(_)) if t0 <= 0.0 && 0.0 <= t1 => {
            ts.retain(|&t| t != 0.0);
            let zeros = random.pick(&[[-0.0, 0.0], [0.0, -0.0], [0.0, 0.0], [-0.0, -0.0]]);
            let above = ts.partition_point(|&t| t < 0.0);
            ts.splice(above..above, zeros);
        }
        _ => {}
    }
    ts
}

/// Moves some cut just out of the edge's range, where there is one.
fn move_past_range(random: &mut Random, input: &mut CutEdge) {
    let mut rows = input.lent.tables.edge_floats.chunks_exact(EDGE_FLOATS);
    let floats = rows.nth(input.edge as usize);
    let row = random.below((input.cuts.len() / CUT).max(1));
    if let (Some(floats), Some(t)) = (floats, input.cuts.get_mut(row * CUT)) {
        let [t0, t1] = [4, 5].map(|cell| f64::from_bits(floats[cell]));
        *t = random.pick(&[t0.next_down(), t1.next_up()]).to_bits();
    }
}

/// Makes the parameters of two neighbours equal, or exchanges them.
fn disorder(random: &mut Random, input: &mut CutEdge) {
    let rows = input.cuts.len() / CUT;
    if rows < 2 {
        return;
    }
    let first = random.below(rows - 1) * CUT;
    match random.once_in(2) {
        true => input.cuts[first + CUT] = input.cuts[first],
        false => input.cuts.swap(first, first + CUT),
    }
}

/// Shows one shell with every edge cut at a row of parameters, in turn another
/// one, in buffers of just the result's length and, in turn, with one buffer a
/// cell shorter. Then without a cut, in buffers of just the shell's length,
/// and with an edge that is not there.
fn each_row(shell: &Shell, turn: usize, visit: &mut dyn FnMut(&SeveralCuts) -> bool) -> bool {
    let every = (0..shell.edges.len() as u32).all(|edge| {
        let range = shell.edges[edge as usize].curve.range();
        let cuts = points(&row(range, turn / 8 + edge as usize), turn);
        let input = SeveralCuts::exact(shell, edge, &cuts, turn);
        visit(&input) && visit(&one_shorter(&input, turn))
    });
    let edges = shell.edges.len() as u32;
    let mut none = SeveralCuts::exact(shell, turn as u32 % edges.max(1), &[], turn);
    let missing = points(&[0.0, 1.0], turn);
    let mut strange = SeveralCuts::exact(shell, edges, &missing[..turn % 3], turn);
    every && visit(&none) && visit(&strange) && {
        none.0.cuts.push(f64::NAN.to_bits());
        strange.0.cut_count = 65;
        visit(&none) && visit(&strange)
    }
}

/// Rows of parameters that are gone through in turn: most rise, where the
/// range has as many.
fn row((t0, t1): (f64, f64), turn: usize) -> Vec<f64> {
    let middle = (t0 + t1) / 2.0;
    let [low, high] = [(t0 + middle) / 2.0, (middle + t1) / 2.0];
    match turn % 12 {
        0 => vec![t0, t1],
        1 => vec![t0, middle, t1],
        2 => vec![low, high],
        3 => vec![low, middle, high],
        4 => vec![t0, low, middle, high],
        5 => vec![low, middle, t1],
        6 => vec![middle],
        7 => vec![t1, t0],
        8 => vec![middle, middle],
        9 => vec![middle, middle.next_up().min(t1)],
        10 => vec![low, high, middle],
        _ => vec![t0, low, middle, high, t1],
    }
}

/// Cuts at these parameters, each with a point of its own.
fn points(ts: &[f64], turn: usize) -> Vec<[f64; CUT]> {
    let cut = |(row, &t): (usize, &f64)| {
        let mut point = [turn as f64, -0.0, 0.5 + row as f64];
        point.rotate_left(turn % 3);
        [t, point[0], point[1], point[2]]
    };
    ts.iter().enumerate().map(cut).collect()
}

/// The same input with one of its buffers, in turn, a cell shorter.
fn one_shorter(input: &SeveralCuts, turn: usize) -> SeveralCuts {
    let (mut shorter, mut sizes) = (input.clone(), input.0.lent.sizes());
    match sizes.get_mut(turn % 7) {
        Some(size) => *size = size.saturating_sub(1),
        None => shorter.0.cuts.truncate(input.0.cuts.len() - 1),
    }
    shorter.0.lent.shorten(sizes);
    shorter
}

impl Families for SeveralCuts {
    fn limits() -> Vec<Case<Self>> {
        limits::cases()
    }

    fn small(visit: &mut dyn FnMut(&Self) -> bool) {
        small::each_shell(&mut |shell, turn| each_row(shell, turn, visit));
    }

    fn random(random: &mut Random) -> Self {
        let (sizes, count) = (any_sizes(random), any_cuts(random));
        SeveralCuts::made(random, sizes, count)
    }

    fn damaged(random: &mut Random) -> Self {
        let sizes = match random.once_in(32) {
            true => any_sizes(random),
            false => little_sizes(random),
        };
        let count = any_cuts(random);
        let mut input = SeveralCuts::made(random, sizes, count);
        for _ in 0..1 + random.below(3) {
            input.damage(random);
        }
        input
    }

    fn noise(random: &mut Random) -> Self {
        SeveralCuts(CutEdge::noisy(random, 16, &[1, 2, 2, 3]))
    }

    /// From two cuts on the Rust's own call comes apart. Two witnesses say what
    /// should be: document 02 written down, and the Rust's one cut, made from
    /// the last cut to the first. They must agree in every bit.
    #[cfg(rust_at_hand)]
    fn expected(&self) -> Expected<Self> {
        use crate::{chain, healing, model};
        let (lent, cuts) = (&self.0.lent, self.0.all_cuts());
        if let Some(number) = model::several_cuts::several_refused(lent, &cuts) {
            return Expected::unchanged(self, number);
        }
        let rows = self.0.cuts.chunks_exact(CUT).take(cuts.count);
        let places: Vec<[f64; CUT]> = rows
            .map(|cells| [0, 1, 2, 3].map(|cell| f64::from_bits(cells[cell])))
            .collect();
        let shell = lent.read();
        let written = chain::cut(&shell, cuts.edge, &places);
        let counts = model::cut::cut_counts(lent, &cuts);
        assert_eq!(written.counts(), counts, "counts of the result");
        if model::cause_6(lent, counts) {
            return Expected::unchanged(self, 6);
        }
        let done = self.done(&written);
        let rust = healing::cut_from_last(&shell, cuts.edge, &places);
        assert!(done == self.done(&rust), "the Rust's one cut over and over");
        done
    }
}
