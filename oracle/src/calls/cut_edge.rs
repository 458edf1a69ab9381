//! The cut of an edge where something crosses it, and the mending of wires.

mod limits;

use super::split_closed_edges::SHELL;
use super::Families;
use crate::cells::{Cells, Kind, Slice};
use crate::compare::{read, Case, Expected, Input, Lending};
use crate::inputs::{any_count, any_sizes, damage, lend_for, little_sizes, noise, Sizes};
use crate::inputs::{float, shell, spoil_float, spoil_one_of};
use crate::model::cut::{Cuts, CUT};
use crate::port::{Cut, Port};
use crate::random::Random;
use crate::records::Shell;
use crate::shell::{float_poison, needed, Lent, EDGE_FLOATS};
use crate::{describe, small};
use std::fmt::Write as _;

/// What a call is lent.
#[derive(Clone, Debug, PartialEq, Eq)]
pub struct CutEdge {
    pub lent: Lent,
    pub cuts: Vec<u64>,
    pub edge: u32,
    pub cut_count: usize,
}

/// The floats of a cut.
const CELLS: [&str; CUT] = ["t", "x", "y", "z"];

impl Input for CutEdge {
    const NAME: &'static str = "cut_edge_by_intersections";
    const NUMBER: u64 = 8;
    const ANSWERS: &'static [i32] = &[0, 1, 2, 3, 4, 5, 6, 14];
    const SCALARS: usize = 5;
    const SLICES: &'static [Lending] = &{
        let [a, b, c, d, e, f] = SHELL;
        [a, b, c, d, e, f, read("cuts", Kind::Float)]
    };
    const OUT: (Kind, usize) = (Kind::Count, 3);

    fn scalars(&self) -> Vec<u64> {
        let mut scalars = self.lent.scalars();
        scalars.extend([self.edge.into(), self.cut_count as u64]);
        scalars
    }

    fn slices(&self) -> Vec<Cells> {
        let mut slices = self.lent.slices();
        slices.push(Cells::Floats(self.cuts.clone()));
        slices
    }

    fn put_together(scalars: &[u64], mut slices: Vec<Cells>) -> Result<Self, String> {
        let cuts = slices.pop().expect("seven slices").floats();
        Ok(CutEdge {
            lent: Lent::put_together(&scalars[..3], slices),
            cuts,
            edge: u32::try_from(scalars[3]).map_err(|_| "an edge number is too large")?,
            cut_count: scalars[4] as usize,
        })
    }

    fn ask(&self, port: &dyn Port, slices: Vec<Slice<'_>>, out: Slice<'_>) -> i32 {
        port.cut_edge_by_intersections(self.call(slices, out))
    }

    fn describe(&self) -> String {
        let (edge, count, cells) = (self.edge, self.cut_count, self.cuts.len());
        let mut text = format!("edge {edge}, {count} cuts of {cells} cells\n");
        for (row, cut) in self.cuts.chunks_exact(CUT).enumerate().take(count) {
            let cut = describe::floats(&CELLS, cut);
            let _ = writeln!(text, "  cut {row}: {cut}");
        }
        text + "  " + &describe::lent(&self.lent)
    }
}

impl CutEdge {
    /// The call over the given slices and out places.
    pub(super) fn call<'a>(&self, slices: Vec<Slice<'a>>, out: Slice<'a>) -> Cut<'a> {
        let mut slices = slices.into_iter();
        let mut next = || slices.next().expect("seven slices");
        Cut {
            pass: self.lent.pass(&mut next, out.counts()),
            cuts: next().floats(),
            edge: self.edge,
            cut_count: self.cut_count,
        }
    }

    /// Tables and wires with cuts that are lent in full.
    pub(super) fn over(lent: Lent, edge: u32, cuts: &[[f64; CUT]]) -> CutEdge {
        let cells = cuts.iter().flatten().map(|float| float.to_bits());
        CutEdge {
            lent,
            cuts: cells.collect(),
            edge,
            cut_count: cuts.len(),
        }
    }

    /// A shell with one cut in buffers of just the result's length.
    fn exact(shell: &Shell, edge: u32, cut: [f64; CUT], turn: usize) -> CutEdge {
        let sizes = needed(result_counts(shell, edge, 1), shell.wires.len());
        let lent = Lent::holding(shell, sizes, &mut Random::new(1, 8, turn as u64));
        CutEdge::over(lent, edge, &[cut])
    }

    /// The cuts, as the model takes them.
    pub(super) fn all_cuts(&self) -> Cuts<'_> {
        Cuts {
            cuts: &self.cuts,
            count: self.cut_count,
            edge: self.edge,
        }
    }

    /// Noise: two cells of cuts and fewer than `cells` more, and a count of cuts
    /// that is one of `counts` or any.
    pub(super) fn noisy(random: &mut Random, cells: usize, counts: &[usize]) -> Self {
        let lent = noise(random);
        let small = random.once_in(2);
        let cell = |random: &mut Random| match small && !random.once_in(32) {
            true => (random.below(4) as f64).to_bits(),
            false => random.word(),
        };
        let cells = 2 + random.below(cells);
        let [any, other] = [0; 2].map(|_| any_count(random));
        CutEdge {
            lent,
            cuts: (0..cells).map(|_| cell(random)).collect(),
            edge: random.pick(&[0, 0, 1, any as u32]),
            cut_count: random.pick(&[counts, &[other]].concat()),
        }
    }

    /// A call that is done, and the shell that stands there afterwards.
    pub(super) fn done(&self, after: &Shell) -> Expected<Self> {
        let mut expected = self.clone();
        expected.lent.write(after);
        Expected {
            answer: 0,
            out: after.counts().map(|count| count as u64).to_vec(),
            after: expected,
        }
    }

    /// A random shell of the given sizes, mostly with an edge and one cut.
    pub fn made(random: &mut Random, mut sizes: Sizes) -> CutEdge {
        if !random.once_in(16) {
            (sizes.vertices, sizes.edges) = (sizes.vertices.max(1), sizes.edges.max(1));
        }
        let shell = shell(random, &sizes);
        let used: Vec<u32> = shell.wires.concat();
        let edges = shell.edges.len();
        let edge = match random.below(16) {
            0 => edges as u32,
            1..=10 if !used.is_empty() => random.pick(&used) / 2,
            _ => random.below(edges.max(1)) as u32,
        };
        let count = random.pick(&[0, 1, 1, 1, 1, 1, 1, 1, 1, 1, 2, 3]);
        let range = match shell.edges.get(edge as usize) {
            Some(edge) => edge.curve.range(),
            None => (0.0, 1.0),
        };
        let cuts: Vec<[f64; CUT]> = (0..count).map(|_| cut(random, range)).collect();
        let result = result_counts(&shell, edge, count.min(1));
        let lent = lend_for(random, &shell, result);
        let mut input = CutEdge::over(lent, edge, &cuts);
        let spare = (0..random.below(6)).map(|_| float_poison(random));
        input.cuts.extend(spare);
        input
    }

    /// Spoils one thing.
    fn damage(&mut self, random: &mut Random) {
        let short = self.cuts.len().saturating_sub(1 + random.below(4));
        match random.below(12) {
            0..=4 => damage(random, &mut self.lent),
            5 => self.edge = random.pick(&[0, 1, 2, 4, 4096, u32::MAX]),
            6 => spoil_one_of(random, [&mut self.cut_count]),
            7 => self.cuts.truncate(short),
            8 => self.cut_count = random.pick(&[0, 2]),
            9 => self.move_past_range(random),
            _ => spoil_float(random, &mut self.cuts),
        }
    }

    /// Moves the first cut just out of the edge's range, where there is one.
    fn move_past_range(&mut self, random: &mut Random) {
        let tables = &self.lent.tables;
        let floats = tables
            .edge_floats
            .chunks_exact(EDGE_FLOATS)
            .nth(self.edge as usize);
        if let (Some(floats), Some(t)) = (floats, self.cuts.first_mut()) {
            let [t0, t1] = [4, 5].map(|cell| f64::from_bits(floats[cell]));
            *t = random.pick(&[t0.next_down(), t1.next_up()]).to_bits();
        }
    }
}

/// What a shell counts after so many cuts.
pub(super) fn result_counts(shell: &Shell, edge: u32, cuts: usize) -> [usize; 3] {
    let uses = shell.wires.iter().flatten();
    let used = uses.filter(|&&number| number / 2 == edge).count();
    let [vertices, edges, uses] = shell.counts();
    [vertices + cuts, edges + cuts, uses + cuts * used]
}

/// A cut of a curve: often at an end of its range.
fn cut(random: &mut Random, (t0, t1): (f64, f64)) -> [f64; CUT] {
    let share = random.below(1024) as f64 / 1024.0;
    let inner = (t0 + (t1 - t0) * share).clamp(t0, t1);
    let t = random.pick(&[t0, t1, inner, inner, inner]);
    [t, float(random), float(random), float(random)]
}

/// Shows one shell with every edge cut at t0, at t1 and in the middle, each in
/// buffers of just the result's length; with the cut in the middle also with
/// each buffer in turn one cell shorter. Then with an edge that is not there,
/// and, in buffers of just the shell's length, with no cut and with two.
fn each_cut(shell: &Shell, turn: usize, visit: &mut dyn FnMut(&CutEdge) -> bool) -> bool {
    let mut point = [turn as f64, -0.0, 0.5];
    point.rotate_left(turn % 3);
    let at = |t: f64| [t, point[0], point[1], point[2]];
    let every = (0..shell.edges.len() as u32).all(|edge| {
        let (t0, t1) = shell.edges[edge as usize].curve.range();
        let middle = CutEdge::exact(shell, edge, at((t0 + t1) / 2.0), turn);
        visit(&CutEdge::exact(shell, edge, at(t0), turn))
            && visit(&CutEdge::exact(shell, edge, at(t1), turn))
            && each_room(&middle, visit)
    });
    let edges = shell.edges.len() as u32;
    let mut input = CutEdge::exact(shell, edges, at(0.0), turn);
    let strange = every && visit(&input);
    let sizes = needed(shell.counts(), shell.wires.len());
    input.lent.shorten(sizes);
    (input.edge, input.cut_count) = (turn as u32 % edges.max(1), 0);
    let mut twice = input.clone();
    twice.cuts.extend(at(0.0).map(f64::to_bits));
    twice.cut_count = 2;
    strange && visit(&input) && visit(&twice)
}

/// Shows one input, and then with each of its buffers one cell shorter.
fn each_room(input: &CutEdge, visit: &mut dyn FnMut(&CutEdge) -> bool) -> bool {
    let sizes = input.lent.sizes();
    let shorter = |short: usize| {
        let mut input = input.clone();
        let mut less = sizes;
        match less.get_mut(short) {
            Some(size) => *size -= 1,
            None => input.cuts.truncate(CUT - 1),
        }
        input.lent.shorten(less);
        input
    };
    let filled = |&short: &usize| short == sizes.len() || sizes[short] > 0;
    visit(input)
        && (0..=sizes.len())
            .filter(filled)
            .all(|short| visit(&shorter(short)))
}

impl Families for CutEdge {
    fn limits() -> Vec<Case<Self>> {
        limits::cases()
    }

    fn small(visit: &mut dyn FnMut(&Self) -> bool) {
        small::each_shell(&mut |shell, turn| each_cut(shell, turn, visit));
    }

    fn random(random: &mut Random) -> Self {
        let sizes = any_sizes(random);
        CutEdge::made(random, sizes)
    }

    fn damaged(random: &mut Random) -> Self {
        let sizes = match random.once_in(32) {
            true => any_sizes(random),
            false => little_sizes(random),
        };
        let mut input = CutEdge::made(random, sizes);
        for _ in 0..1 + random.below(3) {
            input.damage(random);
        }
        input
    }

    fn noise(random: &mut Random) -> Self {
        CutEdge::noisy(random, 12, &[1, 1, 1])
    }

    #[cfg(rust_at_hand)]
    fn expected(&self) -> Expected<Self> {
        use crate::{healing, model};
        let cuts = self.all_cuts();
        if let Some(number) = model::cut::cut_refused(&self.lent, &cuts) {
            return Expected::unchanged(self, number);
        }
        let shell = self.lent.read();
        let result = match self.cuts.chunks_exact(CUT).take(self.cut_count).next() {
            Some(cut) => {
                let cut = [0, 1, 2, 3].map(|cell| f64::from_bits(cut[cell]));
                healing::cut(&shell, self.edge, &[cut])
            }
            None => shell,
        };
        let counts = model::cut::cut_counts(&self.lent, &cuts);
        assert_eq!(result.counts(), counts, "counts of the result");
        match model::cause_6(&self.lent, counts) {
            true => Expected::unchanged(self, 6),
            false => self.done(&result),
        }
    }
}
