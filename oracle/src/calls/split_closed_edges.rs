//! The closed-edge pass.

use super::cut_parameter::{any_k, k, range};
use super::Families;
use crate::cells::{Cells, Kind, Slice};
use crate::compare::{written, Case, Input, Lending};
use crate::port::{Closed, Pass, Port};
use crate::random::Random;
use crate::records::Edge;
use crate::shell::{Lent, Tables, NAMES, VERTEX_FLOATS};
use crate::{describe, inputs, limits, small};

/// The k of document 01's middle.
pub const MIDDLE: u32 = 4;

/// What a call is lent.
#[derive(Clone, Debug, PartialEq, Eq)]
pub struct SplitClosed {
    pub lent: Lent,
    pub k: u32,
}

/// The slices of a call over a shell.
pub const SHELL: [Lending; 6] = [
    written(NAMES[0], Kind::Number),
    written(NAMES[1], Kind::Float),
    written(NAMES[2], Kind::Number),
    written(NAMES[3], Kind::Float),
    written(NAMES[4], Kind::Number),
    written(NAMES[5], Kind::Number),
];

impl Lent {
    /// The counts, as plain arguments of a call.
    pub fn scalars(&self) -> Vec<u64> {
        [self.tables.vertices, self.tables.edges, self.wires]
            .map(|count| count as u64)
            .to_vec()
    }

    /// What the six slices hold.
    pub fn slices(&self) -> Vec<Cells> {
        let mut slices = self.tables.slices();
        slices.push(Cells::Numbers(self.uses.clone()));
        slices.push(Cells::Numbers(self.lengths.clone()));
        slices
    }

    /// Tables and wires of three counts and six slices.
    pub fn put_together(counts: &[u64], slices: Vec<Cells>) -> Lent {
        let [vertices, edges, wires] = [0, 1, 2].map(|i| counts[i] as usize);
        let mut slices = slices.into_iter();
        let mut next = || slices.next().expect("six slices");
        Lent {
            tables: Tables::put_together([vertices, edges], &mut next),
            uses: next().numbers(),
            lengths: next().numbers(),
            wires,
        }
    }

    /// The next six slices as this shell.
    pub fn pass<'a>(&self, next: &mut impl FnMut() -> Slice<'a>, out: &'a mut [usize]) -> Pass<'a> {
        Pass {
            vertex_numbers: next().numbers(),
            vertex_floats: next().floats(),
            edge_numbers: next().numbers(),
            edge_floats: next().floats(),
            uses: next().numbers(),
            lengths: next().numbers(),
            vertices: self.tables.vertices,
            edges: self.tables.edges,
            wires: self.wires,
            out,
        }
    }
}

impl Input for SplitClosed {
    const NAME: &'static str = "split_closed_edges";
    const NUMBER: u64 = 1;
    const ANSWERS: &'static [i32] = &[0, 1, 2, 3, 4, 5, 6, 18];
    const SCALARS: usize = 4;
    const SLICES: &'static [Lending] = &SHELL;
    const OUT: (Kind, usize) = (Kind::Count, 3);

    fn scalars(&self) -> Vec<u64> {
        let mut scalars = self.lent.scalars();
        scalars.push(self.k.into());
        scalars
    }

    fn slices(&self) -> Vec<Cells> {
        self.lent.slices()
    }

    fn put_together(scalars: &[u64], slices: Vec<Cells>) -> Result<Self, String> {
        Ok(SplitClosed {
            lent: Lent::put_together(&scalars[..3], slices),
            k: u32::try_from(scalars[3]).map_err(|_| "k is too large")?,
        })
    }

    fn ask(&self, port: &dyn Port, slices: Vec<Slice<'_>>, out: Slice<'_>) -> i32 {
        let mut slices = slices.into_iter();
        let mut next = || slices.next().expect("six slices");
        port.split_closed_edges(Closed {
            pass: self.lent.pass(&mut next, out.counts()),
            k: self.k,
        })
    }

    fn describe(&self) -> String {
        format!("k {}, {}", self.k, describe::lent(&self.lent))
    }

    /// Every vertex that is added is pending within the range of its curve.
    fn breach(&self, answer: i32, out: &[u64], after: &[Cells]) -> Option<&'static str> {
        if answer != 0 || out[0] as usize <= self.lent.tables.vertices {
            return None;
        }
        let [_, Cells::Floats(floats), ..] = after else {
            return Some("the vertex floats are no floats");
        };
        let rows = floats.chunks_exact(VERTEX_FLOATS).take(out[0] as usize);
        let within = |row: &[u64]| {
            let [t0, t1, t] = [4, 5, 6].map(|cell| f64::from_bits(row[cell]));
            t0 <= t && t <= t1
        };
        let mut added = rows.skip(self.lent.tables.vertices);
        (!added.all(within)).then_some("a cut leaves the range of its curve")
    }
}

impl SplitClosed {
    /// The call that cuts in the middle.
    pub fn in_the_middle(lent: Lent) -> SplitClosed {
        SplitClosed { lent, k: MIDDLE }
    }

    /// The plain pass gives what the Rust gives over curves that name the
    /// parameter in place of their range.
    #[cfg(rust_at_hand)]
    fn hold(&self, expected: &crate::compare::Expected<Self>) {
        use crate::compare::difference;
        use crate::reference::Reference;
        let (_, what) = difference(&Reference::default(), self, expected);
        assert_eq!(what, None, "the plain pass");
    }
}

/// Gives some of the edges ranges in which eighths are hard to tell apart.
fn harden(random: &mut Random, edges: &mut [Edge]) {
    let share = random.below(3);
    for edge in edges {
        if random.below(4) < share {
            let (t0, t1) = range(random);
            edge.curve = edge.curve.over(t0, t1);
        }
    }
}

impl Families for SplitClosed {
    fn limits() -> Vec<Case<Self>> {
        limits::cases()
    }

    fn small(visit: &mut dyn FnMut(&Self) -> bool) {
        small::each(visit);
    }

    fn random(random: &mut Random) -> Self {
        let sizes = inputs::any_sizes(random);
        let mut shell = inputs::shell(random, &sizes);
        harden(random, &mut shell.edges);
        SplitClosed {
            lent: inputs::lend(random, &shell),
            k: k(random),
        }
    }

    fn damaged(random: &mut Random) -> Self {
        SplitClosed {
            lent: inputs::damaged(random),
            k: any_k(random),
        }
    }

    fn noise(random: &mut Random) -> Self {
        SplitClosed {
            lent: inputs::noise(random),
            k: any_k(random),
        }
    }

    #[cfg(rust_at_hand)]
    fn expected(&self) -> crate::compare::Expected<Self> {
        use crate::compare::Expected;
        use crate::{healing, model};
        let SplitClosed { lent, k } = self;
        if let Some(number) = model::eighths::pass_refused(lent, *k) {
            return Expected::unchanged(self, number);
        }
        let shell = lent.read();
        let result = healing::split(&shell, 1, *k);
        let counts = result.counts();
        assert_eq!(counts, model::result_counts(lent), "counts of the result");
        if model::cause_6(lent, counts) {
            return Expected::unchanged(self, 6);
        }
        let mut after = self.clone();
        after.lent.write(&result);
        if shell.wires.len() > 1 {
            let mut dealt = self.clone();
            dealt.lent.write(&healing::split(&shell, 3, *k));
            assert!(dealt == after, "wires dealt over several faces");
        }
        let expected = Expected {
            answer: 0,
            out: counts.map(|count| count as u64).to_vec(),
            after,
        };
        if *k != MIDDLE {
            self.hold(&expected);
        }
        expected
    }
}
