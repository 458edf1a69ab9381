//! The search for a divisor of a non-simple wire.

use super::tables::{in_turn, make_pending, records, sample_edges, spans, spoil_pairs};
use super::tables::{Spoil, POINTS, SPOILS};
use super::Families;
use crate::cells::{Cells, Kind, Slice};
use crate::compare::{read, Case, Input, Lending, NONE};
use crate::describe;
use crate::inputs::{damage, noise};
use crate::port::{Port, Search, Wires};
use crate::random::Random;
use crate::records::{Edge, Shell, Vertex};
use crate::shell::{needed, Lent, NAMES};

/// What a call is lent.
#[derive(Clone, Debug, PartialEq, Eq)]
pub struct FindDivisor(pub Lent);

impl Input for FindDivisor {
    const NAME: &'static str = "find_non_simple_wire_divisor";
    const NUMBER: u64 = 7;
    const ANSWERS: &'static [i32] = &[0, NONE, 1, 2, 3, 4, 5, 7, 8];
    const SCALARS: usize = 3;
    const SLICES: &'static [Lending] = &[
        read(NAMES[0], Kind::Number),
        read(NAMES[1], Kind::Float),
        read(NAMES[2], Kind::Number),
        read(NAMES[3], Kind::Float),
        read(NAMES[4], Kind::Number),
        read(NAMES[5], Kind::Number),
    ];
    const OUT: (Kind, usize) = (Kind::Number, 2);

    fn scalars(&self) -> Vec<u64> {
        self.0.scalars()
    }

    fn slices(&self) -> Vec<Cells> {
        self.0.slices()
    }

    fn put_together(scalars: &[u64], slices: Vec<Cells>) -> Result<Self, String> {
        Ok(FindDivisor(Lent::put_together(scalars, slices)))
    }

    fn ask(&self, port: &dyn Port, slices: Vec<Slice<'_>>, out: Slice<'_>) -> i32 {
        let mut slices = slices.into_iter();
        let mut next = || slices.next().expect("six slices");
        port.find_non_simple_wire_divisor(Search {
            rows: self.0.tables.lent(&mut next),
            wires: Wires {
                uses: next().numbers(),
                lengths: next().numbers(),
                wires: self.0.wires,
            },
            out: out.numbers(),
        })
    }

    fn describe(&self) -> String {
        describe::lent(&self.0)
    }
}

impl FindDivisor {
    /// Records and wires in buffers of just their length.
    fn over(vertices: &[Vertex], edges: &[Edge], wires: &[Vec<u32>]) -> FindDivisor {
        let shell = Shell {
            vertices: vertices.to_vec(),
            edges: edges.to_vec(),
            wires: wires.to_vec(),
        };
        let sizes = needed(shell.counts(), wires.len());
        let random = &mut Random::new(7, 7, 7);
        FindDivisor(Lent::holding(&shell, sizes, random))
    }

    /// Random tables and wires, few of each where it shall be little.
    pub fn made(random: &mut Random, little: bool) -> FindDivisor {
        let (vertices, edges) = records(random, little);
        let wires = wires(random, edges.len(), little);
        let shell = Shell {
            vertices,
            edges,
            wires,
        };
        let least = needed(shell.counts(), shell.wires.len());
        let mut sizes = least.map(|size| size + random.below(3));
        if random.once_in(16) {
            let short = random.below(6);
            sizes[short] = least[short].saturating_sub(1);
        }
        FindDivisor(Lent::holding(&shell, sizes, random))
    }

    /// Random tables and wires with one to three damages.
    pub fn spoiled(random: &mut Random, little: bool) -> FindDivisor {
        let FindDivisor(mut lent) = FindDivisor::made(random, little);
        for _ in 0..1 + random.below(3) {
            damage(random, &mut lent);
        }
        FindDivisor(lent)
    }
}

/// Wires over so many edges.
fn wires(random: &mut Random, edges: usize, little: bool) -> Vec<Vec<u32>> {
    let count = match little || !random.once_in(16) {
        true => random.below(4),
        false => random.pick(&[1, 1, 2, 8, 63, 64, 65]),
    };
    let mut left = if random.once_in(64) { 1025 } else { 1024 };
    let mut one = || {
        let wire = any_wire(random, edges, little);
        let wire = wire[..wire.len().min(left)].to_vec();
        left -= wire.len();
        wire
    };
    (0..count).map(|_| one()).collect()
}

/// A wire of any uses, or one whose edges differ save in a few places.
fn any_wire(random: &mut Random, edges: usize, little: bool) -> Vec<u32> {
    if edges == 0 {
        return Vec::new();
    }
    let length = match random.below(16) {
        0 => random.below(2),
        1 if !little => random.below(1025),
        2 if !little => 64,
        _ if edges > 14 => random.below((edges + edges / 8).min(1025)),
        _ => random.below(if little { 8 } else { 14 }),
    };
    let any = |random: &mut Random| random.below(2 * edges) as u32;
    if random.once_in(4) {
        return (0..length).map(|_| any(random)).collect();
    }
    let first = random.below(edges);
    let rising = |place: usize| 2 * ((first + place) % edges) as u32;
    let mut wire: Vec<u32> = (0..length).map(rising).collect();
    for _ in 0..random.below(6).min(length) {
        let (from, to) = (random.below(length), random.below(length));
        wire[to] = wire[from];
    }
    let turn = |number: &mut u32| *number ^= random.below(2) as u32;
    wire.iter_mut().for_each(turn);
    wire
}

/// The sample's tables with wires in notation.
fn sample(wires: &[&str]) -> FindDivisor {
    FindDivisor::over(&POINTS, &sample_edges(), &crate::records::wires(wires))
}

/// K9's wire.
const K9: &str = "1+ 2+ 0+ 3+ 4+ 0-";

/// Results that are written out.
fn results() -> Vec<Case<FindDivisor>> {
    let gives = |name, wires: &[&str], found: [u64; 2]| Case::told(name, sample(wires), &found);
    let none = |name, wires: &[&str]| Case::unchanged(name, sample(wires), NONE);
    let past = |name, wires: &[&str]| Case::unchanged(name, sample(wires), 8);
    let nothing = FindDivisor(Lent::poisoned([0; 6], &mut Random::new(0, 0, 0)));
    vec![
        none("K6", &["0+ 1+ 2+"]),
        past("K7", &["0+ 1+ 0-"]),
        none("K8", &["0+ 0- 1+"]),
        gives("K9", &[K9], [3, 1]),
        Case::unchanged("nothing lent", nothing, NONE),
        none("no wires", &[]),
        none("empty wires", &["", "", ""]),
        none("one use", &["4-"]),
        past("an edge twice and no more", &["0+ 0-"]),
        past("an edge twice in one direction", &["0+ 0+"]),
        none("a pair at once, behind other uses", &["1+ 2+ 0+ 0-"]),
        past("K7, longer", &["1+ 0- 3+ 4+ 1-"]),
        // 0+ 1+ 0- 2+ once it is turned: nothing follows the second pair.
        gives("K7 with a use before it", &["2+ 0+ 1+ 0-"], [0, 1]),
        // Behind j0 = 2 the pair 3+ 4+ 3-: its stretch is 4+ alone.
        gives("two pairs", &["0+ 1+ 0- 3+ 4+ 3-"], [0, 3]),
        // Behind j0 = 2 the pair 3+ 3- with nothing between.
        none("an empty second stretch", &["0+ 1+ 0- 3+ 3-"]),
        // Edge 1 stood before j0 and counts as new behind it.
        gives("nothing remembered", &["0+ 1+ 0- 1- 3+ 4+"], [0, 1]),
        // The first pair is that of places 0 and 2.
        gives("an edge three times", &["0+ 1+ 0- 3+ 4+ 0+"], [0, 0]),
        // k0 = 1 of 0- 2+ 0+ 1+ is where v0 is read.
        gives("in the other direction", &["1+ 0- 2+ 0+"], [1, 0]),
    ]
}

/// Several wires: what is reached first decides.
fn several() -> Vec<Case<FindDivisor>> {
    let gives = |name, wires: &[&str]| Case::told(name, sample(wires), &[3, 1]);
    let none = |name, wires: &[&str]| Case::unchanged(name, sample(wires), NONE);
    let past = |name, wires: &[&str]| Case::unchanged(name, sample(wires), 8);
    vec![
        gives("an answer before 8", &[K9, "0+ 1+ 0-"]),
        past("8 before an answer", &["0+ 1+ 0-", K9]),
        gives("none, then an answer", &["0+ 0- 1+", "", K9]),
        past("none, then 8", &["0+ 1+ 2+", "0+ 1+ 0-"]),
        none("none twice", &["0+ 0- 1+", "0+ 1+ 2+"]),
        gives("the first of two answers", &[K9, "0+ 1+ 0- 3+ 4+ 3-"]),
        gives(
            "an answer in the last of 64 wires",
            &[&["0+"; 63][..], &[K9]].concat(),
        ),
        past(
            "8 in the last of 64 wires",
            &[&[""; 63][..], &["0+ 0-"]].concat(),
        ),
    ]
}

/// Refusals that are written out.
fn refusals() -> Vec<Case<FindDivisor>> {
    let no = |name, number, wires: &[&str], change: fn(&mut Lent)| {
        let mut input = sample(wires);
        change(&mut input.0);
        Case::unchanged(name, input, number)
    };
    let k7 = ["0+ 1+ 0-"];
    vec![
        no("65 wires", 1, &["0+"; 65], |_| {}),
        no("1025 uses", 1, &[&"0+ ".repeat(1025)], |_| {}),
        no("the largest wire count", 1, &[K9], |l| l.wires = usize::MAX),
        no("one use too few", 1, &[K9], |l| l.uses.truncate(5)),
        no("one length too few", 1, &[K9], |l| l.lengths.clear()),
        no("the largest length", 1, &[K9], |l| l.lengths[0] = u32::MAX),
        no("lengths that wrap", 1, &[K9, ""], |l| {
            l.lengths = vec![1 << 31, 1 << 31];
        }),
        no("a use at the edge count", 3, &[K9], |l| l.uses[5] = 12),
        no("the largest use", 3, &[K9], |l| l.uses[0] = u32::MAX),
        no("a bad use behind an answer", 3, &[K9, "0+"], |l| {
            l.uses[6] = 12;
        }),
        no("7 before 8", 7, &k7, |l| make_pending(&mut l.tables, 3)),
        no("7 before none", 7, &[""], |l| {
            make_pending(&mut l.tables, 3)
        }),
        no("3 before 7", 3, &k7, |l| {
            make_pending(&mut l.tables, 0);
            l.uses[0] = 12;
        }),
        no("3 before 8", 3, &["0+ 1+ 0-", "0+"], |l| l.uses[3] = 13),
        no("1 before 8", 1, &k7, |l| l.tables.edges = 4097),
    ]
}

/// The sample with something done to its tables.
fn spoils() -> Vec<Case<FindDivisor>> {
    let spoil = |&(name, number, change): &Spoil| {
        let mut input = sample(&[K9]);
        change(&mut input.0.tables);
        match number {
            0 => Case::told(name, input, &[3, 1]),
            _ => Case::unchanged(name, input, number),
        }
    };
    SPOILS.iter().map(spoil).collect()
}

/// Wires at the bound.
fn long_wires() -> Vec<Case<FindDivisor>> {
    let points = POINTS;
    let ends: Vec<(u32, u32)> = (0..1024).map(|edge| (edge % 4, (edge + 1) % 4)).collect();
    let edges = spans(&ends);
    let over = |wire: Vec<u32>| FindDivisor::over(&points, &edges, &[wire]);
    let mut rising: Vec<u32> = (0..1024).map(|edge| 2 * edge).collect();
    let simple = Case::unchanged("1024 uses, none twice", over(rising.clone()), NONE);
    rising[1023] = 1;
    let past = Case::unchanged("1024 uses, the last the first", over(rising.clone()), 8);
    rising[1023] = 3;
    // Turned by one, j0 = 1022: the stretches are edges 2 to 1022, from which
    // the fronts are 2, 3, 0, 1 and so on, and edge 0 with the front 0.
    let last = Case::told("1024 uses, the last the second", over(rising), &[0, 0]);
    vec![simple, past, last]
}

/// Wires of which every short list is gone through.
const PREPARED: [&str; 8] = [
    K9,
    "0+ 1+ 0-",
    "0+ 0- 1+",
    "",
    "0+ 1+ 2+",
    "0+ 0-",
    "2+ 0+ 1+ 0-",
    "0+ 1+ 0- 3+ 3-",
];

/// Ends of three edges for which every short wire is gone through.
const LAYOUTS: [[(u32, u32); 3]; 3] = [
    [(0, 1), (1, 2), (2, 3)],
    [(0, 0), (1, 2), (3, 1)],
    [(2, 2), (3, 3), (0, 0)],
];

/// Every list of up to `most` digits below `base`.
fn each_list(base: usize, most: u32, visit: &mut dyn FnMut(&[usize]) -> bool) -> bool {
    (0..=most).all(|length| {
        (0..base.pow(length)).all(|code| {
            let digit = |place: u32| code / base.pow(place) % base;
            let list: Vec<usize> = (0..length).map(digit).collect();
            visit(&list)
        })
    })
}

impl Families for FindDivisor {
    const TIMES: usize = 3;

    fn limits() -> Vec<Case<Self>> {
        [results(), several(), refusals(), spoils(), long_wires()]
            .into_iter()
            .flatten()
            .collect()
    }

    fn small(visit: &mut dyn FnMut(&Self) -> bool) {
        let spoiled = |changes: [fn(&mut crate::shell::Tables); 2]| {
            let mut input = sample(&[K9]);
            changes
                .iter()
                .for_each(|change| change(&mut input.0.tables));
            input
        };
        let all = spoil_pairs().all(|changes| visit(&spoiled(changes)));
        let of_wires = all
            && each_list(PREPARED.len(), 4, &mut |list| {
                let wires: Vec<&str> = list.iter().map(|&i| PREPARED[i]).collect();
                visit(&sample(&wires))
            });
        let _ = of_wires
            && LAYOUTS.iter().all(|ends| {
                let edges = in_turn(&spans(ends), 0);
                each_list(6, 5, &mut |list| {
                    let wire: Vec<u32> = list.iter().map(|&i| i as u32).collect();
                    visit(&FindDivisor::over(&POINTS, &edges, &[wire]))
                })
            });
    }

    fn random(random: &mut Random) -> Self {
        FindDivisor::made(random, false)
    }

    fn damaged(random: &mut Random) -> Self {
        FindDivisor::spoiled(random, false)
    }

    fn noise(random: &mut Random) -> Self {
        FindDivisor(noise(random))
    }

    #[cfg(rust_at_hand)]
    fn expected(&self) -> crate::compare::Expected<Self> {
        use crate::compare::Expected;
        use crate::healing::{find_divisor, PastEnd};
        use crate::model::search::{search_end, search_refused, End};
        if let Some(number) = search_refused(&self.0) {
            return Expected::unchanged(self, number);
        }
        let shell = self.0.read();
        let (end, expected) = match find_divisor(&shell) {
            Ok(Some(found)) => (End::Answer, Expected::told(self, &found.map(u64::from))),
            Ok(None) => (End::Nothing, Expected::unchanged(self, NONE)),
            Err(PastEnd) => (End::PastEnd, Expected::unchanged(self, 8)),
        };
        let modelled = search_end(&shell.wires);
        assert_eq!(end, modelled, "how the search ends");
        expected
    }
}
