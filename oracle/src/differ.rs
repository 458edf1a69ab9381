//! The differential run: groups of inputs for each call, every one of them
//! held against the Rust.

use crate::calls::cut_edge::CutEdge;
use crate::calls::find_divisor::FindDivisor;
use crate::calls::join_wires::JoinWires;
use crate::calls::nearest_correction::NearestEnds;
use crate::calls::several_cuts::SeveralCuts;
use crate::calls::sort_wires::SortWires;
use crate::calls::split_closed_edges::SplitClosed;
use crate::calls::split_wires::SplitWires;
use crate::calls::Families;
use crate::compare::Tally;
use crate::port::{CutParameter, NearestCopy, Port, Unwrap, WireEnds};
use crate::random::Random;
use std::collections::BTreeMap;
use std::num::NonZero;
use std::ops::Range;
use std::sync::atomic::{AtomicUsize, Ordering};
use std::{sync::mpsc, thread};

/// A family of inputs.
#[derive(Clone, Copy, Debug, PartialEq, Eq)]
pub enum Group {
    Random,
    Small,
    Limits,
    Damaged,
    Noise,
}

impl Group {
    /// All groups, in the order in which they are run.
    pub const ALL: [Group; 5] = [
        Group::Limits,
        Group::Small,
        Group::Random,
        Group::Damaged,
        Group::Noise,
    ];

    /// Whether there are as many inputs of this group as one likes.
    pub fn is_random(self) -> bool {
        matches!(self, Group::Random | Group::Damaged | Group::Noise)
    }

    /// The name on the command line and in the summary.
    pub fn name(self) -> &'static str {
        match self {
            Group::Random => "random",
            Group::Small => "small",
            Group::Limits => "limits",
            Group::Damaged => "damaged",
            Group::Noise => "noise",
        }
    }
}

/// How a run is made.
#[derive(Clone, Copy)]
pub struct Plan {
    pub seed: u64,
    /// Calls in each of the random groups of `split_closed_edges`; other
    /// calls are made some times as often.
    pub calls: usize,
    /// Whether a group ends with the first difference.
    pub hasty: bool,
}

/// One of the calls, with the way to run a group of it.
#[derive(Clone, Copy)]
pub struct Runner {
    pub name: &'static str,
    pub run: fn(&dyn Port, Group, Plan) -> Tally,
    /// Runs the inputs of a random group that have these indices under a seed.
    pub run_part: fn(&dyn Port, Group, u64, Range<usize>) -> Tally,
    /// The answers and results that a whole run must have seen and has not.
    pub unseen: fn(&Tally) -> Vec<String>,
}

/// The runner of a call.
const fn runner<I: Families>() -> Runner {
    Runner {
        name: I::NAME,
        run: run::<I>,
        run_part: run_part::<I>,
        unseen: Tally::unseen::<I>,
    }
}

/// All calls, in the order in which they are run.
pub const CALLS: [Runner; 12] = [
    runner::<SplitClosed>(),
    runner::<CutParameter>(),
    runner::<Unwrap>(),
    runner::<NearestCopy>(),
    runner::<WireEnds>(),
    runner::<SortWires>(),
    runner::<NearestEnds>(),
    runner::<FindDivisor>(),
    runner::<CutEdge>(),
    runner::<SeveralCuts>(),
    runner::<JoinWires>(),
    runner::<SplitWires>(),
];

/// How an input of a random group is made.
fn maker<I: Families>(group: Group) -> Option<fn(&mut Random) -> I> {
    match group {
        Group::Random => Some(I::random),
        Group::Damaged => Some(I::damaged),
        Group::Noise => Some(I::noise),
        Group::Small | Group::Limits => None,
    }
}

/// The input of a random group that has this index under a seed.
fn made<I: Families>(make: fn(&mut Random) -> I, group: Group, seed: u64, index: usize) -> I {
    let random = &mut Random::new(seed, group as u64, (index / I::ROW) as u64);
    make(random).at(index % I::ROW)
}

/// Every group of every call, in order.
pub fn every(calls: &[Runner], groups: &[Group]) -> Vec<(Runner, Group)> {
    let of = |&call| groups.iter().map(move |&group| (call, group));
    calls.iter().flat_map(of).collect()
}

/// Runs groups of calls on all cores. `tell` is shown the place of each and
/// what came of it, in order.
pub fn run_all(
    port: &dyn Port,
    runs: &[(Runner, Group)],
    plan: Plan,
    tell: &mut dyn FnMut(usize, Tally),
) {
    let next = AtomicUsize::new(0);
    let (sender, done) = mpsc::channel();
    let work = |sender: mpsc::Sender<(usize, Tally)>| loop {
        let place = next.fetch_add(1, Ordering::Relaxed);
        let Some((call, group)) = runs.get(place) else {
            return;
        };
        let tally = (call.run)(port, *group, plan);
        if sender.send((place, tally)).is_err() {
            return;
        }
    };
    thread::scope(|scope| {
        let work = &work;
        for sender in vec![sender; thread::available_parallelism().map_or(1, NonZero::get)] {
            scope.spawn(move || work(sender));
        }
        let (mut early, mut told) = (BTreeMap::new(), 0);
        for (place, tally) in done {
            early.insert(place, tally);
            while let Some(tally) = early.remove(&told) {
                tell(told, tally);
                told += 1;
            }
        }
    });
}

/// Runs one group of one call.
fn run<I: Families>(port: &dyn Port, group: Group, plan: Plan) -> Tally {
    if group == Group::Limits {
        return run_limits::<I>(port, plan);
    }
    let mut tally = Tally::default();
    let mut judge = |input: &I| {
        tally.judge(port, input, &input.expected());
        !(plan.hasty && tally.differences > 0)
    };
    match maker::<I>(group) {
        None => I::small(&mut judge),
        Some(make) => {
            for index in 0..plan.calls * I::TIMES {
                if !judge(&made(make, group, plan.seed, index)) {
                    break;
                }
            }
        }
    }
    tally
}

/// Runs a part of a random group of one call.
fn run_part<I: Families>(port: &dyn Port, group: Group, seed: u64, indices: Range<usize>) -> Tally {
    let make = maker::<I>(group).expect("a random group");
    let mut tally = Tally::default();
    for index in indices.clone() {
        let input = made(make, group, seed, index);
        tally.judge(port, &input, &input.expected());
    }
    if let Some(found) = &mut tally.smallest {
        found.index += indices.start;
    }
    tally
}

/// Runs the named cases: their written answers must be the Rust's as well.
fn run_limits<I: Families>(port: &dyn Port, plan: Plan) -> Tally {
    let mut tally = Tally::default();
    for case in I::limits() {
        if case.input.expected() != case.expected {
            let what = format!("{}: the Rust disagrees with the written answer", case.name);
            tally.note(&case.input, what);
        }
        tally.judge(port, &case.input, &case.expected);
        if plan.hasty && tally.differences > 0 {
            break;
        }
    }
    tally
}
