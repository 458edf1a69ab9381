//! A long run of a call: after its named cases and its small inputs the random
//! groups go on in turn, always with fresh inputs, until it is enough.

use crate::compare::Tally;
use crate::differ::{Group, Plan, Runner};
use crate::options::Until;
use crate::port::Port;
use std::time::Instant;

/// Inputs of a random group that are gone through before it is another's turn.
const TURN: usize = 1000;

/// What is asked of each call.
pub struct LongRun<'a> {
    pub port: &'a dyn Port,
    pub seed: u64,
    pub groups: &'a [Group],
    pub until: Until,
}

impl LongRun<'_> {
    /// Runs a call; one of the groups is a random one. `tell` is shown each part as it is done: its group, what
    /// came of it, and what came of all parts so far.
    pub fn run(&self, call: &Runner, tell: &mut dyn FnMut(Group, &Tally, &Tally)) -> Tally {
        let start = Instant::now();
        let mut whole = Tally::default();
        let mut add = |group: Group, part: Tally| {
            whole.count(&part);
            tell(group, &part, &whole);
        };
        let (random, first): (Vec<Group>, Vec<Group>) =
            self.groups.iter().partition(|group| group.is_random());
        for group in first {
            let plan = Plan {
                seed: self.seed,
                calls: 0,
                hasty: false,
            };
            add(group, (call.run)(self.port, group, plan));
        }
        let mut done = 0;
        while let Some(more) = self.turn(done * random.len(), start) {
            let size = more.div_ceil(random.len());
            for &group in &random {
                let part = (call.run_part)(self.port, group, self.seed, done..done + size);
                add(group, part);
            }
            done += size;
        }
        whole
    }

    /// How many random inputs make the next turn of all groups, where so many
    /// are done; none where it is enough.
    fn turn(&self, done: usize, start: Instant) -> Option<usize> {
        match self.until {
            Until::Calls(calls) => Some(calls.saturating_sub(done).min(TURN)),
            Until::Seconds(seconds) => {
                let more = done == 0 || start.elapsed().as_secs_f64() < seconds;
                more.then_some(TURN)
            }
        }
        .filter(|&more| more > 0)
    }
}

#[cfg(test)]
mod tests {
    use super::{LongRun, TURN};
    use crate::differ::{Group, Runner, CALLS};
    use crate::options::Until;
    use crate::reference::Reference;
    use std::collections::BTreeMap;

    /// The runner of unwrapping.
    fn unwrapping() -> Runner {
        let mut calls = CALLS.into_iter();
        calls.find(|call| call.name == "get_mindiff").unwrap()
    }

    /// The calls of each group in a long run of unwrapping.
    fn run(groups: &[Group], until: Until) -> BTreeMap<&'static str, usize> {
        let run = LongRun {
            port: &Reference::default(),
            seed: 5,
            groups,
            until,
        };
        let mut calls = BTreeMap::new();
        let whole = run.run(&unwrapping(), &mut |group, part, _| {
            *calls.entry(group.name()).or_default() += part.calls;
        });
        assert_eq!(whole.differences, 0);
        assert_eq!(whole.calls, calls.values().sum());
        calls
    }

    #[test]
    fn as_many_calls_as_asked_after_the_fixed_groups() {
        let calls = run(&Group::ALL, Until::Calls(3500));
        assert!(calls["limits"] > 0 && calls["small"] > 0);
        let random = ["random", "damaged", "noise"].map(|name| calls[name]);
        assert!(random.iter().sum::<usize>() >= 3500 && random[0] == random[2]);
        assert!(random[0] < 3500 / 3 + 10);
        assert_eq!(run(&[Group::Noise], Until::Calls(1))["noise"], 1);
    }

    /// A port that takes the later one of two that are as near is found, and
    /// the index that is told makes the same input again.
    #[test]
    fn a_difference_is_told_with_its_index() {
        let mut wrong = Reference::default();
        wrong.near.wins = |new, old| new <= old;
        let run = LongRun {
            port: &wrong,
            seed: 5,
            groups: &[Group::Random],
            until: Until::Calls(20_000),
        };
        let mut last = None;
        let whole = run.run(&unwrapping(), &mut |_, part, _| {
            last = part.smallest.as_ref().map(|found| found.index).or(last);
        });
        let index = last.expect("a difference");
        assert!(whole.differences > 0 && index >= TURN);
        let again = (unwrapping().run_part)(&wrong, Group::Random, 5, index..index + 1);
        assert_eq!((again.calls, again.differences), (1, 1));
    }

    #[test]
    fn at_least_one_turn_in_a_short_time() {
        let calls = run(&[Group::Damaged], Until::Seconds(1.0e-9));
        assert_eq!(calls["damaged"], TURN);
    }
}
