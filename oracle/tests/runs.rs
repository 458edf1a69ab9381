//! Runs in which nothing may differ.

use oracle::differ::{every, run_all, Group, Plan, CALLS};
use oracle::port::Port;

/// No group of these differs in any call.
pub fn do_not_differ(port: &dyn Port, groups: &[Group], plan: Plan) {
    let runs = every(&CALLS, groups);
    run_all(port, &runs, plan, &mut |place, tally| {
        let (call, group) = &runs[place];
        let what = tally.smallest.map(|found| found.what);
        assert_eq!(what, None, "{} {}", call.name, group.name());
    });
}
