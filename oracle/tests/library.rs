//! The library itself: a short run over the groups of every call.

use crate::runs::do_not_differ;
use oracle::differ::{Group, Plan};
use oracle::library::Library;

/// The groups save the small one: it is always the same, and `oracle differ`
/// goes through it.
const GROUPS: [Group; 4] = [Group::Limits, Group::Random, Group::Damaged, Group::Noise];

#[test]
fn the_library_does_not_differ() {
    let plan = Plan {
        seed: 2,
        calls: 2000,
        hasty: true,
    };
    do_not_differ(&Library, &GROUPS, plan);
}
