//! That the comparison can fail: stand-ins that are wrong in one place each
//! are put where the library stands, and every one of them must be found.

use crate::runs::do_not_differ;
use crate::wrong::{cut, eighths, join, lists, pass, several_cuts, split, Mutant};
use oracle::calls::several_cuts::SeveralCuts;
use oracle::calls::split_closed_edges::SplitClosed;
use oracle::calls::split_wires::SplitWires;
use oracle::calls::Families;
use oracle::compare::breach;
use oracle::differ::{Group, Plan, Runner, CALLS};
use oracle::port::{CutParameter, Port};
use oracle::reference::Reference;

/// A run that is short enough, with so many calls in each random group.
fn plan(calls: usize) -> Plan {
    Plan {
        seed: 5,
        calls,
        hasty: true,
    }
}

/// Calls in each random group where no fewer are enough.
const MANY: usize = 3000;

/// What is tried on a mutant until it is found: a few random inputs, which are
/// enough for most, then the named cases, then many random inputs. The small
/// group is left out, which is long where nothing is found.
const TRIES: [(Group, usize); 6] = [
    (Group::Damaged, 20),
    (Group::Random, 20),
    (Group::Limits, 0),
    (Group::Damaged, MANY),
    (Group::Random, MANY),
    (Group::Noise, MANY),
];

/// The small group alone.
const SMALL: [(Group, usize); 1] = [(Group::Small, 0)];

/// The call of this name.
fn call(name: &str) -> Runner {
    let mut calls = CALLS.into_iter();
    calls.find(|call| call.name == name).expect("a call")
}

/// How many inputs of a group are gone through until a port is found wrong.
fn found_after(port: &dyn Port, call: Runner, group: Group, calls: usize) -> Option<usize> {
    let tally = (call.run)(port, group, plan(calls));
    (tally.differences > 0).then_some(tally.calls)
}

/// Every mutant of these lists is found by one of the tries of a call.
fn all_found(name: &str, tries: &[(Group, usize)], lists: Vec<Vec<Mutant>>) {
    let call = call(name);
    for (what, port) in lists.into_iter().flatten() {
        let found = tries.iter().find_map(|&(group, calls)| {
            let after = found_after(port.as_ref(), call, group, calls)?;
            Some((group, after))
        });
        println!("{name}, {what}: {found:?}");
        assert!(found.is_some(), "{name}: {what} was not found");
    }
}

#[test]
fn the_reference_does_not_differ() {
    do_not_differ(&Reference::default(), &Group::ALL, plan(MANY));
}

#[test]
fn every_wrong_pass_is_found() {
    let name = "split_closed_edges";
    all_found(name, &TRIES, lists(name));
}

#[test]
fn the_small_group_finds_every_wrong_result() {
    let wrong = [
        pass::wrong_results(),
        pass::wrong_vertices(),
        pass::wrong_preparations(),
        pass::wrong_cells_of_preparations(),
        eighths::wrong_middles(),
        eighths::wrong_keeping(),
        eighths::wrong_bounds(),
        eighths::wrong_ks(),
        pass::wrong_places(),
        pass::wrong_sight_of_k(),
    ];
    for (name, port) in wrong.into_iter().flatten() {
        let found = found_after(port.as_ref(), call("split_closed_edges"), Group::Small, 0);
        println!("{name}: small {found:?}");
        // This one only shows with three edges.
        let out_of_reach = name == "only the first edges cut";
        assert!(found.is_some() != out_of_reach, "{name}");
    }
}

#[test]
fn every_wrong_parameter_is_found() {
    let name = "cut_parameter";
    all_found(name, &TRIES, lists(name));
}

#[test]
fn every_wrong_call_over_numbers_is_found() {
    for name in ["get_mindiff", "nearest_copy", "boundary_type", "sort_wires"] {
        all_found(name, &TRIES, lists(name));
    }
}

#[test]
fn every_wrong_nearest_ends_is_found() {
    let name = "nearest_correction";
    all_found(name, &TRIES, lists(name));
}

#[test]
fn every_wrong_search_is_found() {
    let name = "find_non_simple_wire_divisor";
    all_found(name, &TRIES, lists(name));
    let checks = vec![pass::wrong_sight(), pass::wrong_rows()];
    all_found(name, &TRIES, checks);
}

#[test]
fn every_wrong_cut_is_found() {
    let name = "cut_edge_by_intersections";
    all_found(name, &TRIES, lists(name));
    let checks = vec![
        pass::wrong_refusals(),
        pass::wrong_sight(),
        pass::wrong_rows(),
    ];
    all_found(name, &TRIES, checks);
}

#[test]
fn every_wrong_chain_is_found() {
    let name = "cut_edge_at_points";
    all_found(name, &TRIES, lists(name));
    let checks = vec![
        pass::wrong_refusals(),
        pass::wrong_sight(),
        pass::wrong_rows(),
    ];
    all_found(name, &TRIES, checks);
}

#[test]
fn the_small_group_finds_every_wrong_chain() {
    let name = "cut_edge_at_points";
    all_found(name, &SMALL, several_cuts::wrong_results());
}

#[test]
fn every_wrong_join_is_found() {
    let name = "connect_open_boundaries";
    all_found(name, &TRIES, lists(name));
}

#[test]
fn every_wrong_split_is_found() {
    let name = "split_boundaries_by_divisor";
    all_found(name, &TRIES, lists(name));
}

#[test]
fn the_small_group_finds_every_wrong_split() {
    let name = "split_boundaries_by_divisor";
    all_found(name, &SMALL, split::wrong_results());
}

/// That no parameter leaves its range finds these without any other word.
#[test]
fn the_range_alone_finds_parameters_outside() {
    for (what, port) in eighths::wrong_bounds() {
        let found = [
            first_breach::<CutParameter>(port.as_ref()),
            first_breach::<SplitClosed>(port.as_ref()),
        ];
        println!("{what}: {found:?}");
        assert!(found.iter().all(Option::is_some), "{what} was not found");
    }
}

/// What the small inputs of a call find to be broken of what holds of every
/// answer.
fn first_breach<I: Families>(port: &dyn Port) -> Option<&'static str> {
    let mut found = None;
    I::small(&mut |input| {
        found = breach(port, input);
        found.is_none()
    });
    found
}

/// What holds of every split finds these without any word of the Rust.
#[test]
fn demand_3_alone_finds_wrong_splits() {
    for (what, port) in split::wrong_tallies() {
        let found = first_breach::<SplitWires>(port.as_ref());
        println!("{what}: {found:?}");
        assert!(found.is_some(), "{what} was not found");
    }
}

/// That connected wires remain connected, and end where they did, finds these
/// without any other word.
#[test]
fn connected_wires_alone_find_wrong_chains() {
    for (what, port) in several_cuts::wrong_ways() {
        let found = first_breach::<SeveralCuts>(port.as_ref());
        println!("{what}: {found:?}");
        assert!(found.is_some(), "{what} was not found");
    }
}

#[test]
fn the_small_group_finds_every_wrong_cut_and_join() {
    let cuts = vec![
        cut::wrong_pieces(),
        cut::wrong_preparations(),
        cut::wrong_points(),
        cut::wrong_mending(),
        cut::wrong_without_cut(),
    ];
    all_found("cut_edge_by_intersections", &SMALL, cuts);
    let joins = vec![
        join::wrong_changes(),
        join::wrong_turns(),
        join::wrong_holders(),
        join::wrong_places(),
        join::wrong_new_wires(),
        join::wrong_parts(),
        join::wrong_neighbours(),
        join::wrong_join_ends(),
    ];
    all_found("connect_open_boundaries", &SMALL, joins);
}

#[test]
fn random_inputs_are_the_same_for_the_same_seed() {
    let make = |index| SplitClosed::random(&mut oracle::random::Random::new(3, 0, index));
    assert!((0..50).all(|index| make(index) == make(index)));
    assert!((0..50).any(|index| make(index) != make(index + 1)));
    let expected = |index| SplitClosed::expected(&make(index));
    assert!((0..50).all(|index| expected(index) == expected(index)));
}
