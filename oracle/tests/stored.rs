//! The stored answers: always the same, held by the reference, and able to
//! find most of the wrong ports.

use crate::wrong::{self, eighths, pass, Only};
use oracle::calls::cut_edge::CutEdge;
use oracle::calls::find_divisor::FindDivisor;
use oracle::calls::join_wires::JoinWires;
use oracle::calls::nearest_correction::NearestEnds;
use oracle::calls::several_cuts::SeveralCuts;
use oracle::calls::sort_wires::SortWires;
use oracle::calls::split_closed_edges::SplitClosed;
use oracle::calls::split_wires::SplitWires;
use oracle::port::{NearestCopy, Port, Unwrap, WireEnds};
use oracle::reference::Reference;
use oracle::stored::{altered, file_of, lists, only, replay, replay_both, QUOTAS};
use std::sync::OnceLock;

/// Both lists, made once.
fn made() -> &'static [Vec<u64>; 2] {
    static MADE: OnceLock<[Vec<u64>; 2]> = OnceLock::new();
    MADE.get_or_init(lists)
}

/// The file of them.
fn file() -> &'static [u8] {
    static FILE: OnceLock<Vec<u8>> = OnceLock::new();
    FILE.get_or_init(|| file_of(made()))
}

#[test]
fn stored_answers_hold() {
    let bytes = file();
    assert!(bytes.len() <= 5_500_000, "{} bytes", bytes.len());
    let tallies = replay(&Reference::default(), bytes).unwrap();
    for ((name, tally), (call, least)) in tallies.iter().zip(QUOTAS) {
        assert_eq!((*name, tally.differences), (call, 0));
        for (answer, times) in least {
            assert!(tally.answers[answer] >= *times, "{name} {answer}");
        }
    }
    assert_eq!(tallies.len(), QUOTAS.len());
    assert_eq!(tallies[0].1.calls, 2024);
}

/// Every call of the second list differs from its record, in each bit that is
/// altered.
#[test]
fn altered_records_differ() {
    let [_, tallies] = replay_both(&Reference::default(), file()).unwrap();
    let calls = [
        altered::<SplitClosed>(),
        altered::<Unwrap>(),
        altered::<NearestCopy>(),
        altered::<WireEnds>(),
        altered::<SortWires>(),
        altered::<NearestEnds>(),
        altered::<FindDivisor>(),
        altered::<CutEdge>(),
        altered::<JoinWires>(),
        altered::<SplitWires>(),
        altered::<SeveralCuts>(),
    ];
    assert_eq!(tallies.len(), QUOTAS.len());
    for ((name, tally), ((call, _), calls)) in tallies.iter().zip(QUOTAS.iter().zip(calls)) {
        assert_eq!((*name, tally.calls, tally.differences), (*call, calls, 0));
    }
}

/// A record in the second list that is not altered is a difference of its call.
#[test]
fn a_record_that_is_not_altered_is_seen() {
    let [stored, _] = made();
    let bytes = file_of(&[stored.clone(), stored.clone()]);
    let tallies = replay(&Reference::default(), &bytes).unwrap();
    for (name, tally) in tallies {
        assert_eq!((name, tally.differences), (name, tally.calls));
    }
}

/// The list that the Rattle program replays is the one that `oracle store`
/// writes: made another time, it is the same.
#[test]
fn the_list_in_the_repository_is_this_one() {
    let place = concat!(env!("CARGO_MANIFEST_DIR"), "/../crates/replay/stdin");
    assert!(std::fs::read(place).unwrap() == file());
}

/// The wrong ports of a call that its stored answers do not find.
fn missed(call: &str) -> Vec<&'static str> {
    let number = 1 + QUOTAS.iter().position(|(name, _)| *name == call).unwrap();
    let records = only(file(), number as u64).unwrap();
    let found = |port: &dyn Port| {
        let only = Only { name: call, port };
        let [tallies, _] = replay_both(&only, &records).unwrap();
        let mut made = tallies.iter().filter(|(_, tally)| tally.calls > 0);
        let (name, tally) = made.next().expect("the call is stored");
        assert_eq!((*name, made.count()), (call, 0));
        tally.differences
    };
    let mut missed = Vec::new();
    for (name, port) in wrong::lists(call).into_iter().flatten() {
        let differences = found(port.as_ref());
        println!("{call}, {name}: {differences} of the stored answers");
        if differences == 0 {
            missed.push(name);
        }
    }
    missed
}

/// The names of wrong passes that show only where k is not 4, which it is in
/// every stored pass.
fn away_from_the_middle() -> Vec<&'static str> {
    let lists = [
        eighths::wrong_eighths(),
        eighths::wrong_keeping(),
        eighths::wrong_bounds(),
        eighths::wrong_ks(),
        pass::wrong_places(),
        pass::wrong_order(),
        pass::wrong_sight_of_k(),
    ];
    let names = lists.into_iter().flatten().map(|(name, _)| name);
    names.filter(|&name| name != "k 4 refused").collect()
}

#[test]
fn stored_answers_find_wrong_passes() {
    let away = away_from_the_middle();
    let missed = missed("split_closed_edges").into_iter();
    let (of_k, others): (Vec<_>, Vec<_>) = missed.partition(|name| away.contains(name));
    assert_eq!((of_k.len(), of_k), (38, away));
    // These need 65 edges, tables at their bounds, or a NaN in a call that is
    // done.
    let known = [
        "the last of 65 edges not cut",
        "no bound on vertices out",
        "4096 vertices out are too many",
        "1024 uses out are too many",
        "edges are refused at 4096",
        "NaN made quiet past the result",
    ];
    assert_eq!(others, known);
}

#[test]
fn stored_answers_find_wrong_calls_over_numbers() {
    for call in ["get_mindiff", "nearest_copy", "boundary_type"] {
        assert_eq!(missed(call), [""; 0]);
    }
    // These need more floats than a stored buffer holds.
    let known = ["64 wires are too many", "65 wires pass"];
    assert_eq!(missed("sort_wires"), known);
}

#[test]
fn stored_answers_find_wrong_searches() {
    // These need more uses than a stored buffer holds.
    let known = ["1024 uses are too many", "1025 uses pass"];
    assert_eq!(missed("nearest_correction"), known);
    assert_eq!(missed("find_non_simple_wire_divisor"), [""; 0]);
}

#[test]
fn stored_answers_find_wrong_cuts() {
    // These need 65 uses, tables at their bounds, or a NaN in a call that is
    // done.
    let known = [
        "the last of 65 uses turned",
        "no bound on vertices out",
        "no bound on edges out",
        "no bound on uses out",
        "4096 vertices out are too many",
        "4096 edges out are too many",
        "1024 uses out are too many",
        "NaN made quiet past the result",
    ];
    assert_eq!(missed("cut_edge_by_intersections"), known);
}

#[test]
fn stored_answers_find_wrong_chains() {
    // These need an equal pair at the end of 64 cuts, 65 cuts and an edge or a
    // vertex that is not there, more edges or uses than a stored call has, tables
    // at their bounds, or a NaN in a call that is done.
    let known = [
        "the pair of the 63rd and the 64th not looked at",
        "16 before 3",
        "16 before 2",
        "no bound on vertices out",
        "no bound on edges out",
        "no bound on uses out",
        "4096 vertices out are too many",
        "4096 edges out are too many",
        "1024 uses out are too many",
        "NaN made quiet past the result",
        "the last of 65 uses turned",
        "the last of 65 uses out turned",
        "the preparation of 65 edges lost",
        "only 64 occurrences of a wire mended",
    ];
    assert_eq!(missed("cut_edge_at_points"), known);
}

#[test]
fn stored_answers_find_wrong_joins() {
    // These need more uses than a stored buffer holds.
    let known = [
        "the last of 65 uses laid turned",
        "the last of 65 new uses turned",
        "1024 uses out are too many",
        "1024 uses are too many",
        "1025 uses pass",
    ];
    assert_eq!(missed("connect_open_boundaries"), known);
}

#[test]
fn stored_answers_find_wrong_splits() {
    // These need more uses, edges, wires or vertices on the divisor than a
    // stored buffer holds, or just 65 vertices.
    let known = [
        "1024 uses out are too many",
        "no bound on uses out",
        "4096 edges out are too many",
        "no bound on edges out",
        "1024 uses are too many",
        "1025 uses pass",
        "more than 64 wires out refused",
        "a list is bounded by 1024",
        "the last of 65 edges unmarked",
        "11 for 10 at 65 vertices",
    ];
    assert_eq!(missed("split_boundaries_by_divisor"), known);
}

#[test]
fn a_damaged_file_is_turned_away() {
    let bytes = file();
    let reference = Reference::default();
    assert!(replay(&reference, &bytes[..bytes.len() - 8]).is_err());
    assert!(replay(&reference, &bytes[..bytes.len() - 1]).is_err());
    assert!(replay(&reference, &[]).is_err());
    assert!(replay(&reference, &0u64.to_le_bytes()).is_err());
    assert!(replay(&reference, &12u64.to_le_bytes()).is_err());
    assert!(replay(&reference, &[bytes, &[0; 8]].concat()).is_err());
}
