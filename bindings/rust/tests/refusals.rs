//! Every refusal that can be met, through the safe layer, and that nothing
//! lent is changed by it.

mod common;

use std::collections::BTreeSet;

use common::{wire, Shell, Split, MARK, PIPE, PIPE_WIRE};
use kaugrenna::lent::{EDGE_FLOATS, EDGE_NUMBERS, VERTEX_FLOATS, VERTEX_NUMBERS};
use kaugrenna::{boundary_type, cut_parameter, get_mindiff, nearest_copy, sort_wires};
use kaugrenna::{connect_open_boundaries, cut_edge_at_points, cut_edge_by_intersections};
use kaugrenna::{find_non_simple_wire_divisor, nearest_correction, split_closed_edges};
use kaugrenna::{lent, Cuts, Refusal, MIDDLE};

/// Numbers of eighths that are refused.
const NO_EIGHTHS: [u32; 3] = [0, 8, u32::MAX];

/// What the pass refuses; nothing lent is changed.
fn pass_over(mut shell: Shell, k: u32) -> Option<Refusal> {
    let before = shell.cells();
    let (tables, wires) = shell.lend();
    let answer = split_closed_edges(tables, wires, k).err();
    assert!(answer.is_none() || shell.cells() == before);
    answer
}

/// The same, after a change of K1, at the middle. With a number of eighths that
/// is refused the answer is the same where it is below 6, and else 18.
fn pass(change: impl Fn(&mut Shell)) -> Option<Refusal> {
    let mut shell = Shell::new(&[[0.0; 3]], &[[0, 0]], &["0+"], 1);
    change(&mut shell);
    let answer = pass_over(shell.clone(), MIDDLE);
    let before = answer.filter(|refusal| *refusal < Refusal::NoRoom);
    for k in NO_EIGHTHS {
        let wrong = before.or(Some(Refusal::EighthsOutOfRange));
        assert_eq!(pass_over(shell.clone(), k), wrong, "{answer:?}");
    }
    answer
}

/// What one cut refuses, with so many cuts at this parameter; nothing lent is
/// changed.
fn cut_over(mut shell: Shell, t: f64, count: usize, edge: u32) -> Option<Refusal> {
    let before = shell.cells();
    let (tables, wires) = shell.lend();
    let floats = &[t, 0.0, 0.0, 0.0, t, 0.0, 0.0, 0.0];
    let cuts = Cuts { floats, count };
    let answer = cut_edge_by_intersections(tables, wires, cuts, edge).err();
    assert!(answer.is_none() || shell.cells() == before);
    answer
}

/// The same, over K9's edges and wire.
fn cut(t: f64, count: usize, edge: u32) -> Option<Refusal> {
    cut_over(Shell::pipe(&[PIPE_WIRE], 1), t, count, edge)
}

/// Cuts with these parameters.
fn cuts_at(parameters: &[f64]) -> Vec<f64> {
    let cut = |&t: &f64| [t, 0.0, 0.0, 0.0];
    parameters.iter().flat_map(cut).collect()
}

/// The parameters of so many cuts from 0 to 8, which rise strictly.
fn rising(count: u32) -> Vec<f64> {
    let parts = f64::from(count) - 1.0;
    (0..count).map(|cut| 8.0 * f64::from(cut) / parts).collect()
}

/// What cuts at several points refuse; nothing lent is changed.
fn points_over(mut shell: Shell, floats: &[f64], count: usize, edge: u32) -> Option<Refusal> {
    let before = shell.cells();
    let (tables, wires) = shell.lend();
    let cuts = Cuts { floats, count };
    let answer = cut_edge_at_points(tables, wires, cuts, edge).err();
    assert!(answer.is_none() || shell.cells() == before);
    answer
}

/// The same with these parameters on edge 1, over K9's edges and wire, with room
/// for two cuts.
fn points(parameters: &[f64]) -> Option<Refusal> {
    let shell = Shell::pipe(&[PIPE_WIRE], 2);
    points_over(shell, &cuts_at(parameters), parameters.len(), 1)
}

/// What a split refuses; nothing lent is changed.
fn split_over(mut split: Split) -> Option<Refusal> {
    let before = split.clone();
    let answer = split.ask().err();
    let kept = split.shell.cells() == before.shell.cells()
        && (split.uses == before.uses && split.lengths == before.lengths);
    assert!(answer.is_none() || kept);
    answer
}

/// The same, after a change of K10.
fn split(change: impl Fn(&mut Split)) -> Option<Refusal> {
    let mut split = Split::new(Shell::pipe(&[PIPE_WIRE], 1), &[3, 1]);
    change(&mut split);
    split_over(split)
}

/// What a join refuses, with this first wire and v0; nothing lent is changed.
fn join_over(mut shell: Shell, first: &str, v0: u32) -> Option<Refusal> {
    let before = shell.cells();
    let [first, second] = [first, "3+ 4+"].map(wire);
    let open = [first[..].into(), second[..].into()];
    let (edges, wires) = shell.lend_wires();
    let answer = connect_open_boundaries(edges, open, wires, [v0, 2]).err();
    assert!(answer.is_none() || shell.cells() == before);
    answer
}

/// The same, over K15 with this room.
fn join(first: &str, v0: u32, room: usize) -> Option<Refusal> {
    join_over(Shell::pipe(&["0+ 0-"], room), first, v0)
}

/// What nearest ends and the search refuse; nothing lent is changed.
fn lookups_over(shell: Shell, v0: u32) -> [Option<Refusal>; 2] {
    let before = shell.cells();
    let [first, second] = ["3+ 4+", "1+ 2+"].map(wire);
    let (first, second) = (first[..].into(), second[..].into());
    let ends = nearest_correction(shell.tables.lend(), first, second, v0).err();
    let search = find_non_simple_wire_divisor(shell.tables.lend(), shell.wires.lend()).err();
    assert_eq!(shell.cells(), before);
    [ends, search]
}

/// The same, after a change of K9.
fn lookups(v0: u32, change: impl Fn(&mut Shell)) -> [Option<Refusal>; 2] {
    let mut shell = Shell::pipe(&[PIPE_WIRE], 0);
    change(&mut shell);
    lookups_over(shell, v0)
}

/// The number of an edge that no wire uses, closed, behind those of K9.
const SPARE: usize = 5;

/// What the seven calls that are lent edges refuse, after a change of K9's edges
/// and the spare one: pass, one cut, two cuts, nearest ends, search, split and
/// join.
fn all_with_edges(change: impl Fn(&mut Shell)) -> [Option<Refusal>; 7] {
    let shell = |wire| {
        let edges = [&PIPE[..], &[[0, 0]]].concat();
        let mut shell = Shell::new(&[[0.0; 3]; 4], &edges, &[wire], 4);
        change(&mut shell);
        shell
    };
    let [ends, search] = lookups_over(shell(PIPE_WIRE), 3);
    [
        pass_over(shell(PIPE_WIRE), MIDDLE),
        cut_over(shell(PIPE_WIRE), 2.0, 1, 1),
        points_over(shell(PIPE_WIRE), &cuts_at(&[2.0, 5.0]), 2, 1),
        ends,
        search,
        split_over(Split::new(shell(PIPE_WIRE), &[3, 1])),
        join_over(shell("0+ 0-"), "1+ 2+", 0),
    ]
}

#[test]
fn refusals_of_the_pass() {
    assert_eq!(pass(|_| ()), None);
    let malformed = Some(Refusal::Malformed);
    assert_eq!(pass(|s| s.wires.count = usize::MAX), malformed);
    assert_eq!(pass(|s| s.tables.vertex_numbers[0] = 2), malformed);
    assert_eq!(pass(|s| s.wires.lengths[0] = 3), malformed);
    let vertex_number = Some(Refusal::VertexNumber);
    assert_eq!(pass(|s| s.tables.edge_numbers[1] = 1), vertex_number);
    assert_eq!(pass(|s| s.wires.uses[0] = 2), Some(Refusal::EdgeNumber));
    let not_sized = Some(Refusal::NotSized);
    assert_eq!(pass(|s| s.tables.edge_floats[5] = f64::NAN), not_sized);
    let out_of_range = Some(Refusal::OutOfRange);
    assert_eq!(pass(|s| s.tables.edge_floats[5] = -1.0), out_of_range);
    let no_room = Some(Refusal::NoRoom);
    assert_eq!(pass(|s| s.tables.vertex_numbers.truncate(5)), no_room);
    assert_eq!(pass(|s| s.wires.uses.truncate(1)), no_room);
}

#[test]
fn eighths_are_judged_where_no_edge_is_closed() {
    let shell = || Shell::pipe(&[PIPE_WIRE], 0);
    let nothing = || Shell::new(&[], &[], &[], 0);
    for k in 1..=7 {
        assert_eq!([pass_over(shell(), k), pass_over(nothing(), k)], [None; 2]);
    }
    let wrong = Some(Refusal::EighthsOutOfRange);
    for k in NO_EIGHTHS {
        assert_eq!([pass_over(shell(), k), pass_over(nothing(), k)], [wrong; 2]);
    }
}

#[test]
fn eighths_are_judged_where_the_tables_are_full() {
    let most = vec![[0.0; 3]; lent::MAX_ROWS];
    // In the vertices there is no row up to the bound, but one is lent.
    let shell = Shell::new(&most, &[[0, 0]], &["0+"], 1);
    for k in 1..=7 {
        assert_eq!(pass_over(shell.clone(), k), Some(Refusal::NoRoom));
    }
    for k in NO_EIGHTHS {
        let wrong = Some(Refusal::EighthsOutOfRange);
        assert_eq!(pass_over(shell.clone(), k), wrong);
    }
}

#[test]
fn refusals_of_the_parameter() {
    for k in NO_EIGHTHS {
        let wrong = Err(Refusal::EighthsOutOfRange);
        assert_eq!(cut_parameter(0.0, 8.0, k), wrong);
        assert_eq!(cut_parameter(-0.0, -0.0, k), wrong);
    }
    for k in (1..=7).chain(NO_EIGHTHS) {
        assert_eq!(cut_parameter(8.0, 0.0, k), Err(Refusal::OutOfRange));
        for wrong in [f64::NAN, f64::INFINITY, f64::NEG_INFINITY, 1.1e15, -1.1e15] {
            for (t0, t1) in [(wrong, 0.0), (0.0, wrong), (wrong, wrong)] {
                assert_eq!(cut_parameter(t0, t1, k), Err(Refusal::NotSized));
            }
        }
    }
}

#[test]
fn refusals_of_one_cut() {
    assert_eq!(cut(2.0, 1, 1), None);
    assert_eq!(cut(2.0, 3, 1), Some(Refusal::Malformed));
    assert_eq!(cut(2.0, 1, 5), Some(Refusal::EdgeNumber));
    assert_eq!(cut(1.0e16, 1, 1), Some(Refusal::NotSized));
    assert_eq!(cut(9.0, 1, 1), Some(Refusal::OutOfRange));
    assert_eq!(cut(2.0, 1, 0), Some(Refusal::NoRoom));
    assert_eq!(cut(2.0, 2, 1), Some(Refusal::SeveralCuts));
}

#[test]
fn refusals_of_cuts_at_points() {
    assert_eq!(points(&[2.0, 5.0]), None);
    assert_eq!(points(&[0.0, 8.0]), None);
    assert_eq!(points(&[-0.0, 5.0e-324]), None);
    let not_sized = Some(Refusal::NotSized);
    assert_eq!(points(&[2.0, f64::NAN]), not_sized);
    assert_eq!(points(&[1.1e15, 2.0]), not_sized);
    assert_eq!(points(&[2.0, 9.0]), Some(Refusal::OutOfRange));
    let not_rising = Some(Refusal::NotRising);
    for two in [[5.0, 2.0], [2.0, 2.0], [-0.0, 0.0], [0.0, -0.0]] {
        assert_eq!(points(&two), not_rising, "{two:?}");
    }
    assert_eq!(points(&[8.0, 8.0]), not_rising);
    // Any two that follow each other, and also where there is no room.
    assert_eq!(points(&[1.0, 2.0, 2.0]), not_rising);
    assert_eq!(points(&[1.0, 3.0, 2.0, 4.0]), not_rising);
    assert_eq!(points(&[1.0, 2.0, 3.0]), Some(Refusal::NoRoom));
}

#[test]
fn refusals_of_too_many_cuts_at_points() {
    let most = lent::MAX_CUTS;
    let refused = |floats: &[f64], count| {
        let shell = Shell::pipe(&[PIPE_WIRE], count);
        points_over(shell, floats, count, 1)
    };
    let mut cuts = cuts_at(&rising(most as u32 + 1));
    assert_eq!(refused(&cuts, most + 1), Some(Refusal::TooManyCuts));
    // A 65th cut that is lent but not counted is no input.
    assert_eq!(refused(&cuts, most), None);
    assert_eq!(refused(&cuts, most + 2), Some(Refusal::Malformed));
    // 17 comes after 16, and 1 to 5 of every cut before both.
    cuts[4] = 0.0;
    assert_eq!(refused(&cuts, most + 1), Some(Refusal::TooManyCuts));
    assert_eq!(refused(&cuts, most), Some(Refusal::NotRising));
    cuts[4 * most] = 8.5;
    assert_eq!(refused(&cuts, most + 1), Some(Refusal::OutOfRange));
    cuts[4 * most + 3] = f64::NAN;
    assert_eq!(refused(&cuts, most + 1), Some(Refusal::NotSized));
    assert_eq!(refused(&cuts, most), Some(Refusal::NotRising));
    // Far past the bound, and with no room.
    let many = cuts_at(&vec![1.0; 5000]);
    let without_room = points_over(Shell::pipe(&[PIPE_WIRE], 0), &many, 5000, 1);
    assert_eq!(without_room, Some(Refusal::TooManyCuts));
    let counted = points_over(Shell::pipe(&[PIPE_WIRE], 0), &many, usize::MAX, 1);
    assert_eq!(counted, Some(Refusal::Malformed));
}

#[test]
fn no_cut_at_points_needs_an_edge() {
    let no_cut = |edge| points_over(Shell::pipe(&[PIPE_WIRE], 0), &[], 0, edge);
    assert_eq!([0, 4].map(no_cut), [None; 2]);
    assert_eq!([5, u32::MAX].map(no_cut), [Some(Refusal::EdgeNumber); 2]);
    // Cuts that are lent and do not count are no input.
    let shell = Shell::pipe(&[PIPE_WIRE], 0);
    assert_eq!(points_over(shell, &[f64::NAN; 9], 0, 0), None);
}

#[test]
fn no_cut_and_one_at_points_are_refused_as_in_one_cut() {
    let both = |change: &dyn Fn(&mut Shell), t, count, edge| {
        let mut shell = Shell::pipe(&[PIPE_WIRE], 1);
        change(&mut shell);
        let floats = [t, 0.0, 0.0, 0.0];
        let answer = cut_over(shell.clone(), t, count, edge);
        assert_eq!(points_over(shell, &floats, count, edge), answer);
        answer
    };
    let changes: [&dyn Fn(&mut Shell); 6] = [
        &|_| (),
        &|shell| shell.tables.vertices = 6,
        &|shell| shell.tables.edge_numbers[3 * EDGE_NUMBERS] = 4,
        &|shell| shell.wires.uses[5] = 10,
        &|shell| shell.tables.edge_floats[28] = f64::INFINITY,
        &|shell| shell.tables.edge_floats[28] = 8.5,
    ];
    let mut met = BTreeSet::new();
    for change in changes {
        for t in [2.0, 9.0, f64::NAN] {
            for (count, edge) in [(0, 0), (1, 0), (1, 1), (0, 5), (1, 5)] {
                met.insert(both(change, t, count, edge));
            }
        }
    }
    let causes = &Refusal::ALL[..6];
    assert!(met.into_iter().flatten().eq(causes.iter().copied()));
}

#[test]
fn rooms_of_cuts_at_points() {
    // Edge 0, which the wire uses twice, is cut at two points. Each slice has
    // just the room for it, but that slice `short` lacks a cell.
    let two_cuts = |short: usize| {
        let mut shell = Shell::pipe(&[PIPE_WIRE], 4);
        let lacks = |slice| usize::from(slice == short);
        let tables = &mut shell.tables;
        tables
            .vertex_numbers
            .truncate(6 * VERTEX_NUMBERS - lacks(0));
        tables.vertex_floats.truncate(6 * VERTEX_FLOATS - lacks(1));
        tables.edge_numbers.truncate(7 * EDGE_NUMBERS - lacks(2));
        tables.edge_floats.truncate(7 * EDGE_FLOATS - lacks(3));
        shell.wires.uses.truncate(10 - lacks(4));
        shell.wires.lengths.truncate(1);
        points_over(shell, &cuts_at(&[2.0, 5.0]), 2, 0)
    };
    let no_room = Some(Refusal::NoRoom);
    assert_eq!([0, 1, 2, 3, 4].map(two_cuts), [no_room; 5]);
    assert_eq!(two_cuts(5), None);
}

#[test]
fn bounds_of_cuts_at_points() {
    let three = cuts_at(&[2.0, 4.0, 6.0]);
    let used = |times: usize| {
        let notation = "0+ ".repeat(times);
        let shell = Shell::new(&[[0.0; 3]; 2], &[[0, 1]], &[&notation], 3 * times);
        points_over(shell, &three, 3, 0)
    };
    // Four pieces for each use, at most 1,024.
    let [most, past] = [256, 257].map(used);
    assert_eq!([most, past], [None, Some(Refusal::NoRoom)]);
    let with = |vertices: usize, edges: usize| {
        let ends = vec![[0, 1]; edges];
        let shell = Shell::new(&vec![[0.0; 3]; vertices], &ends, &["0+"], 3);
        points_over(shell, &three, 3, 0)
    };
    let most = lent::MAX_ROWS - 3;
    assert_eq!(with(most, most), None);
    assert_eq!(with(most + 1, most), Some(Refusal::NoRoom));
    assert_eq!(with(most, most + 1), Some(Refusal::NoRoom));
}

#[test]
fn refusals_of_plain_numbers() {
    let signalling = f64::from_bits(0x7ff0_0000_0000_0001);
    for wrong in [f64::NAN, signalling, f64::INFINITY, -1.1e15] {
        let refused = Err(Refusal::NotSized);
        assert_eq!(get_mindiff(wrong, 0.0, None), refused);
        assert_eq!(
            nearest_copy([0.0; 2], [0.0, wrong], [None; 2]).err(),
            refused.err()
        );
        let kind = boundary_type([0.0; 2], [0.0; 2], wrong);
        assert_eq!(kind, Err(Refusal::NotSized));
    }
    for period in [0.0, -0.0, -4.0] {
        let refused = Some(Refusal::OutOfRange);
        assert_eq!(get_mindiff(0.0, 0.0, Some(period)).err(), refused);
        let periods = [None, Some(period)];
        assert_eq!(nearest_copy([0.0; 2], [0.0; 2], periods).err(), refused);
    }
}

#[test]
fn refusals_of_the_sorting() {
    let sort = |ends: &[f64], wires, room: usize| {
        let (mut open, mut closed) = (vec![MARK; room], vec![MARK; room]);
        let answer = sort_wires(ends, wires, &mut open, &mut closed);
        assert_eq!([open, closed], [vec![MARK; room], vec![MARK; room]]);
        answer
    };
    let two_open = [[0.0, 0.0, 1.0, 0.0, 0.0]; 2].concat();
    assert_eq!(sort(&two_open, 3, 2), Err(Refusal::Malformed));
    assert_eq!(sort(&[f64::NAN; 5], 1, 2), Err(Refusal::NotSized));
    assert_eq!(sort(&two_open, 2, 1), Err(Refusal::NoRoom));
}

#[test]
fn refusals_of_nearest_ends_and_of_the_search() {
    let both = |refusal| [Some(refusal); 2];
    assert_eq!(lookups(3, |_| ()), [None, None]);
    let too_many = |shell: &mut Shell| shell.tables.vertices = 5;
    assert_eq!(lookups(3, too_many), both(Refusal::Malformed));
    assert_eq!(lookups(4, |_| ()), [Some(Refusal::VertexNumber), None]);
    let few_edges = |shell: &mut Shell| shell.tables.edges = 4;
    assert_eq!(lookups(3, few_edges), both(Refusal::EdgeNumber));
    let pending = |shell: &mut Shell| {
        shell.tables.vertex_numbers[..3].copy_from_slice(&[1, 0, 7]);
        shell.tables.vertex_floats[..7].fill(0.0);
    };
    assert_eq!(lookups(3, pending), both(Refusal::PendingVertex));
    let past_end = |shell: &mut Shell| {
        shell.wires.uses = wire("0+ 1+ 0-");
        shell.wires.lengths[0] = 3;
    };
    assert_eq!(lookups(3, past_end), [None, Some(Refusal::PastEnd)]);
}

#[test]
fn refusals_of_the_split() {
    assert_eq!(split(|_| ()), None);
    let malformed = Some(Refusal::Malformed);
    assert_eq!(split(|split| split.points.truncate(3)), malformed);
    let vertex_number = Some(Refusal::VertexNumber);
    assert_eq!(split(|split| split.list[0] = 4), vertex_number);
    let not_sized = Some(Refusal::NotSized);
    assert_eq!(split(|split| split.points[3] = f64::NAN), not_sized);
    let no_room = Some(Refusal::NoRoom);
    assert_eq!(split(|split| split.lengths.truncate(7)), no_room);
    assert_eq!(split(|split| split.uses.truncate(7)), no_room);
    let odd = |split: &mut Split| split.list.truncate(1);
    assert_eq!(split(odd), Some(Refusal::OddDivisor));
    let repeated = Some(Refusal::RepeatedVertex);
    assert_eq!(split(|split| split.list[1] = 3), repeated);
    let dead_end = |split: &mut Split| split.shell.wires.lengths[0] = 1;
    assert_eq!(split(dead_end), Some(Refusal::DeadEnd));
    let crowd = |split: &mut Split| {
        split.shell.wires.uses = wire("1+ 2+ 2+ 2+");
        split.shell.wires.lengths[0] = 4;
        split.list.clear();
    };
    assert_eq!(split(crowd), Some(Refusal::TooManyUses));
}

#[test]
fn refusals_of_the_join() {
    assert_eq!(join("1+ 2+", 0, 4), None);
    assert_eq!(join("1+ 2+", 4, 4), Some(Refusal::VertexNumber));
    assert_eq!(join("1+ 5+", 0, 4), Some(Refusal::EdgeNumber));
    assert_eq!(join("1+ 2+", 0, 3), Some(Refusal::NoRoom));
    assert_eq!(join("", 0, 4), Some(Refusal::EmptyOpenWire));
}

#[test]
fn refusals_of_a_preparation_used_or_not() {
    for edge in 0..=SPARE {
        for known in [0, 1, 2] {
            assert_eq!(all_with_edges(|s| s.prepare(edge, known)), [None; 7]);
        }
        for unknown in [3, 4, 0x100, 1 << 31, u32::MAX] {
            let answers = all_with_edges(|s| s.prepare(edge, unknown));
            assert_eq!(answers, [Some(Refusal::Malformed); 7], "{edge}: {unknown}");
        }
    }
}

#[test]
fn an_unknown_preparation_comes_before_a_vertex_number() {
    let no_vertex = |shell: &mut Shell| shell.tables.edge_numbers[0] = 4;
    assert_eq!(all_with_edges(no_vertex), [Some(Refusal::VertexNumber); 7]);
    // In the same edge, and in an edge behind it.
    for edge in [0, SPARE] {
        let both = |shell: &mut Shell| {
            no_vertex(shell);
            shell.prepare(edge, 3);
        };
        assert_eq!(all_with_edges(both), [Some(Refusal::Malformed); 7]);
    }
}

#[test]
fn refusals_of_too_few_numbers_for_the_edges() {
    let lent = |cells| all_with_edges(|shell| shell.tables.edge_numbers.truncate(cells));
    let edges = SPARE + 1;
    for too_few in [4 * edges, EDGE_NUMBERS * edges - 1] {
        assert_eq!(lent(too_few), [Some(Refusal::Malformed); 7]);
    }
    // With no row of room; nearest ends, search and join need none.
    let no_room = Some(Refusal::NoRoom);
    let answers = [no_room, no_room, no_room, None, None, no_room, None];
    assert_eq!(lent(EDGE_NUMBERS * edges), answers);
}

#[test]
fn a_preparation_behind_the_count_is_no_input() {
    for number in [3, u32::MAX] {
        let behind = |shell: &mut Shell| {
            shell.prepare(SPARE, number);
            shell.tables.edges = SPARE;
        };
        assert_eq!(all_with_edges(behind), [None; 7]);
    }
}

#[test]
fn numbers_and_sentences_of_refusals() {
    let numbers: Vec<_> = (1..=18).collect();
    assert_eq!(Refusal::ALL.map(Refusal::number)[..], numbers);
    for refusal in Refusal::ALL {
        assert_eq!(Refusal::of(refusal.number()), Some(refusal));
    }
    assert_eq!([0, 19, -1].map(Refusal::of), [None; 3]);
    let unknown = [Refusal::Unknown(19), Refusal::UnknownKind(3)];
    assert_eq!(unknown.map(Refusal::number), [19, 0]);
    let said = "the code 19 is unknown: module and archive do not belong together";
    assert_eq!(unknown[0].to_string(), said);
    let table = include_str!("../../../README.md");
    for refusal in Refusal::ALL {
        let row = format!("| {} | `{refusal:?}` | {refusal} |", refusal.number());
        assert!(table.contains(&row), "{row}");
    }
}
