//! The worked cases of document 01, through the safe layer, cuts at several
//! points, and what becomes of preparations, which are square in document 01.

mod common;

use common::{bits, wire, Shell, Split, FLOAT_MARK, MARK, PIPE, PIPE_WIRE};
use kaugrenna::lent::{GIVEN, MAX_CUTS, MAX_USES, SEAM};
use kaugrenna::{boundary_type, cut_parameter, get_mindiff, nearest_copy, sort_wires};
use kaugrenna::{connect_open_boundaries, cut_edge_at_points, cut_edge_by_intersections};
use kaugrenna::{find_non_simple_wire_divisor, nearest_correction, split_closed_edges};
use kaugrenna::{BoundaryType, Counts, Cuts, OwnedTables, Rebuilt, Refusal, Stretch, MIDDLE};

/// One vertex and one closed edge, with one wire.
fn closed_edge(notation: &str) -> Shell {
    Shell::new(&[[0.5, 0.25, 0.0]], &[[0, 0]], &[notation], 2)
}

/// What the pass leaves of a closed edge that lies from 0 to 8 and is cut at t,
/// k eighths of the way.
fn assert_cut(before: &str, after: &str, k: u32, t: f64) {
    let mut shell = closed_edge(before);
    let (tables, wires) = shell.lend();
    let counts = Counts {
        vertices: 2,
        edges: 2,
        uses: 2,
    };
    assert_eq!(split_closed_edges(tables, wires, k), Ok(counts));
    let Shell { tables, wires } = shell;
    let edges = [[0, 1, 0, 7, 0], [1, 0, 0, 7, 0]].concat();
    assert_eq!(tables.edge_numbers[..10], edges);
    assert_eq!(tables.edge_numbers[10], MARK);
    let ranges = [&tables.edge_floats[4..6], &tables.edge_floats[10..12]];
    assert_eq!(ranges, [[0.0, t], [t, 8.0]]);
    assert_eq!(tables.vertex_numbers[3..7], [1, 0, 7, MARK]);
    assert_eq!(tables.vertex_floats[11..14], [0.0, 8.0, t]);
    assert_eq!(tables.vertex_floats[14].to_bits(), FLOAT_MARK);
    assert_eq!(wires.uses[..2], wire(after));
    assert_eq!((wires.uses[2], &wires.lengths[..2]), (MARK, &[2, MARK][..]));
}

#[test]
fn k1_and_k2_a_closed_edge_is_cut() {
    assert_cut("0+", "0+ 1+", MIDDLE, 4.0);
    assert_cut("0-", "1- 0-", MIDDLE, 4.0);
}

#[test]
fn a_closed_edge_is_cut_at_every_eighth() {
    for k in 1..=7 {
        assert_cut("0+", "0+ 1+", k, k.into());
        assert_cut("0-", "1- 0-", k, k.into());
    }
}

#[test]
fn k3_no_edges() {
    let mut shell = Shell::new(&[], &[], &[], 1);
    let before = shell.cells();
    let (tables, wires) = shell.lend();
    let counts = split_closed_edges(tables, wires, MIDDLE);
    assert_eq!((counts, shell.cells()), (Ok(Counts::default()), before));
}

/// The parameters of this range for k from 1 to 7.
fn parameters(t0: f64, t1: f64) -> [f64; 7] {
    [1, 2, 3, 4, 5, 6, 7].map(|k| cut_parameter(t0, t1, k).unwrap())
}

#[test]
fn the_parameters_of_each_eighth() {
    assert_eq!(parameters(0.0, 8.0), [1.0, 2.0, 3.0, 4.0, 5.0, 6.0, 7.0]);
    let eighths = [-7.5, -5.0, -2.5, 0.0, 2.5, 5.0, 7.5].map(|part| part * 1.0e14);
    assert_eq!(parameters(-1.0e15, 1.0e15), eighths);
    // Between neighbours the middle, by its own formula, is already the upper end.
    let unit = f64::from_bits(1);
    let units = parameters(unit, 2.0 * unit).map(f64::to_bits);
    assert_eq!(units, [1, 1, 1, 2, 2, 2, 2]);
}

#[test]
fn the_parameters_of_a_range_without_length() {
    for t in [0.0, 1.5, -0.1, 1.0e15, -1.0e15, f64::from_bits(1)] {
        assert_eq!(bits(&parameters(t, t)), bits(&[t; 7]));
    }
    let zeros = [0.0, 0.0, 0.0, -0.0, 0.0, 0.0, 0.0];
    assert_eq!(bits(&parameters(-0.0, -0.0)), bits(&zeros));
}

/// Ranges of curves: of all sizes, and where a rounding shows.
fn ranges() -> [[f64; 2]; 6] {
    let step = f64::from_bits(1);
    let [small, large] = [[step, 3.0 * step], [1.0e15 - 0.125, 1.0e15]];
    [
        [0.1, 0.7],
        [-0.3, 1.0e15],
        [-0.7, 0.2],
        [-0.0; 2],
        small,
        large,
    ]
}

#[test]
fn the_parameter_is_rounded_from_left_to_right() {
    for [t0, t1] in ranges() {
        let mut formula = [1.0, 2.0, 3.0, 4.0, 5.0, 6.0, 7.0].map(|k| t0 + (t1 - t0) * k / 8.0);
        formula[3] = (t0 + t1) / 2.0;
        assert_eq!(bits(&parameters(t0, t1)), bits(&formula));
        assert!(formula.iter().all(|t| (t0..=t1).contains(t)));
    }
}

#[test]
fn the_pass_cuts_at_the_parameter() {
    for [t0, t1] in ranges() {
        for (k, t) in (1..).zip(parameters(t0, t1)) {
            let mut shell = closed_edge("0-");
            shell.tables.edge_floats[4..6].copy_from_slice(&[t0, t1]);
            let (tables, wires) = shell.lend();
            assert!(split_closed_edges(tables, wires, k).is_ok());
            let OwnedTables {
                edge_floats,
                vertex_floats,
                ..
            } = shell.tables;
            let pieces = [&edge_floats[4..6], &edge_floats[10..12]].concat();
            assert_eq!(bits(&pieces), bits(&[t0, t, t, t1]));
            assert_eq!(bits(&vertex_floats[11..14]), bits(&[t0, t1, t]));
        }
    }
}

#[test]
fn k4_and_k5_unwrapping() {
    assert_eq!(get_mindiff(0.5, 6.0, Some(4.0)), Ok(4.5));
    assert_eq!(get_mindiff(0.0, 2.0, Some(4.0)), Ok(0.0));
    let zero = get_mindiff(-0.0, 0.0, Some(4.0)).unwrap();
    let unmoved = get_mindiff(-0.0, 0.0, None).unwrap();
    assert_eq!(bits(&[zero, unmoved]), bits(&[0.0, -0.0]));
}

#[test]
fn nearest_copies() {
    let copy = nearest_copy([5.0, 0.0], [0.5, 0.0], [Some(4.0), None]);
    assert_eq!(copy, Ok([4.5, 0.0]));
    let copy = nearest_copy([5.0, -3.0], [0.5, 0.5], [None, Some(2.0)]);
    assert_eq!(copy, Ok([0.5, -3.5]));
}

#[test]
fn k6_to_k9_the_search() {
    let search = |notation: &str| {
        let shell = Shell::pipe(&[notation], 1);
        let before = shell.cells();
        let answer = find_non_simple_wire_divisor(shell.tables.lend(), shell.wires.lend());
        assert_eq!(shell.cells(), before);
        answer
    };
    assert_eq!(search("0+ 1+ 2+"), Ok(None));
    assert_eq!(search("0+ 1+ 0-"), Err(Refusal::PastEnd));
    assert_eq!(search("0+ 0- 1+"), Ok(None));
    assert_eq!(search(PIPE_WIRE), Ok(Some([3, 1])));
}

#[test]
fn nearest_ends() {
    let shell = Shell::pipe(&[], 0);
    let [first, second] = ["3+ 4+", "1+ 2+"].map(wire);
    let [first, second]: [Stretch<'_>; 2] = [first[..].into(), second[..].into()];
    let ends = |first, second| nearest_correction(shell.tables.lend(), first, second, 3);
    assert_eq!(ends(first, second), Ok(Some([3, 1])));
    let empty = Stretch { count: 0, ..first };
    assert_eq!(ends(empty, second), Ok(None));
    assert_eq!(ends(first, empty), Ok(None));
}

#[test]
fn one_cut() {
    let mut shell = Shell::pipe(&["1+ 0+ 1-"], 2);
    let mut cut = |count| {
        let floats = &[2.0, 1.0, 0.0, 3.0];
        let (tables, wires) = shell.lend();
        cut_edge_by_intersections(tables, wires, Cuts { floats, count }, 1)
    };
    let [no_cut, one_cut] = [[4, 5, 3], [5, 6, 5]].map(|[vertices, edges, uses]| Counts {
        vertices,
        edges,
        uses,
    });
    assert_eq!([cut(0), cut(1)], [Ok(no_cut), Ok(one_cut)]);
    let Shell { tables, wires } = shell;
    assert_eq!(tables.edge_numbers[5..10], [0, 4, 0, 7, 0]);
    assert_eq!(tables.edge_numbers[25..31], [4, 1, 0, 7, 0, MARK]);
    let ranges = [&tables.edge_floats[10..12], &tables.edge_floats[34..36]];
    assert_eq!(ranges, [[0.0, 2.0], [2.0, 8.0]]);
    assert_eq!(tables.vertex_floats[28..31], [1.0, 0.0, 3.0]);
    assert_eq!(wires.uses, wire("1+ 5+ 0+ 5- 1-"));
    assert_eq!(wires.lengths[..2], [5, MARK]);
}

/// So many vertices, edges and uses.
fn counts(vertices: usize, edges: usize, uses: usize) -> Counts {
    Counts {
        vertices,
        edges,
        uses,
    }
}

/// Cuts an edge at points: parameter, x, y, z of each.
fn cut_at(shell: &mut Shell, edge: u32, cuts: &[[f64; 4]]) -> Result<Counts, Refusal> {
    let cuts = Cuts {
        floats: cuts.as_flattened(),
        count: cuts.len(),
    };
    let (tables, wires) = shell.lend();
    cut_edge_at_points(tables, wires, cuts, edge)
}

/// The numbers of a given vertex's row, and its floats.
const GIVEN_NUMBERS: [u32; 3] = [GIVEN, MARK, MARK];
fn given(x: f64, y: f64, z: f64) -> [f64; 7] {
    let mark = f64::from_bits(FLOAT_MARK);
    [x, y, z, mark, mark, mark, mark]
}

/// The floats of a span's row.
fn span(t0: f64, t1: f64) -> [f64; 6] {
    let mark = f64::from_bits(FLOAT_MARK);
    [mark, mark, mark, mark, t0, t1]
}

/// These cells come first, and the marks of the room behind them are kept.
fn assert_cells(cells: &[u32], first: &[u32]) {
    let marks = vec![MARK; cells.len() - first.len()];
    assert_eq!(cells, [first, &marks].concat());
}

/// The same of floats, to the bit.
fn assert_floats(cells: &[f64], first: &[f64]) {
    let marks = vec![FLOAT_MARK; cells.len() - first.len()];
    assert_eq!(bits(cells), [bits(first), marks].concat());
}

#[test]
fn two_cuts_in_wires_of_both_directions() {
    let mut shell = Shell::pipe(&["1+ 0+ 1-", "", "2+ 3-", "1- 1+"], 8);
    shell.prepare(1, 2);
    // No uv points of a span: they are kept, and no other piece gets them.
    shell.tables.edge_floats[6..10].fill(0.25);
    let cuts = [[2.0, 1.0, 0.0, 3.0], [5.0, -1.0, 0.5, 3.5]];
    assert_eq!(cut_at(&mut shell, 1, &cuts), Ok(counts(6, 7, 15)));
    let Shell { tables, wires } = shell;
    let edges = [
        [0, 2, 0, 7, 0],
        [0, 4, 0, 7, 2],
        [1, 0, 0, 7, 0],
        [2, 3, 0, 7, 0],
        [3, 2, 0, 7, 0],
        [4, 5, 0, 7, 2],
        [5, 1, 0, 7, 2],
    ];
    assert_cells(&tables.edge_numbers, &edges.concat());
    let mut ranges = vec![span(0.0, 8.0); 5];
    ranges[1] = [0.25, 0.25, 0.25, 0.25, 0.0, 2.0];
    ranges.extend([span(2.0, 5.0), span(5.0, 8.0)]);
    assert_floats(&tables.edge_floats, &ranges.concat());
    assert_cells(&tables.vertex_numbers, &[GIVEN_NUMBERS; 6].concat());
    let points = [
        given(1.0, 0.0, 0.0),
        given(-1.0, 0.0, 0.0),
        given(1.0, 0.0, 4.0),
        given(-1.0, 0.0, 4.0),
        given(1.0, 0.0, 3.0),
        given(-1.0, 0.5, 3.5),
    ];
    assert_floats(&tables.vertex_floats, &points.concat());
    let chained = ["1+ 5+ 6+ 0+ 6- 5- 1-", "", "2+ 3-", "6- 5- 1- 1+ 5+ 6+"];
    assert_cells(&wires.uses, &chained.map(wire).concat());
    assert_cells(&wires.lengths, &[7, 0, 2, 6]);
}

#[test]
fn three_cuts_of_a_closed_edge() {
    let cuts = [2.0, 4.0, 6.0].map(|t| [t, t, 1.0, -t]);
    for (before, after) in [("0+", "0+ 1+ 2+ 3+"), ("0-", "3- 2- 1- 0-")] {
        let mut shell = Shell::new(&[[0.5, 0.25, 0.0]], &[[0, 0]], &[before], 3);
        shell.prepare(0, 1);
        assert_eq!(cut_at(&mut shell, 0, &cuts), Ok(counts(4, 4, 4)));
        let Shell { tables, wires } = shell;
        let ends = [[0, 1], [1, 2], [2, 3], [3, 0]];
        let edges = ends.map(|[front, back]| [front, back, 0, 7, 1]);
        assert_cells(&tables.edge_numbers, &edges.concat());
        let ranges = [0.0, 2.0, 4.0, 6.0].map(|t| span(t, t + 2.0));
        assert_floats(&tables.edge_floats, &ranges.concat());
        assert_cells(&tables.vertex_numbers, &[GIVEN_NUMBERS; 4].concat());
        let new = cuts.map(|[_, x, y, z]| given(x, y, z));
        let points = [&[given(0.5, 0.25, 0.0)], &new[..]].concat();
        assert_floats(&tables.vertex_floats, &points.concat());
        assert_cells(&wires.uses, &wire(after));
        assert_cells(&wires.lengths, &[4]);
    }
}

/// K9's edges with bevels, of which edge 0 is a seam, and a closed edge 5.
fn mixed(wires: &[&str], room: usize) -> Shell {
    let ends = [&PIPE[..], &[[2, 2]]].concat();
    let mut shell = Shell::new(&[[0.5; 3]; 4], &ends, wires, room);
    for (edge, preparation) in [0, 1, 2, 1, 2, 1].into_iter().enumerate() {
        shell.prepare(edge, preparation);
    }
    shell.tables.edge_numbers[2] = SEAM;
    let seam = [0.25, 0.5, -0.75, 1.0, -1.0, 8.0];
    shell.tables.edge_floats[..6].copy_from_slice(&seam);
    shell
}

#[test]
fn pieces_of_a_seam() {
    let mut shell = mixed(&["0- 0+"], 4);
    let before = shell.tables.clone();
    let cuts = [[0.0; 4], [1.5; 4]];
    assert_eq!(cut_at(&mut shell, 0, &cuts), Ok(counts(6, 8, 6)));
    let Shell { tables, wires } = shell;
    assert_eq!(tables.edge_numbers[..5], [0, 4, 1, 7, 0]);
    assert_eq!(tables.edge_numbers[5..30], before.edge_numbers[5..30]);
    let new = [[4, 5, 1, 7, 0], [5, 2, 1, 7, 0]].concat();
    assert_cells(&tables.edge_numbers[30..], &new);
    let ranges = [[-1.0, 0.0], [0.0, 1.5], [1.5, 8.0]];
    let [first, second, third] = ranges.map(|[t0, t1]| [0.25, 0.5, -0.75, 1.0, t0, t1]);
    assert_eq!(tables.edge_floats[..6], first);
    assert_eq!(
        bits(&tables.edge_floats[6..36]),
        bits(&before.edge_floats[6..36])
    );
    assert_floats(&tables.edge_floats[36..], &[second, third].concat());
    assert_cells(&wires.uses, &wire("7- 6- 0- 0+ 6+ 7+"));
}

#[test]
fn one_cut_at_a_point_is_the_one_cut() {
    for edge in 0..6 {
        for t in [0.0, -0.0, 1.0 / 3.0, 8.0] {
            let mut shell = mixed(&["5+ 0+ 5- 1-", "", "0- 3+ 2+ 4+"], 4);
            let mut other = shell.clone();
            let cut = [t, 0.25, -0.0, 1.0e15];
            let cuts = Cuts {
                floats: &cut,
                count: 1,
            };
            let (tables, wires) = other.lend();
            let one = cut_edge_by_intersections(tables, wires, cuts, edge);
            assert!(one.is_ok());
            assert_eq!(cut_at(&mut shell, edge, &[cut]), one);
            assert_eq!(shell.cells(), other.cells());
        }
    }
}

#[test]
fn no_cut_at_points_changes_nothing() {
    for edge in 0..6 {
        let mut shell = mixed(&[PIPE_WIRE, ""], 0);
        let before = shell.cells();
        assert_eq!(cut_at(&mut shell, edge, &[]), Ok(counts(4, 6, 6)));
        assert_eq!(shell.cells(), before);
    }
}

#[test]
fn as_many_cuts_and_uses_as_there_may_be() {
    let most = MAX_CUTS as u32;
    // Fifteen uses of edge 0, and as many others as fill up the uses.
    let notation = "0+ 0- ".repeat(7) + "0-" + &" 1+".repeat(MAX_USES - 15 * (MAX_CUTS + 1));
    let mut shell = Shell::new(&[[0.0; 3]; 2], &[[0, 1]; 2], &[&notation], 15 * MAX_CUTS);
    // The first cut is at t0 and the last at t1.
    let parameter = |cut: u32| 8.0 * f64::from(cut) / f64::from(most - 1);
    let cuts: Vec<_> = (0..most)
        .map(|cut| [parameter(cut), 1.0, 2.0, cut.into()])
        .collect();
    let done = counts(2 + MAX_CUTS, 2 + MAX_CUTS, MAX_USES);
    assert_eq!(cut_at(&mut shell, 0, &cuts), Ok(done));
    let Shell { tables, wires } = shell;
    // Of the new edges 2 to 65 each begins at the vertex of its number.
    let last = most + 1;
    let between = (2..last).map(|edge| [edge, edge + 1, 0, 7, 0]);
    let mut edges = vec![[0, 2, 0, 7, 0], [0, 1, 0, 7, 0]];
    edges.extend(between.chain([[last, 1, 0, 7, 0]]));
    assert_cells(&tables.edge_numbers, &edges.concat());
    let between = (1..most).map(|cut| span(parameter(cut - 1), parameter(cut)));
    let mut ranges = vec![span(0.0, 0.0), span(0.0, 8.0)];
    ranges.extend(between.chain([span(8.0, 8.0)]));
    assert_floats(&tables.edge_floats, &ranges.concat());
    let mut points = vec![given(0.0, 0.0, 0.0); 2];
    points.extend((0..most).map(|cut| given(1.0, 2.0, cut.into())));
    assert_floats(&tables.vertex_floats, &points.concat());
    let chain = [0].into_iter().chain(2..=last);
    let forward: Vec<_> = chain.map(|edge| 2 * edge).collect();
    let backwards: Vec<_> = forward.iter().rev().map(|used| used + 1).collect();
    let both = [&forward[..], &backwards].concat().repeat(7);
    let others = wire(&"1+ ".repeat(MAX_USES - 15 * (MAX_CUTS + 1)));
    assert_eq!(wires.uses, [both, backwards, others].concat());
    assert_cells(&wires.lengths, &[MAX_USES as u32]);
}

/// Cuts an edge at points and takes over the counts, as a host does.
fn cut_on(shell: &mut Shell, edge: u32, cuts: &[[f64; 4]]) {
    let counts = cut_at(shell, edge, cuts).unwrap();
    shell.tables.vertices = counts.vertices;
    shell.tables.edges = counts.edges;
}

#[test]
fn pieces_are_cut_again() {
    let mut shell = Shell::pipe(&["1+ 2-", "1-"], 10);
    let at = |t| [t, t, 0.0, 0.0];
    cut_on(&mut shell, 1, &[2.0, 5.0].map(at));
    cut_on(&mut shell, 5, &[3.0, 4.0, 5.0].map(at));
    let Shell { tables, wires } = shell;
    let ends = [[4, 6], [5, 1], [6, 7], [7, 8], [8, 5]];
    let edges = ends.map(|[front, back]| [front, back, 0, 7, 0]);
    assert_cells(&tables.edge_numbers[25..], &edges.concat());
    let ranges = [[2.0, 3.0], [5.0, 8.0], [3.0, 4.0], [4.0, 5.0], [5.0, 5.0]];
    let ranges = ranges.map(|[t0, t1]| span(t0, t1));
    assert_floats(&tables.edge_floats[30..], &ranges.concat());
    let points = [2.0, 5.0, 3.0, 4.0, 5.0].map(|t| given(t, 0.0, 0.0));
    assert_floats(&tables.vertex_floats[28..], &points.concat());
    let chained = ["1+ 5+ 7+ 8+ 9+ 6+ 2-", "6- 9- 8- 7- 5- 1-"];
    assert_cells(&wires.uses, &chained.map(wire).concat());
    assert_cells(&wires.lengths, &[7, 6]);
}

#[test]
fn a_split_after_cuts_at_points() {
    // A half of the upper rim of K10, which its wire uses once.
    let mut shell = Shell::pipe(&[PIPE_WIRE], 3);
    cut_on(&mut shell, 3, &[[2.0; 4], [6.0; 4]]);
    assert_cells(&shell.wires.uses, &wire("1+ 2+ 0+ 3+ 5+ 6+ 4+ 0-"));
    let mut split = Split::new(shell, &[3, 1]);
    split.uses = vec![MARK; 10];
    split.lengths = vec![MARK; 10];
    let rebuilt = Rebuilt {
        wires: 2,
        uses: 10,
        edges: 8,
    };
    assert_eq!(split.ask(), Ok(rebuilt));
    // K10's wires, with the chain for the use of the edge that was cut.
    let built = ["0+ 3+ 5+ 6+ 7+ 2+", "1+ 7- 4+ 0-"];
    assert_eq!(split.uses, built.map(wire).concat());
    assert_cells(&split.lengths, &[6, 4]);
}

#[test]
fn k10_a_split() {
    let mut split = Split::new(Shell::pipe(&[PIPE_WIRE], 1), &[3, 1]);
    let rebuilt = Rebuilt {
        wires: 2,
        uses: 8,
        edges: 6,
    };
    assert_eq!(split.ask(), Ok(rebuilt));
    assert_eq!(split.shell.tables.edge_numbers[25..], [3, 1, 1, 3, 0]);
    let seam = [0.0, 1.0, 2.0, 3.0, 0.0, 1.0];
    assert_eq!(split.shell.tables.edge_floats[30..], seam);
    let built = [wire("0+ 3+ 5+ 2+"), wire("1+ 5- 4+ 0-"), vec![MARK]];
    assert_eq!(split.uses, built.concat());
    assert_eq!(split.lengths[..3], [4, 4, MARK]);
}

#[test]
fn k11_to_k14_splits() {
    let split = |ends: &[[u32; 2]], notation: &str, list: &[u32]| {
        let shell = Shell::new(&[[0.0; 3]; 2], ends, &[notation], 1);
        let mut split = Split::new(shell, list);
        split.ask().map(|rebuilt| (rebuilt, split))
    };
    let refused = |ends: &[[u32; 2]], notation, list| split(ends, notation, list).err();
    assert_eq!(refused(&[[0, 1]], "0+", &[]), Some(Refusal::DeadEnd));
    let crowd = [[0, 1], [0, 1], [0, 1], [1, 0], [1, 0], [1, 0]];
    let uses = "0+ 1+ 2+ 3+ 4+ 5+";
    assert_eq!(refused(&crowd, uses, &[]), Some(Refusal::TooManyUses));
    let (rebuilt, made) = split(&[[0, 0]; 3], "0+ 1+ 2+", &[]).unwrap();
    assert_eq!((rebuilt.wires, rebuilt.uses, rebuilt.edges), (3, 3, 3));
    assert_eq!(made.uses[..4], [wire("2+ 1+ 0+"), vec![MARK]].concat());
    assert_eq!(made.lengths[..4], [1, 1, 1, MARK]);
    assert_eq!(refused(&[[0, 1]], "", &[0]), Some(Refusal::OddDivisor));
    let (rebuilt, _) = split(&[[0, 1]], "", &[]).unwrap();
    assert_eq!((rebuilt.wires, rebuilt.uses, rebuilt.edges), (0, 0, 1));
}

#[test]
fn k15_and_k16_joins() {
    let [first, second] = ["1+ 2+", "3+ 4+"].map(wire);
    let open = [first[..].into(), second[..].into()];
    let mut shell = Shell::pipe(&["0+ 0-"], 4);
    let before = shell.cells();
    let (edges, wires) = shell.lend_wires();
    let turned = [open[1], open[0]];
    let none = connect_open_boundaries(edges, turned, wires, [0, 2]);
    assert_eq!((none, shell.cells()), (Ok(None), before));
    let (edges, wires) = shell.lend_wires();
    let joined = connect_open_boundaries(edges, open, wires, [0, 2]);
    assert_eq!(joined, Ok(Some(6)));
    assert_eq!(shell.wires.uses, wire("0- 1+ 2+ 0+ 3+ 4+"));
    assert_eq!(shell.wires.lengths[..2], [6, MARK]);
}

#[test]
fn k17_to_k19_kinds_of_wires() {
    let kind = |u, area| boundary_type([0.0, 0.0], [u, 0.0], area);
    assert_eq!(kind(0.03125, 1.0), Ok(BoundaryType::Positive));
    assert_eq!(kind(0.032, 1.0), Ok(BoundaryType::NotClosed));
    assert_eq!(kind(0.0, 0.0), Ok(BoundaryType::Negative));
}

#[test]
fn sorting() {
    let open_row = [0.0, 0.0, 1.0, 0.0, 0.0];
    let ends = [open_row, [0.0, 0.0, 0.0, 0.0, 1.0], open_row].concat();
    let (mut open, mut closed) = ([MARK; 3], [MARK; 2]);
    let one_open = sort_wires(&ends, 2, &mut open, &mut closed);
    assert_eq!((one_open, open, closed), (Ok(None), [MARK; 3], [MARK; 2]));
    let sorted = sort_wires(&ends, 3, &mut open, &mut closed);
    assert_eq!(sorted, Ok(Some(1)));
    assert_eq!((open, closed), ([0, 2, MARK], [1, MARK]));
}

/// K9's edges with the preparations 0, 1, 2, 1, 2.
fn bevelled_pipe(wires: &[&str], room: usize) -> Shell {
    let mut shell = Shell::pipe(wires, room);
    for (edge, preparation) in [0, 1, 2, 1, 2].into_iter().enumerate() {
        shell.prepare(edge, preparation);
    }
    shell
}

#[test]
fn the_pass_gives_both_pieces_the_preparation_of_the_edge() {
    for k in 1..=7 {
        assert_prepared_alike(k);
    }
}

/// The same for a number of eighths.
fn assert_prepared_alike(k: u32) {
    let ends = [[0, 0], [0, 1], [1, 1], [1, 1]];
    let mut shell = Shell::new(&[[0.0; 3]; 2], &ends, &["0+ 1+ 2- 3- 1-"], 3);
    for (edge, preparation) in [2, 1, 0, 1].into_iter().enumerate() {
        shell.prepare(edge, preparation);
    }
    let (tables, wires) = shell.lend();
    let counts = Counts {
        vertices: 5,
        edges: 7,
        uses: 8,
    };
    assert_eq!(split_closed_edges(tables, wires, k), Ok(counts));
    let Shell { tables, wires } = shell;
    // Edges 0, 2 and 3 are cut, and their second halves are 4, 5 and 6.
    let edges = [
        [0, 2, 0, 7, 2],
        [0, 1, 0, 7, 1],
        [1, 3, 0, 7, 0],
        [1, 4, 0, 7, 1],
        [2, 0, 0, 7, 2],
        [3, 1, 0, 7, 0],
        [4, 1, 0, 7, 1],
    ];
    assert_eq!(tables.edge_numbers, edges.concat());
    // The row of a pending vertex has no preparation.
    assert_eq!(tables.vertex_numbers[6..], [[1, 0, 7]; 3].concat());
    assert_eq!(wires.uses, wire("0+ 4+ 1+ 5- 2- 6- 3- 1-"));
}

#[test]
fn one_cut_gives_both_pieces_the_preparation_of_the_edge() {
    for preparation in [0, 1, 2] {
        let mut shell = Shell::pipe(&["1+ 0+ 1-"], 2);
        shell.prepare(0, 1);
        shell.prepare(1, preparation);
        shell.prepare(2, 2);
        let mut cut = |count| {
            let floats = &[2.0, 1.0, 0.0, 3.0];
            let (tables, wires) = shell.lend();
            cut_edge_by_intersections(tables, wires, Cuts { floats, count }, 1)
        };
        let counts = [cut(0), cut(1)].map(|counts| counts.unwrap().edges);
        assert_eq!(counts, [5, 6]);
        let edges = [
            [0, 2, 0, 7, 1],
            [0, 4, 0, 7, preparation],
            [1, 0, 0, 7, 2],
            [2, 3, 0, 7, 0],
            [3, 2, 0, 7, 0],
            [4, 1, 0, 7, preparation],
        ];
        assert_eq!(shell.tables.edge_numbers[..30], edges.concat());
        assert_eq!(shell.tables.edge_numbers[30..], [MARK; 5]);
    }
}

#[test]
fn no_cut_keeps_the_preparations() {
    let mut shell = bevelled_pipe(&[PIPE_WIRE], 1);
    let before = shell.cells();
    let (tables, wires) = shell.lend();
    let cuts = Cuts {
        floats: &[],
        count: 0,
    };
    let counts = Counts {
        vertices: 4,
        edges: 5,
        uses: 6,
    };
    let kept = cut_edge_by_intersections(tables, wires, cuts, 2);
    assert_eq!((kept, shell.cells()), (Ok(counts), before));
}

#[test]
fn seams_are_square_beside_edges_that_are_not() {
    let pipe = [
        [0, 2, 0, 7, 0],
        [0, 1, 0, 7, 1],
        [1, 0, 0, 7, 2],
        [2, 3, 0, 7, 1],
        [3, 2, 0, 7, 2],
    ];
    let mut split = Split::new(bevelled_pipe(&[PIPE_WIRE], 1), &[3, 1]);
    assert_eq!(split.ask().map(|rebuilt| rebuilt.edges), Ok(6));
    let edges = [&pipe[..], &[[3, 1, 1, 3, 0]]].concat();
    assert_eq!(split.shell.tables.edge_numbers, edges.concat());
    let mut split = Split::new(bevelled_pipe(&[], 2), &[0, 1, 2, 3]);
    assert_eq!(split.ask().map(|rebuilt| rebuilt.edges), Ok(7));
    let edges = [&pipe[..], &[[0, 1, 1, 3, 0], [2, 3, 1, 3, 0]]].concat();
    assert_eq!(split.shell.tables.edge_numbers, edges.concat());
}

#[test]
fn the_other_calls_answer_as_over_square_edges() {
    let shell = bevelled_pipe(&[PIPE_WIRE], 0);
    let tables = shell.tables.lend();
    let search = find_non_simple_wire_divisor(tables, shell.wires.lend());
    assert_eq!(search, Ok(Some([3, 1])));
    let [first, second] = ["1+ 2+", "3+ 4+"].map(wire);
    let open: [Stretch<'_>; 2] = [first[..].into(), second[..].into()];
    let nearest = nearest_correction(tables, open[1], open[0], 3);
    assert_eq!(nearest, Ok(Some([3, 1])));
    let mut shell = bevelled_pipe(&["0+ 0-"], 4);
    let (edges, wires) = shell.lend_wires();
    let joined = connect_open_boundaries(edges, open, wires, [0, 2]);
    assert_eq!(joined, Ok(Some(6)));
    assert_eq!(shell.wires.uses, wire("0- 1+ 2+ 0+ 3+ 4+"));
}
