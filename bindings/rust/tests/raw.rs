//! What only the lower layer can be asked: kinds that are no kinds, counts
//! past everything, and whether out places keep what they held.

use kaugrenna::raw::{self, Period, DONE, NONE};
use kaugrenna::{Cuts, Divisor, Edges, OwnedTables, OwnedWires, Room};
use kaugrenna::{Stretch, Tables, Wires, WiresMut, MIDDLE};

/// What a float place holds before a call: a NaN that signals.
const MARK: u64 = 0x7ff0_0000_0000_0001;

/// Tables of nothing.
const EMPTY: Tables<'_> = Tables {
    vertex_numbers: &[],
    vertex_floats: &[],
    edge_numbers: &[],
    edge_floats: &[],
    vertices: 0,
    edges: 0,
};

/// Places for an answer of three counts.
fn counts(call: impl FnOnce([&mut usize; 3]) -> i32) -> (i32, [usize; 3]) {
    let mut out = [7, 8, 9];
    let code = call(out.each_mut());
    (code, out)
}

#[test]
fn a_period_of_any_kind() {
    let ask = |kind, size| {
        let mut out = f64::from_bits(MARK);
        let code = raw::get_mindiff(0.5, 6.0, Period { kind, size }, &mut out);
        (code, out.to_bits())
    };
    assert_eq!(ask(1, 4.0), (DONE, 4.5_f64.to_bits()));
    assert_eq!(ask(0, f64::NAN), (DONE, 0.5_f64.to_bits()));
    assert_eq!(ask(2, 4.0), (1, MARK));
    assert_eq!(ask(u32::MAX, f64::NAN), (1, MARK));
    assert_eq!(ask(1, f64::from_bits(MARK)), (4, MARK));
    let mut copy = [f64::from_bits(MARK); 2];
    let wrong = Period { kind: 3, size: 1.0 };
    let periods = [Period { kind: 1, size: 1.0 }, wrong];
    let code = raw::nearest_copy([0.0; 2], [0.0; 2], periods, copy.each_mut());
    assert_eq!((code, copy.map(f64::to_bits)), (1, [MARK; 2]));
}

#[test]
fn a_parameter_and_its_place() {
    let ask = |t0, t1, k| {
        let mut out = f64::from_bits(MARK);
        let code = raw::cut_parameter(t0, t1, k, &mut out);
        (code, out.to_bits())
    };
    assert_eq!(ask(0.0, 8.0, 1), (DONE, 1.0_f64.to_bits()));
    assert_eq!(ask(0.0, 8.0, MIDDLE), (DONE, 4.0_f64.to_bits()));
    for k in [0, 8, u32::MAX] {
        assert_eq!(ask(0.0, 8.0, k), (18, MARK));
        assert_eq!(ask(8.0, 0.0, k), (5, MARK));
        assert_eq!(ask(f64::NAN, 0.0, k), (4, MARK));
    }
}

#[test]
fn places_after_none_and_after_refusals() {
    let mut closed = 9;
    let none = raw::sort_wires(&[], 0, &mut [], &mut [], &mut closed);
    assert_eq!((none, closed), (NONE, 9));
    let mut kind = 9;
    let refused = raw::boundary_type([f64::NAN; 2], [0.0; 2], 0.0, &mut kind);
    assert_eq!((refused, kind), (4, 9));
    let nothing = Stretch::from(&[][..]);
    let mut ends = [8, 9];
    let refused = raw::nearest_correction(EMPTY, nothing, nothing, 0, ends.each_mut());
    assert_eq!((refused, ends), (2, [8, 9]));
    let wires = Wires {
        uses: &[],
        lengths: &[],
        count: 0,
    };
    let none = raw::find_non_simple_wire_divisor(EMPTY, wires, ends.each_mut());
    assert_eq!((none, ends), (NONE, [8, 9]));
}

#[test]
fn counts_past_everything() {
    let most = Edges {
        numbers: &[],
        floats: &[],
        count: usize::MAX,
        vertices: usize::MAX,
    };
    let past = Stretch {
        uses: &[],
        count: usize::MAX,
    };
    let new = WiresMut {
        uses: &mut [],
        lengths: &mut [],
        count: usize::MAX,
    };
    let mut uses = 9;
    let refused = raw::connect_open_boundaries(most, [past; 2], new, [u32::MAX; 2], &mut uses);
    assert_eq!((refused, uses), (1, 9));
    let tables = kaugrenna::TablesMut {
        vertex_numbers: &mut [],
        vertex_floats: &mut [],
        edge_numbers: &mut [],
        edge_floats: &mut [],
        vertices: usize::MAX,
        edges: usize::MAX,
    };
    let wires = WiresMut {
        uses: &mut [],
        lengths: &mut [],
        count: usize::MAX,
    };
    let asked = counts(|out| raw::split_closed_edges(tables, wires, u32::MAX, out));
    assert_eq!(asked, (1, [7, 8, 9]));
}

/// One vertex and a closed edge with an unknown preparation.
fn unknown_preparation() -> OwnedTables {
    OwnedTables {
        vertex_numbers: vec![0; 6],
        vertex_floats: vec![0.0; 14],
        edge_numbers: vec![0, 0, 0, 7, 3, 0, 0, 0, 0, 0],
        edge_floats: vec![0.0; 12],
        vertices: 1,
        edges: 1,
    }
}

#[test]
fn places_of_the_pass_after_eighths_that_are_refused() {
    let (mut tables, mut wires) = (OwnedTables::default(), OwnedWires::default());
    let mut pass =
        |k| counts(|out| raw::split_closed_edges(tables.lend_mut(), wires.lend_mut(), k, out));
    assert_eq!(pass(MIDDLE), (DONE, [0; 3]));
    for k in [0, 8, u32::MAX] {
        assert_eq!(pass(k), (18, [7, 8, 9]));
    }
}

#[test]
fn places_of_cuts_at_points() {
    // Two vertices, the edge (0, 1) from 0 to 8 and the wire 0-, with room for
    // two cuts.
    let mut tables = OwnedTables {
        vertex_numbers: vec![0; 12],
        vertex_floats: vec![0.0; 28],
        edge_numbers: vec![0; 15],
        edge_floats: vec![0.0; 18],
        vertices: 2,
        edges: 1,
    };
    tables.edge_numbers[1] = 1;
    tables.edge_floats[5] = 8.0;
    let mut wires = OwnedWires {
        uses: vec![1, 0, 0],
        lengths: vec![1],
        count: 1,
    };
    let mut cut = |parameters: &[f64], count, edge| {
        let floats = parameters.iter().flat_map(|&t| [t, 0.0, 0.0, 0.0]);
        let floats = &floats.collect::<Vec<_>>();
        let cuts = Cuts { floats, count };
        counts(|out| {
            let (tables, wires) = (tables.lend_mut(), wires.lend_mut());
            raw::cut_edge_at_points(tables, wires, cuts, edge, out)
        })
    };
    let refused = |code| (code, [7, 8, 9]);
    assert_eq!(cut(&[1.0], usize::MAX, 0), refused(1));
    assert_eq!(cut(&[1.0], 2, 0), refused(1));
    assert_eq!(cut(&[], 0, 1), refused(3));
    assert_eq!(cut(&[1.0, f64::from_bits(MARK)], 2, 0), refused(4));
    assert_eq!(cut(&[1.0, 8.5], 2, 0), refused(5));
    assert_eq!(cut(&[1.0; 65], 65, 0), refused(16));
    assert_eq!(cut(&[1.0; 64], 64, 0), refused(17));
    assert_eq!(cut(&[1.0, 2.0, 3.0], 3, 0), refused(6));
    assert_eq!(cut(&[], 0, 0), (DONE, [2, 1, 1]));
    assert_eq!(cut(&[1.0, 2.0], 2, 0), (DONE, [4, 3, 3]));
    assert_eq!((wires.uses, wires.lengths), (vec![5, 3, 1], vec![3]));
}

#[test]
fn places_of_the_cuts_after_an_unknown_preparation() {
    let mut wires = OwnedWires::default();
    let mut tables = unknown_preparation();
    for k in [MIDDLE, 0] {
        let pass =
            counts(|out| raw::split_closed_edges(tables.lend_mut(), wires.lend_mut(), k, out));
        assert_eq!(pass, (1, [7, 8, 9]));
    }
    let cuts = Cuts {
        floats: &[0.0; 4],
        count: 1,
    };
    for cut in [raw::cut_edge_by_intersections, raw::cut_edge_at_points] {
        let cut = counts(|out| cut(tables.lend_mut(), wires.lend_mut(), cuts, 0, out));
        assert_eq!(cut, (1, [7, 8, 9]));
    }
    assert_eq!(tables.edge_numbers, unknown_preparation().edge_numbers);
}

#[test]
fn places_of_the_lookups_after_an_unknown_preparation() {
    let (tables, wires) = (unknown_preparation(), OwnedWires::default());
    let nothing = Stretch::from(&[][..]);
    let mut ends = [8, 9];
    let nearest = raw::nearest_correction(tables.lend(), nothing, nothing, 0, ends.each_mut());
    assert_eq!((nearest, ends), (1, [8, 9]));
    let search = raw::find_non_simple_wire_divisor(tables.lend(), wires.lend(), ends.each_mut());
    assert_eq!((search, ends), (1, [8, 9]));
}

#[test]
fn places_of_split_and_join_after_an_unknown_preparation() {
    let mut tables = unknown_preparation();
    let mut wires = OwnedWires::default();
    let divisor = Divisor {
        vertices: &[],
        points: &[],
        count: 0,
        surface: 0,
    };
    let split = counts(|out| {
        let room = Room {
            uses: &mut [],
            lengths: &mut [],
        };
        let face = [wires.lend(); 2];
        raw::split_boundaries_by_divisor(tables.edges_mut(), face, divisor, room, out)
    });
    assert_eq!(split, (1, [7, 8, 9]));
    let open = [Stretch::from(&[0][..]); 2];
    let mut uses = 9;
    let join =
        raw::connect_open_boundaries(tables.edges(), open, wires.lend_mut(), [0; 2], &mut uses);
    assert_eq!((join, uses), (1, 9));
}
