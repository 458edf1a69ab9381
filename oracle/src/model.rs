//! The refusals, written down from the table of the specification, with A.5 for
//! preparations, A.3 for k and A.1 for several cuts, and from nothing else: one
//! function for each cause.

pub mod cut;
pub mod eighths;
pub mod join;
pub mod near;
pub mod search;
pub mod several_cuts;
pub mod split;

use crate::shell::{Lent, Tables};
use crate::shell::{EDGE_FLOATS, EDGE_NUMBERS, PREPARATION, VERTEX_FLOATS, VERTEX_NUMBERS};

/// Most vertices in a table.
pub const MOST_VERTICES: usize = 4096;
/// Most edges in a table.
pub const MOST_EDGES: usize = 4096;
/// Most wires into a call.
pub const MOST_WIRES: usize = 64;
/// Most uses in all wires of a call, and most uses out.
pub const MOST_USES: usize = 1024;
/// Greatest size of a float that is handed in.
pub const MOST_SIZE: f64 = 1.0e15;

/// A number, and whether its cause holds.
type Cause<'a> = (i32, &'a dyn Fn() -> bool);

/// The first number whose cause holds. A later cause is only asked for where
/// no earlier one holds, so that every row it reads is there.
fn lowest(causes: &[Cause]) -> Option<i32> {
    let mut causes = causes.iter();
    let (number, _) = causes.find(|(_, holds)| holds())?;
    Some(*number)
}

/// The number under which tables and wires are refused, whatever their result
/// would be: the lowest of 1 to 5 whose cause holds.
pub fn refused(lent: &Lent) -> Option<i32> {
    let tables = &lent.tables;
    let uses = || &lent.uses[..use_count(lent) as usize];
    lowest(&[
        (1, &|| tables_passed(tables)),
        (1, &|| wires_passed(lent)),
        (1, &|| kind_or_preparation_unknown(tables)),
        (2, &|| end_unknown(tables)),
        (3, &|| use_unknown(uses(), tables.edges)),
        (4, &|| float_unfit(tables)),
        (5, &|| range_unfit(tables)),
    ])
}

/// 1: a count of a table is above its bound or above what was lent.
fn tables_passed(tables: &Tables) -> bool {
    tables.vertices > MOST_VERTICES
        || tables.vertices * VERTEX_NUMBERS > tables.vertex_numbers.len()
        || tables.vertices * VERTEX_FLOATS > tables.vertex_floats.len()
        || edges_passed(tables)
}

/// 1: the count of the edge table is above its bound or above what was lent.
fn edges_passed(tables: &Tables) -> bool {
    tables.edges > MOST_EDGES
        || tables.edges * EDGE_NUMBERS > tables.edge_numbers.len()
        || tables.edges * EDGE_FLOATS > tables.edge_floats.len()
}

/// 1: the wire count or the sum of the wire lengths is above its bound or
/// above what was lent.
fn wires_passed(lent: &Lent) -> bool {
    if lent.wires > MOST_WIRES || lent.wires > lent.lengths.len() {
        return true;
    }
    let sum = use_count(lent);
    sum > MOST_USES as u128 || sum > lent.uses.len() as u128
}

/// The sum of the wire lengths. The wire count is within the lengths here.
fn use_count(lent: &Lent) -> u128 {
    let lengths = &lent.lengths[..lent.wires];
    lengths.iter().map(|&length| u128::from(length)).sum()
}

/// 1: the kind of an edge, of a vertex, or of a pending vertex's curve is
/// none of 0 and 1, or the preparation of an edge none of 0, 1 and 2. A given
/// vertex has no curve kind, and a pending vertex's curve no preparation.
fn kind_or_preparation_unknown(tables: &Tables) -> bool {
    let vertex = |row: usize| {
        let numbers = vertex_numbers(tables, row);
        numbers[0] > 1 || (numbers[0] == 1 && numbers[1] > 1)
    };
    edge_kind_or_preparation_unknown(tables) || (0..tables.vertices).any(vertex)
}

/// 1: the kind of an edge is none of 0 and 1, or its preparation none of 0, 1
/// and 2.
fn edge_kind_or_preparation_unknown(tables: &Tables) -> bool {
    (0..tables.edges).any(|row| {
        let numbers = edge_numbers(tables, row);
        numbers[2] > 1 || numbers[PREPARATION] > 2
    })
}

/// 2: a vertex number in the edge table is not below the vertex count.
fn end_unknown(tables: &Tables) -> bool {
    (0..tables.edges).any(|row| {
        let numbers = edge_numbers(tables, row);
        numbers[0] as usize >= tables.vertices || numbers[1] as usize >= tables.vertices
    })
}

/// 3: an edge number is not below the edge count.
fn use_unknown(uses: &[u32], edges: usize) -> bool {
    uses.iter().any(|&number| number as usize / 2 >= edges)
}

/// A float is not a number or above 1.0e15 in size.
fn unfit(float: f64) -> bool {
    float.is_nan() || float.abs() > MOST_SIZE
}

/// 4: a float of a table is not a number or above 1.0e15 in size.
fn float_unfit(tables: &Tables) -> bool {
    let vertex = |row: usize| {
        let numbers = vertex_numbers(tables, row);
        if numbers[0] == 0 {
            return (0..3).any(|cell| unfit(vertex_float(tables, row, cell)));
        }
        let mut cells = curve_cells(numbers[1]).chain([6]);
        cells.any(|cell| unfit(vertex_float(tables, row, cell)))
    };
    edge_float_unfit(tables) || (0..tables.vertices).any(vertex)
}

/// 4: a float of an edge is not a number or above 1.0e15 in size.
fn edge_float_unfit(tables: &Tables) -> bool {
    (0..tables.edges).any(|row| {
        let kind = edge_numbers(tables, row)[2];
        curve_cells(kind).any(|cell| unfit(edge_float(tables, row, cell)))
    })
}

/// 5: t0 is above t1, or a pending parameter is outside its curve's range.
fn range_unfit(tables: &Tables) -> bool {
    let vertex = |row: usize| {
        let [t0, t1, t] = [4, 5, 6].map(|cell| vertex_float(tables, row, cell));
        vertex_numbers(tables, row)[0] == 1 && (t0 > t1 || t < t0 || t > t1)
    };
    edge_range_unfit(tables) || (0..tables.vertices).any(vertex)
}

/// 5: t0 of an edge is above its t1.
fn edge_range_unfit(tables: &Tables) -> bool {
    (0..tables.edges).any(|row| edge_float(tables, row, 4) > edge_float(tables, row, 5))
}

/// 7: a vertex is pending.
fn any_pending(tables: &Tables) -> bool {
    (0..tables.vertices).any(|row| vertex_numbers(tables, row)[0] == 1)
}

/// 6: a result of so many vertices, edges and uses passes a bound on a count,
/// or a lent buffer is too short for it.
pub fn cause_6(lent: &Lent, [vertices, edges, uses]: [usize; 3]) -> bool {
    vertices > MOST_VERTICES
        || edges > MOST_EDGES
        || uses > MOST_USES
        || vertices * VERTEX_NUMBERS > lent.tables.vertex_numbers.len()
        || vertices * VERTEX_FLOATS > lent.tables.vertex_floats.len()
        || edges * EDGE_NUMBERS > lent.tables.edge_numbers.len()
        || edges * EDGE_FLOATS > lent.tables.edge_floats.len()
        || uses > lent.uses.len()
}

/// What the result of an input that passes 1 to 5 counts: one vertex and one
/// edge more for each closed edge, one use more for each use of such an edge.
pub fn result_counts(lent: &Lent) -> [usize; 3] {
    let closed = |row: usize| {
        let numbers = edge_numbers(&lent.tables, row);
        numbers[0] == numbers[1]
    };
    let more = (0..lent.tables.edges).filter(|&row| closed(row)).count();
    let uses = &lent.uses[..use_count(lent) as usize];
    let doubled = uses.iter().filter(|&&number| closed(number as usize / 2));
    [
        lent.tables.vertices + more,
        lent.tables.edges + more,
        uses.len() + doubled.count(),
    ]
}

/// The float cells that a curve of a kind has: a seam all six, a span only
/// its two parameters.
fn curve_cells(kind: u32) -> std::ops::Range<usize> {
    if kind == 1 {
        0..6
    } else {
        4..6
    }
}

/// The number cells of an edge.
fn edge_numbers(tables: &Tables, row: usize) -> &[u32] {
    &tables.edge_numbers[row * EDGE_NUMBERS..][..EDGE_NUMBERS]
}

/// The number cells of a vertex.
fn vertex_numbers(tables: &Tables, row: usize) -> &[u32] {
    &tables.vertex_numbers[row * VERTEX_NUMBERS..][..VERTEX_NUMBERS]
}

/// A float cell of an edge.
fn edge_float(tables: &Tables, row: usize, cell: usize) -> f64 {
    f64::from_bits(tables.edge_floats[row * EDGE_FLOATS + cell])
}

/// A float cell of a vertex.
fn vertex_float(tables: &Tables, row: usize, cell: usize) -> f64 {
    f64::from_bits(tables.vertex_floats[row * VERTEX_FLOATS + cell])
}
