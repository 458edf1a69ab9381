//! The causes that tables and wires meet, all of them in any order.

use crate::port::{Join, Nearest, Rows, Split, Wires};
use crate::shell::{EDGE_FLOATS, EDGE_NUMBERS, PREPARATION, VERTEX_FLOATS, VERTEX_NUMBERS};

/// The steps of the checks.
#[derive(Clone, Copy)]
pub struct Steps {
    /// All causes of a refusal among 1 to 5 that tables and wires meet.
    pub causes: fn(&Rows, &Wires) -> Vec<i32>,
    /// All causes of a refusal among 1 to 5 that nearest ends meets.
    pub nearest_causes: fn(&Nearest) -> Vec<i32>,
    /// All causes of a refusal among 1 to 5 that a join meets.
    pub join_causes: fn(&Join) -> Vec<i32>,
    /// All causes of a refusal among 1 to 5 that a split meets.
    pub split_causes: fn(&Split) -> Vec<i32>,
    /// Whether a vertex is pending that must not be, from the tables and the
    /// uses that are gone through.
    pub pending: fn(&Rows, &[u32]) -> bool,
    /// The cause that wins.
    pub choose: fn(&[i32]) -> Option<i32>,
}

impl Default for Steps {
    fn default() -> Self {
        Steps {
            causes,
            nearest_causes,
            join_causes,
            split_causes,
            pending,
            choose: |causes| causes.iter().min().copied(),
        }
    }
}

/// A row of a table: its numbers and its floats.
type Row<'a> = (&'a [u32], &'a [u64]);

/// The rows of the edge table below the count.
pub fn edge_rows<'a>(rows: &Rows<'a>) -> impl Iterator<Item = Row<'a>> {
    let numbers = rows.edge_numbers.chunks(EDGE_NUMBERS);
    numbers
        .zip(rows.edge_floats.chunks(EDGE_FLOATS))
        .take(rows.edges)
}

/// The rows of the vertex table below the count.
pub fn vertex_rows<'a>(rows: &Rows<'a>) -> impl Iterator<Item = Row<'a>> {
    let numbers = rows.vertex_numbers.chunks(VERTEX_NUMBERS);
    numbers
        .zip(rows.vertex_floats.chunks(VERTEX_FLOATS))
        .take(rows.vertices)
}

/// Whether the buffers have room for so many vertices and edges.
pub fn have_room(rows: &Rows, vertices: usize, edges: usize) -> bool {
    rows.vertex_numbers.len() / VERTEX_NUMBERS >= vertices
        && rows.vertex_floats.len() / VERTEX_FLOATS >= vertices
        && rows.edge_numbers.len() / EDGE_NUMBERS >= edges
        && rows.edge_floats.len() / EDGE_FLOATS >= edges
}

/// Whether both counts are within their bounds and the buffers.
fn counts_fit(rows: &Rows) -> bool {
    rows.vertices <= 4096 && rows.edges <= 4096 && have_room(rows, rows.vertices, rows.edges)
}

/// All causes among 1 to 5 that tables and wires meet.
pub fn causes(rows: &Rows, wires: &Wires) -> Vec<i32> {
    let (Some(used), true) = (use_count(wires), counts_fit(rows)) else {
        return vec![1];
    };
    let mut found = row_causes(rows);
    found.extend(use_causes(&wires.uses[..used], rows.edges));
    found
}

/// All causes among 1 to 5 that nearest ends meets.
pub fn nearest_causes(call: &Nearest) -> Vec<i32> {
    let (first, second) = (
        call.first.get(..call.first_count),
        call.second.get(..call.second_count),
    );
    let (Some(first), Some(second), true) = (first, second, counts_fit(&call.rows)) else {
        return vec![1];
    };
    let mut found = row_causes(&call.rows);
    found.extend((first.len() + second.len() > 1024).then_some(1));
    found.extend((call.v0 as usize >= call.rows.vertices).then_some(2));
    found.extend(use_causes(first, call.rows.edges));
    found.extend(use_causes(second, call.rows.edges));
    found
}

/// All causes among 1 to 5 that a join meets. It has no vertex table, and its
/// two open wires count among the wires.
pub fn join_causes(call: &Join) -> Vec<i32> {
    let rows = &call.rows;
    let (first, second) = (
        call.first.get(..call.first_count),
        call.second.get(..call.second_count),
    );
    let counted = rows.vertices <= 4096 && rows.edges <= 4096 && have_room(rows, 0, rows.edges);
    let (Some(first), Some(second), Some(new), true) =
        (first, second, use_count(&call.new_wires()), counted)
    else {
        return vec![1];
    };
    let mut found = edge_causes(rows);
    found.extend((call.wires > 62 || first.len() + second.len() + new > 1024).then_some(1));
    found.extend((call.v0 as usize >= rows.vertices).then_some(2));
    found.extend((call.v1 as usize >= rows.vertices).then_some(2));
    for uses in [first, second, &call.uses[..new]] {
        found.extend(use_causes(uses, rows.edges));
    }
    found
}

/// All causes among 1 to 5 that a split meets. It has no vertex table, and
/// the bounds hold for both sets of wires together.
pub fn split_causes(call: &Split) -> Vec<i32> {
    let rows = &call.rows();
    let counted = rows.vertices <= 4096 && rows.edges <= 4096 && have_room(rows, 0, rows.edges);
    let floats = call.divisor_count.checked_mul(2);
    let (Some(face), Some(rebuilt), Some(list), Some(points), true) = (
        use_count(&call.face),
        use_count(&call.rebuilt),
        call.divisor.get(..call.divisor_count),
        floats.and_then(|floats| call.points.get(..floats)),
        counted,
    ) else {
        return vec![1];
    };
    let mut found = edge_causes(rows);
    let wires = call.face.wires + call.rebuilt.wires;
    found.extend((wires > 64 || face + rebuilt > 1024).then_some(1));
    let beyond = |&vertex: &u32| vertex as usize >= rows.vertices;
    found.extend(list.iter().any(beyond).then_some(2));
    for uses in [&call.face.uses[..face], &call.rebuilt.uses[..rebuilt]] {
        found.extend(use_causes(uses, rows.edges));
    }
    let fits = |&bits: &u64| sized(f64::from_bits(bits));
    found.extend((!points.iter().all(fits)).then_some(4));
    found
}

/// Whether any vertex is pending, used or not.
pub fn pending(rows: &Rows, _uses: &[u32]) -> bool {
    vertex_rows(rows).any(|(numbers, _)| numbers[0] == 1)
}

/// The sum of the wire lengths, if all counts are in order.
fn use_count(wires: &Wires) -> Option<usize> {
    if wires.wires > 64 {
        return None;
    }
    let mut sum = 0usize;
    for &length in wires.lengths.get(..wires.wires)? {
        sum = sum.checked_add(length as usize)?;
    }
    (sum <= 1024 && sum <= wires.uses.len()).then_some(sum)
}

/// The causes that the rows of both tables meet.
fn row_causes(rows: &Rows) -> Vec<i32> {
    let mut found = edge_causes(rows);
    for (numbers, floats) in vertex_rows(rows) {
        found.extend(vertex_causes(numbers, floats));
    }
    found
}

/// The causes that the rows of the edge table meet.
fn edge_causes(rows: &Rows) -> Vec<i32> {
    let mut found = Vec::new();
    for (numbers, floats) in edge_rows(rows) {
        let ends = numbers[0].max(numbers[1]) as usize;
        found.extend((ends >= rows.vertices).then_some(2));
        found.extend(curve_causes(numbers[2], floats));
        found.extend((numbers[PREPARATION] > 2).then_some(1));
    }
    found
}

/// The cause that a row of uses meets.
pub fn use_causes(uses: &[u32], edges: usize) -> Option<i32> {
    let beyond = |number: &u32| (*number >> 1) as usize >= edges;
    uses.iter().any(beyond).then_some(3)
}

/// The causes that a vertex row meets.
fn vertex_causes(numbers: &[u32], floats: &[u64]) -> Vec<i32> {
    let at = |cell: usize| f64::from_bits(floats[cell]);
    match numbers[0] {
        0 if (0..3).all(|cell| sized(at(cell))) => vec![],
        0 => vec![4],
        1 => {
            let mut found = curve_causes(numbers[1], floats);
            let within = at(4) <= at(6) && at(6) <= at(5);
            found.extend((!sized(at(6))).then_some(4));
            found.extend((!within).then_some(5));
            found
        }
        _ => vec![1],
    }
}

/// The causes that the curve in a row meets.
fn curve_causes(kind: u32, floats: &[u64]) -> Vec<i32> {
    let at = |cell: usize| f64::from_bits(floats[cell]);
    let from = match kind {
        0 => 4,
        1 => 0,
        _ => return vec![1],
    };
    let mut found = Vec::new();
    found.extend(at(4).gt(&at(5)).then_some(5));
    found.extend((!(from..6).all(|cell| sized(at(cell)))).then_some(4));
    found
}

/// Whether a float may be handed in.
pub fn sized(float: f64) -> bool {
    float.abs() <= 1.0e15
}
