//! Inputs in a form that can be read, as far as their buffers reach.

use crate::port::Wires;
use crate::records::{notation, Vertex};
use crate::shell::{read_edge, read_vertex, Lent, Tables, NAMES};
use crate::shell::{EDGE_FLOATS, EDGE_NUMBERS, PREPARATION, VERTEX_FLOATS, VERTEX_NUMBERS};
use std::fmt::Write as _;

/// Tables and wires.
pub fn lent(input: &Lent) -> String {
    let mut text = format!(
        "{} vertices, {} edges, {} wires\n",
        input.tables.vertices, input.tables.edges, input.wires
    );
    for (name, size) in NAMES.iter().zip(input.sizes()) {
        let _ = writeln!(text, "  {name}: {size} cells");
    }
    text + &tables(&input.tables) + &wires(input.wires())
}

/// Wires in notation.
pub fn wires(wires: Wires) -> String {
    let (mut text, mut rest) = (String::new(), wires.uses);
    for (row, &length) in wires.lengths.iter().enumerate().take(wires.wires) {
        let (wire, behind) = rest.split_at(rest.len().min(length as usize));
        rest = behind;
        let wire = notation(wire);
        let _ = writeln!(text, "  wire {row} of length {length}: {wire}");
    }
    text
}

/// The rows of both tables.
pub fn tables(tables: &Tables) -> String {
    let mut text = String::new();
    let numbers = tables.vertex_numbers.chunks_exact(VERTEX_NUMBERS);
    let rows = numbers.zip(tables.vertex_floats.chunks_exact(VERTEX_FLOATS));
    for (row, (numbers, floats)) in rows.enumerate().take(tables.vertices) {
        let _ = writeln!(text, "  vertex {row} = {}", vertex(numbers, floats));
    }
    let numbers = tables.edge_numbers.chunks_exact(EDGE_NUMBERS);
    let rows = numbers.zip(tables.edge_floats.chunks_exact(EDGE_FLOATS));
    for (row, (numbers, floats)) in rows.enumerate().take(tables.edges) {
        let edge = read_edge(numbers, floats);
        let (front, back, curve) = (edge.front, edge.back, edge.curve);
        let (kind, preparation) = (numbers[2], numbers[PREPARATION]);
        let _ = writeln!(
            text,
            "  edge {row} = ({front}, {back}) kind {kind} {curve:?}, preparation {preparation}"
        );
    }
    text
}

/// A vertex row.
fn vertex(numbers: &[u32], floats: &[u64]) -> String {
    match read_vertex(numbers, floats) {
        Vertex::Given(x, y, z) => format!("given ({x:?}, {y:?}, {z:?})"),
        Vertex::Pending(curve, t) => {
            let kinds = (numbers[0], numbers[1]);
            format!("pending, kinds {kinds:?}, {curve:?} at {t:?}")
        }
    }
}

/// Uses below a count, and of how many cells.
pub fn uses(uses: &[u32], count: usize) -> String {
    let below = notation(&uses[..count.min(uses.len())]);
    format!("{count} of {}: {below}", uses.len())
}

/// Floats, by value and by bits.
pub fn floats(names: &[&str], bits: &[u64]) -> String {
    let word = |(name, &bits): (&&str, &u64)| {
        let float = f64::from_bits(bits);
        format!("{name} {float:?} ({bits:#x})")
    };
    let words: Vec<String> = names.iter().zip(bits).map(word).collect();
    words.join(", ")
}
