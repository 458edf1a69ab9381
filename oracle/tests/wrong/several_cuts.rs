//! Wrong cuts of an edge at several points.

mod answers;
mod chains;
mod checks;
mod wires;

use super::{behind, Mutant};
use oracle::port::Cut;
use oracle::shell::Lent;

/// All wrong cuts, save those with wrong checks of tables and wires.
pub fn lists() -> Vec<Vec<Mutant>> {
    let lists = [wrong_results(), checks::lists(), answers::lists()];
    lists.into_iter().flatten().collect()
}

/// Those that have a wrong result for some small input.
pub fn wrong_results() -> Vec<Vec<Mutant>> {
    [chains::lists(), wires::lists()]
        .into_iter()
        .flatten()
        .collect()
}

/// Those that tear a connected wire for some small input, or move its ends.
pub fn wrong_ways() -> Vec<Mutant> {
    let lists = [
        chains::wrong_ends(),
        chains::as_the_rust_does(),
        wires::wrong_chains(),
        wires::wrong_directions(),
    ];
    lists.into_iter().flatten().collect()
}

/// Cuts that do something wrong after all else was right.
fn after(name: &'static str, spoil: fn(i32, &Lent, &mut Cut) -> i32) -> Mutant {
    behind(name, |after| after.several = spoil)
}

/// How many cuts were made.
fn made(answer: i32, call: &Cut) -> usize {
    match answer {
        0 => call.cut_count,
        _ => 0,
    }
}
