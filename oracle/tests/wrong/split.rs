//! Wrong splits of a face's wires.

mod answers;
mod checks;
mod walks;

use super::{behind, step, Kept, Mutant};
use oracle::port::Split;
use oracle::reference::split::marked;

/// All wrong splits.
pub fn lists() -> Vec<Vec<Mutant>> {
    let at_65 = vec![wrong_at_65()];
    [walks::lists(), answers::lists(), checks::lists(), at_65]
        .into_iter()
        .flatten()
        .collect()
}

/// The wrong splits whose walk, seams or wires are wrong.
pub fn wrong_results() -> Vec<Vec<Mutant>> {
    [walks::lists(), answers::lists()]
        .into_iter()
        .flatten()
        .collect()
}

/// Wrong splits that break demand 3 for some small input, walk or no walk.
pub fn wrong_tallies() -> Vec<Mutant> {
    let mut all = answers::wrong_tallies();
    all.extend(walks::wrong_tallies());
    all
}

/// Splits that go wrong at 65 edges or at 65 vertices alone, the first that
/// need large arrays.
fn wrong_at_65() -> Vec<Mutant> {
    vec![
        step("the last of 65 edges unmarked", |r| {
            r.split.marked = |face, _, new| {
                let mut marks = marked(face, &[], new);
                if marks.len() == 65 {
                    marks[64] = [false; 2];
                }
                marks
            }
        }),
        after("11 for 10 at 65 vertices", |answer, _, call| {
            answer + i32::from((answer, call.vertices) == (10, 65))
        }),
    ]
}

/// A split that does something wrong after all else was right: it is told the
/// answer and what stood in the slices before.
fn after(name: &'static str, spoil: fn(i32, &Kept, &mut Split) -> i32) -> Mutant {
    behind(name, |after| after.split = spoil)
}
