//! Parameters that rise strictly, and others.

use super::{at, done, no, with_vertices, SeveralCuts};
use crate::compare::Case;
use crate::limits::ways::{edge, held, span};

/// All cases.
pub fn cases() -> Vec<Case<SeveralCuts>> {
    [rise(), do_not_rise(), among_64()]
        .into_iter()
        .flatten()
        .collect()
}

/// A line over this range, used reversed, cut at two parameters.
fn two(name: &'static str, [t0, t1]: [f64; 2], [t, u]: [f64; 2]) -> Case<SeveralCuts> {
    let line = |front, back, t0, t1| edge(front, back, span(7, t0, t1));
    let before = with_vertices(2, &[], &[line(0, 1, t0, t1)], &["0-"]);
    let pieces = [line(0, 2, t0, t), line(2, 3, t, u), line(3, 1, u, t1)];
    let after = with_vertices(2, &[t, u], &pieces, &["2- 1- 0-"]);
    done(name, &before, (0, &[t, u]), &after)
}

/// Where an edge may be cut twice.
fn rise() -> Vec<Case<SeveralCuts>> {
    let (least, large) = (5.0e-324, 1.0e15);
    let next = [0.5, -0.5, 0.1].map(f64::next_up);
    vec![
        two("at t0 and t1 alone", [-2.5, 8.0], [-2.5, 8.0]),
        two("at neighbours", [0.0, 1.0], [0.5, next[0]]),
        two("at neighbours below zero", [-1.0, 1.0], [-0.5, next[1]]),
        two("at the least floats", [0.0, 1.0], [least, 2.0 * least]),
        two("about zero", [-1.0, 1.0], [-least, least]),
        two("zero and the least float", [-1.0, 1.0], [0.0, least]),
        two("negative zero, the least float", [-1.0, 1.0], [-0.0, least]),
        two("below zero, negative zero", [-1.0, 1.0], [-least, -0.0]),
        two("negative zero at zero", [0.0, 1.0], [-0.0, 1.0]),
        two("zero at negative zero", [-1.0, -0.0], [-1.0, 0.0]),
        two("the greatest sizes", [-large, large], [-large, large]),
        two("a range of neighbours", [0.1, next[2]], [0.1, next[2]]),
    ]
}

/// A line from -8 to 8 with cuts that do not rise strictly.
fn falls(name: &'static str, ts: &[f64]) -> Case<SeveralCuts> {
    let line = edge(0, 1, span(7, -8.0, 8.0));
    let before = with_vertices(2, &[], &[line], &["0+ 0-"]);
    let lent = held(&before, [900, 900, 900, 900, 900, 9]);
    Case::unchanged(name, SeveralCuts::over(lent, 0, &at(ts)), 17)
}

/// Where it may not.
fn do_not_rise() -> Vec<Case<SeveralCuts>> {
    vec![
        falls("the same twice", &[3.0, 3.0]),
        falls("falling", &[5.0, 3.0]),
        falls("negative zero, then zero", &[-0.0, 0.0]),
        falls("zero, then negative zero", &[0.0, -0.0]),
        falls("zero twice", &[0.0, 0.0]),
        falls("neighbours falling", &[3.0f64.next_up(), 3.0]),
        falls("t0 twice", &[-8.0, -8.0]),
        falls("t1 twice", &[8.0, 8.0]),
        falls("t1 and then t0", &[8.0, -8.0]),
        falls("the first two of three the same", &[2.0, 2.0, 3.0]),
        falls("the last two of three the same", &[1.0, 3.0, 3.0]),
        falls("the middle of three too large", &[1.0, 4.0, 3.0]),
        falls("the last of three as the first", &[1.0, 2.0, 1.0]),
        falls("the first of three too large", &[2.5, 1.0, 2.0]),
        falls("all three the same", &[1.0, 1.0, 1.0]),
        falls("below zero falling", &[-2.0, -3.0]),
        falls("signed zeros between others", &[-1.0, -0.0, 0.0, 1.0]),
    ]
}

/// 64 cuts, two of which do not rise.
fn among_64() -> Vec<Case<SeveralCuts>> {
    let rising: Vec<f64> = (0..64).map(|row| f64::from(row) / 8.0).collect();
    let changed = |name, row: usize, t: f64| {
        let mut ts = rising.clone();
        ts[row] = t;
        falls(name, &ts)
    };
    let falling: Vec<f64> = rising.iter().rev().copied().collect();
    vec![
        changed("the last of 64 as the one before", 63, 62.0 / 8.0),
        changed("the last of 64 below the one before", 63, 61.0 / 8.0),
        changed("the second of 64 as the first", 1, 0.0),
        changed("one of 64 as the one before", 31, 30.0 / 8.0),
        falls("64 cuts in falling order", &falling),
        falls("64 equal cuts", &[3.0; 64]),
        no("the same twice and no room", 17, |c| {
            c.0.cuts[4] = c.0.cuts[0];
            c.0.lent.uses.truncate(4);
        }),
    ]
}
