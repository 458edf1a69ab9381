//! Cuts whose causes, order of causes or room are wrong.

use super::{after, made};
use crate::wrong::{step, Mutant};
use oracle::port::Cut;
use oracle::reference::cut::{causes, Range};
use oracle::reference::pass::fits;
use oracle::reference::several_cuts::rise;
use oracle::reference::tables::have_room;
use oracle::shell::{Lent, VERTEX_FLOATS};

/// All lists.
pub fn lists() -> Vec<Vec<Mutant>> {
    vec![
        wrong_counts(),
        wrong_rows_of_cuts(),
        wrong_rising(),
        wrong_pairs(),
        wrong_order(),
        wrong_order_of_6(),
        past_64(),
        wrong_ranges(),
        wrong_cells(),
        wrong_sight(),
        wrong_bounds(),
        wrong_most(),
        wrong_room(),
    ]
}

/// Counts of cuts that are taken wrongly.
fn wrong_counts() -> Vec<Mutant> {
    vec![
        step("64 cuts are too many", |r| {
            r.several.too_many = |cuts| cuts >= 64
        }),
        step("65 cuts pass", |r| r.several.too_many = |cuts| cuts > 65),
        step("no bound on cuts", |r| r.several.too_many = |_| false),
        step("two cuts are too many", |r| {
            r.several.too_many = |cuts| cuts > 1
        }),
        step("no cut is too few", |r| {
            r.several.too_many = |cuts| cuts == 0 || cuts > 64
        }),
        after("two cuts earn 14", |answer, _, call| {
            match answer == 0 && call.cut_count > 1 {
                true => 14,
                false => answer,
            }
        }),
        after("too many cuts earn 14", |answer, _, _| match answer {
            16 => 14,
            _ => answer,
        }),
        after("too many cuts earn 1", |answer, _, _| match answer {
            16 => 1,
            _ => answer,
        }),
        after("too many cuts earn 6", |answer, _, _| match answer {
            16 => 6,
            _ => answer,
        }),
    ]
}

/// Rows of cuts that are too few and pass, or the other way round.
fn wrong_rows_of_cuts() -> Vec<Mutant> {
    vec![
        step("rows of cuts wrap", |r| {
            r.several.causes = |cuts, count, range| match count.wrapping_mul(4) > cuts.len() {
                true => vec![1],
                false => causes(cuts, count.min(cuts.len() / 4), range),
            }
        }),
        step("a float too few passes", |r| {
            r.several.causes = |cuts, count, range| match count.checked_mul(4) {
                Some(cells) if cells == cuts.len() + 1 => vec![],
                _ => causes(cuts, count, range),
            }
        }),
        step("no more than 64 rows are asked for", |r| {
            r.several.causes = |cuts, count, range| causes(cuts, count.min(64), range)
        }),
        step("a row for one cut is enough", |r| {
            r.several.causes = |cuts, count, range| match cuts.len() / 4 < count.min(1) {
                true => vec![1],
                false => causes(cuts, count.min(cuts.len() / 4), range),
            }
        }),
    ]
}

/// Parameters that rise and are refused, or do not and pass.
fn wrong_rising() -> Vec<Mutant> {
    /// Each parameter with the next one.
    fn all(ts: &[f64], holds: impl Fn(f64, f64) -> bool) -> bool {
        ts.windows(2).all(|pair| holds(pair[0], pair[1]))
    }
    vec![
        step("equal parameters pass", |r| {
            r.several.rise = |ts| all(ts, |t, u| t <= u)
        }),
        step("falling parameters pass", |r| {
            r.several.rise = |ts| all(ts, |t, u| t != u)
        }),
        step("any parameters pass", |r| r.several.rise = |_| true),
        step("negative zero before zero passes", |r| {
            r.several.rise = |ts| all(ts, |t, u| t.total_cmp(&u).is_lt())
        }),
        step("zero before negative zero passes", |r| {
            r.several.rise = |ts| all(ts, |t, u| t < u || t == u && t.total_cmp(&u).is_gt())
        }),
        step("parameters other in their bits pass", |r| {
            r.several.rise = |ts| all(ts, |t, u| t <= u && t.to_bits() != u.to_bits())
        }),
        step("parameters rise by their bits", |r| {
            r.several.rise = |ts| all(ts, |t, u| t.to_bits() < u.to_bits())
        }),
        step("parameters must fall", |r| {
            r.several.rise = |ts| all(ts, |t, u| t > u)
        }),
        step("neighbours are equal", |r| {
            r.several.rise = |ts| all(ts, |t, u| t.next_up() < u)
        }),
        step("the least floats are equal", |r| {
            r.several.rise = |ts| all(ts, |t, u| u - t > f64::MIN_POSITIVE)
        }),
        after(
            "falling parameters are sorted",
            |answer, _, _| match answer {
                17 => 0,
                _ => answer,
            },
        ),
        after(
            "parameters that do not rise earn 5",
            |answer, _, _| match answer {
                17 => 5,
                _ => answer,
            },
        ),
    ]
}

/// Pairs of parameters that are held against each other wrongly.
fn wrong_pairs() -> Vec<Mutant> {
    vec![
        step("the last pair not looked at", |r| {
            r.several.rise = |ts| rise(&ts[..ts.len().saturating_sub(1)])
        }),
        step("the first pair not looked at", |r| {
            r.several.rise = |ts| rise(&ts[ts.len().min(1)..])
        }),
        step("only the first pair looked at", |r| {
            r.several.rise = |ts| rise(&ts[..ts.len().min(2)])
        }),
        step("only the last pair looked at", |r| {
            r.several.rise = |ts| rise(&ts[ts.len().saturating_sub(2)..])
        }),
        step("pairs without a cut in common", |r| {
            r.several.rise = |ts| ts.chunks(2).all(rise)
        }),
        step("each held against the first alone", |r| {
            r.several.rise = |ts| ts.iter().skip(1).all(|&t| ts[0] < t)
        }),
        step("the last held against the first alone", |r| {
            r.several.rise = |ts| ts.len() < 2 || ts[0] < ts[ts.len() - 1]
        }),
        step("the pair of the 63rd and the 64th not looked at", |r| {
            r.several.rise = |ts| rise(&ts[..ts.len().min(63)])
        }),
        after(
            "the first must be above t0",
            |answer, before, call| match ends_of(answer, before, call) {
                Some(([first, _], (t0, _))) if first <= t0 => 17,
                _ => answer,
            },
        ),
        after(
            "the last must be below t1",
            |answer, before, call| match ends_of(answer, before, call) {
                Some(([_, last], (_, t1))) if last >= t1 => 17,
                _ => answer,
            },
        ),
    ]
}

/// The first and the last parameter and the range of the edge, where cuts were
/// made.
fn ends_of(answer: i32, before: &Lent, call: &Cut) -> Option<([f64; 2], Range)> {
    let last = made(answer, call).checked_sub(1)?;
    let ends = [0, last].map(|row| f64::from_bits(call.cuts[4 * row]));
    let edge = before.tables.edge(call.edge as usize);
    Some((ends, edge.curve.range()))
}

/// A step that chooses among the causes of a call in another way.
macro_rules! chosen {
    ($name:literal, $late:literal before $early:pat) => {
        step($name, |r| {
            r.tables.choose = |causes| match causes.iter().min() {
                Some($early) if causes.contains(&$late) => Some($late),
                least => least.copied(),
            }
        })
    };
}

/// Refusals in the wrong order.
fn wrong_order() -> Vec<Mutant> {
    vec![
        chosen!("17 before 16", 17 before 16),
        chosen!("16 before 5", 16 before 5),
        chosen!("16 before 4", 16 before 4),
        chosen!("16 before 3", 16 before 3),
        chosen!("16 before 2", 16 before 2),
        chosen!("16 before 1", 16 before 1),
        chosen!("17 before 5", 17 before 5),
        chosen!("17 before 4", 17 before 4),
        chosen!("17 before 3", 17 before 3),
        chosen!("16 before 2 to 5", 16 before 2..=5),
    ]
}

/// 6 before another number.
fn wrong_order_of_6() -> Vec<Mutant> {
    vec![
        after("6 before 17", |answer, before, call| match answer {
            17 if !have_more(before, call) => 6,
            _ => answer,
        }),
        after("6 before 16", |answer, before, call| match answer {
            16 if !have_more(before, call) => 6,
            _ => answer,
        }),
        after("6 before 5", |answer, before, call| match answer {
            5 if !have_more(before, call) => 6,
            _ => answer,
        }),
        after("6 before 4", |answer, before, call| match answer {
            4 if !have_more(before, call) => 6,
            _ => answer,
        }),
        after("6 before 3", |answer, before, call| match answer {
            3 if !have_more(before, call) => 6,
            _ => answer,
        }),
    ]
}

/// Whether the tables have room for a vertex and an edge more for each cut.
fn have_more(before: &Lent, call: &Cut) -> bool {
    let more = |count: usize| count.saturating_add(call.cut_count);
    let [vertices, edges] = [before.tables.vertices, before.tables.edges].map(more);
    vertices <= 4096 && edges <= 4096 && have_room(&call.pass.rows(), vertices, edges)
}

/// The causes of the cuts, where a float past the 64th cut is another one.
fn seen_past_64(
    cuts: &[u64],
    count: usize,
    range: Option<Range>,
    other: impl Fn(usize, f64) -> f64,
) -> Vec<i32> {
    let change = |(place, &bits): (usize, &u64)| match place < 256 {
        true => bits,
        false => other(place % 4, f64::from_bits(bits)).to_bits(),
    };
    let cells: Vec<u64> = cuts.iter().enumerate().map(change).collect();
    causes(&cells, count, range)
}

/// Cuts past the 64th that are not looked at.
fn past_64() -> Vec<Mutant> {
    vec![
        step("cuts past 64 not looked at", |r| {
            r.several.causes = |cuts, count, range| match cuts.len() / 4 < count {
                true => vec![1],
                false => causes(cuts, count.min(64), range),
            }
        }),
        step("cuts past 64 not looked at for 4", |r| {
            r.several.causes = |cuts, count, range| {
                let sized = |_, float: f64| if float.abs() <= 1.0e15 { float } else { 0.0 };
                seen_past_64(cuts, count, range, sized)
            }
        }),
        step("cuts past 64 not looked at for 5", |r| {
            r.several.causes = |cuts, count, range| {
                let (t0, t1) = range.unwrap_or((0.0, 0.0));
                let within = |cell: usize, float: f64| match cell == 0 && float.abs() <= 1.0e15 {
                    true => float.max(t0).min(t1),
                    false => float,
                };
                seen_past_64(cuts, count, range, within)
            }
        }),
    ]
}

/// Parameters that are held against the wrong range.
fn wrong_ranges() -> Vec<Mutant> {
    vec![
        step("a cut at t0 is refused", |r| {
            r.several.causes = |cuts, count, range| {
                let narrow = range.map(|(t0, t1)| (t0.next_up(), t1));
                causes(cuts, count, narrow)
            }
        }),
        step("a cut at t1 is refused", |r| {
            r.several.causes = |cuts, count, range| {
                let narrow = range.map(|(t0, t1)| (t0, t1.next_down()));
                causes(cuts, count, narrow)
            }
        }),
        step("cuts outside pass", |r| {
            r.several.causes = |cuts, count, range| {
                let wide = range.map(|_| (f64::NEG_INFINITY, f64::INFINITY));
                causes(cuts, count, wide)
            }
        }),
        step("cuts above t1 pass", |r| {
            r.several.causes = |cuts, count, range| {
                let wide = range.map(|(t0, _)| (t0, f64::INFINITY));
                causes(cuts, count, wide)
            }
        }),
        step("cuts below t0 pass", |r| {
            r.several.causes = |cuts, count, range| {
                let wide = range.map(|(_, t1)| (f64::NEG_INFINITY, t1));
                causes(cuts, count, wide)
            }
        }),
        after("the range of the first edge", |answer, before, call| {
            let within = || {
                let (t0, t1) = before.tables.edge(0).curve.range();
                let mut rows = call.cuts.chunks_exact(4).take(call.cut_count);
                rows.all(|row| (t0..=t1).contains(&f64::from_bits(row[0])))
            };
            match answer {
                5 if within() => 0,
                _ => answer,
            }
        }),
    ]
}

/// The cells of cuts, each float changed.
fn changed(cuts: &[u64], change: impl Fn(usize, f64) -> f64) -> Vec<u64> {
    let cells = cuts.iter().enumerate();
    let other = |(place, &bits): (usize, &u64)| change(place % 4, f64::from_bits(bits)).to_bits();
    cells.map(other).collect()
}

/// Floats of cuts that are looked at wrongly.
fn wrong_cells() -> Vec<Mutant> {
    vec![
        step("only the parameters are looked at", |r| {
            r.several.causes = |cuts, count, range| {
                let seen = |cell, float| if cell == 0 { float } else { 0.0 };
                causes(&changed(cuts, seen), count, range)
            }
        }),
        step("z is not looked at", |r| {
            r.several.causes = |cuts, count, range| {
                let seen = |cell, float| if cell < 3 { float } else { 0.0 };
                causes(&changed(cuts, seen), count, range)
            }
        }),
        step("1.0e15 is too large", |r| {
            r.several.causes = |cuts, count, range| {
                let large = |_, float: f64| if float == 1.0e15 { 2.0e15 } else { float };
                causes(&changed(cuts, large), count, range)
            }
        }),
        step("NaN for t earns 5", |r| {
            r.several.causes = |cuts, count, range| {
                let nan = |cell, float: f64| match cell == 0 && float.is_nan() {
                    true => 1.0e15,
                    false => float,
                };
                causes(&changed(cuts, nan), count, range)
            }
        }),
    ]
}

/// Rows of cuts that are looked at wrongly, and a wrong number.
fn wrong_sight() -> Vec<Mutant> {
    vec![
        step("cuts past the count are looked at", |r| {
            r.several.causes = |cuts, count, range| causes(cuts, count.max(cuts.len() / 4), range)
        }),
        step("only the first cut is looked at", |r| {
            r.several.causes = |cuts, count, range| match cuts.len() / 4 < count {
                true => vec![1],
                false => causes(cuts, count.min(1), range),
            }
        }),
        step("the last cut is not looked at", |r| {
            r.several.causes = |cuts, count, range| match cuts.len() / 4 < count {
                true => vec![1],
                false => causes(cuts, count.saturating_sub(1), range),
            }
        }),
        step("a bad edge earns 2", |r| {
            r.several.causes = |cuts, count, range| {
                let other = |cause| if cause == 3 { 2 } else { cause };
                causes(cuts, count, range).into_iter().map(other).collect()
            }
        }),
    ]
}

/// Bounds that are not judged.
fn wrong_bounds() -> Vec<Mutant> {
    vec![
        step("no bound on vertices out", |r| {
            r.several.fits = |call, [vertices, edges, uses]| {
                fits(call, [vertices.min(4096), edges, uses])
                    && have_room(&call.rows(), vertices, edges)
            }
        }),
        step("no bound on edges out", |r| {
            r.several.fits = |call, [vertices, edges, uses]| {
                fits(call, [vertices, edges.min(4096), uses])
                    && have_room(&call.rows(), vertices, edges)
            }
        }),
        step("no bound on uses out", |r| {
            r.several.fits = |call, [vertices, edges, uses]| {
                fits(call, [vertices, edges, uses.min(1024)]) && call.uses.len() >= uses
            }
        }),
        after(
            "room for one cut is enough",
            |answer, before, call| match answer {
                6 if fits(&call.pass, counts(before, call, 1, usize::MAX)) => 0,
                _ => answer,
            },
        ),
        after(
            "one occurrence counted",
            |answer, before, call| match answer {
                6 if fits(&call.pass, counts(before, call, call.cut_count, 1)) => 0,
                _ => answer,
            },
        ),
    ]
}

/// What a result counts, if so many cuts were made, and if the edge had at most
/// so many uses.
fn counts(before: &Lent, call: &Cut, cuts: usize, most: usize) -> [usize; 3] {
    let lengths = before.lengths.iter().take(before.wires);
    let uses = lengths.sum::<u32>() as usize;
    let used = before.uses[..uses]
        .iter()
        .filter(|&&used| used / 2 == call.edge);
    let used = used.count().min(most);
    let Lent { tables, .. } = before;
    [
        tables.vertices + cuts,
        tables.edges + cuts,
        uses + cuts * used,
    ]
}

/// Bounds that are too narrow.
fn wrong_most() -> Vec<Mutant> {
    vec![
        step("4096 vertices out are too many", |r| {
            r.several.fits = |call, counts| fits(call, counts) && counts[0] < 4096
        }),
        step("4096 edges out are too many", |r| {
            r.several.fits = |call, counts| fits(call, counts) && counts[1] < 4096
        }),
        step("1024 uses out are too many", |r| {
            r.several.fits = |call, counts| fits(call, counts) && counts[2] < 1024
        }),
        after(
            "each use counted with a cut more",
            |answer, before, call| {
                let more = counts_with_more(answer, before, call);
                match more {
                    Some([.., uses]) if uses > 1024 || uses > call.pass.uses.len() => 6,
                    _ => answer,
                }
            },
        ),
        after("rows counted with a cut more", |answer, before, call| {
            let more = counts_with_more(answer, before, call);
            match more {
                Some([vertices, edges, _]) if !have_room(&call.pass.rows(), vertices, edges) => 6,
                _ => answer,
            }
        }),
        after(
            "every use counted as one of the edge",
            |answer, before, call| match answer {
                0 if call.cut_count > 0 => {
                    let lengths = before.lengths.iter().take(before.wires);
                    let uses = lengths.sum::<u32>() as usize * (call.cut_count + 1);
                    let fits = uses <= 1024 && uses <= call.pass.uses.len();
                    if fits {
                        0
                    } else {
                        6
                    }
                }
                _ => answer,
            },
        ),
    ]
}

/// What the result of a call that is done would count with a cut more.
fn counts_with_more(answer: i32, before: &Lent, call: &Cut) -> Option<[usize; 3]> {
    let is_done = answer == 0 && call.cut_count > 0;
    is_done.then(|| counts(before, call, call.cut_count + 1, usize::MAX))
}

/// Room that is asked for and not needed.
fn wrong_room() -> Vec<Mutant> {
    vec![
        step("a spare vertex row is asked for", |r| {
            r.several.fits = |call, counts| {
                fits(call, counts) && counts[0] * VERTEX_FLOATS < call.vertex_floats.len()
            }
        }),
        step("a spare edge row is asked for", |r| {
            r.several.fits =
                |call, counts| fits(call, counts) && counts[1] * 6 < call.edge_floats.len()
        }),
        step("a spare use is asked for", |r| {
            r.several.fits = |call, counts| fits(call, counts) && counts[2] < call.uses.len()
        }),
        after("room for 64 cuts is asked for", |answer, before, call| {
            let room = || {
                let [vertices, edges] = [before.tables.vertices, before.tables.edges];
                have_room(&call.pass.rows(), vertices + 64, edges + 64)
            };
            match answer == 0 && call.cut_count > 0 && !room() {
                true => 6,
                false => answer,
            }
        }),
    ]
}
