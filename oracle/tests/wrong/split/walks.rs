//! Walks, marks, pairs and seams that are wrong.

use crate::wrong::{step, Mutant};
use oracle::records::{Curve, Edge};
use oracle::reference::split::{marked, seam, uses, Marks};
use std::ops::Range;

/// All lists.
pub fn lists() -> Vec<Vec<Mutant>> {
    vec![
        wrong_choices(),
        wrong_marks_looked_at(),
        wrong_starts(),
        wrong_ends(),
        wrong_crowds(),
        wrong_taking(),
        wrong_marks(),
        wrong_marks_of_seams(),
        wrong_counts_of_marks(),
        wrong_orders(),
        wrong_tallies(),
        wrong_seams(),
        wrong_curves(),
        wrong_pairs(),
        wrong_partners(),
        wrong_repeats(),
    ]
}

/// The use that follows is chosen wrongly.
fn wrong_choices() -> Vec<Mutant> {
    vec![
        step("the second of two where marks differ", |r| {
            r.split.next = |before, list| match *list {
                [] => Err(13),
                [_] => Ok(0),
                [first, _] => Ok(usize::from(before != first)),
                _ => Err(12),
            }
        }),
        step("always the first of two", |r| {
            r.split.next = |_, list| match list.len() {
                1 | 2 => Ok(0),
                _ => Err(12),
            }
        }),
        step("always the second of two", |r| {
            r.split.next = |_, list| match list.len() {
                length @ (1 | 2) => Ok(length - 1),
                _ => Err(12),
            }
        }),
    ]
}

/// The marks of other uses decide.
fn wrong_marks_looked_at() -> Vec<Mutant> {
    vec![
        step("the second use's mark looked at", |r| {
            r.split.next = |before, list| match *list {
                [_] => Ok(0),
                [_, second] => Ok(usize::from(before == second)),
                _ => Err(12),
            }
        }),
        step("only the first use's mark looked at", |r| {
            r.split.next = |_, list| match *list {
                [_] => Ok(0),
                [first, _] => Ok(usize::from(!first)),
                _ => Err(12),
            }
        }),
        step("only the mark of the use before looked at", |r| {
            r.split.next = |before, list| match *list {
                [_] => Ok(0),
                [_, _] => Ok(usize::from(!before)),
                _ => Err(12),
            }
        }),
    ]
}

/// Wires that begin wrongly.
fn wrong_starts() -> Vec<Mutant> {
    vec![
        step("the first use at the start", |r| r.split.first = |_| Ok(0)),
        step("the second use at the start", |r| {
            r.split.first = |length| Ok(1.min(length - 1))
        }),
        step("a crowd at the start", |r| {
            r.split.first = |length| match length {
                1 | 2 => Ok(length - 1),
                _ => Err(12),
            }
        }),
        step("the largest start vertex", |r| {
            r.split.start = |lists| lists.keys().last().copied()
        }),
        step("the start with most uses", |r| {
            r.split.start = |lists| {
                let all = lists.iter().rev();
                all.max_by_key(|(_, list)| list.len())
                    .map(|(start, _)| *start)
            }
        }),
        step("the start of the lowest use", |r| {
            r.split.start = |lists| {
                let lowest = |list: &Vec<u32>| list.iter().min().copied();
                let all = lists.iter();
                all.min_by_key(|(_, list)| lowest(list))
                    .map(|(start, _)| *start)
            }
        }),
    ]
}

/// Dead ends and crowds that are told wrongly.
fn wrong_ends() -> Vec<Mutant> {
    vec![
        step("a dead end told as a crowd", |r| r.split.dead_end = 12),
        step("a dead end told as an empty list", |r| {
            r.split.dead_end = 13
        }),
        step("a crowd told as a dead end", |r| {
            r.split.next = |before, list| match *list {
                [_] => Ok(0),
                [first, _] => Ok(usize::from(before == first)),
                _ => Err(11),
            }
        }),
    ]
}

/// Crowds that are walked through, or two that are one.
fn wrong_crowds() -> Vec<Mutant> {
    vec![
        step("three walked through", |r| {
            r.split.next = |before, list| match *list {
                [_] => Ok(0),
                [first, _] => Ok(usize::from(before == first)),
                [_, _, _] => Ok(2),
                _ => Err(12),
            }
        }),
        step("every crowd walked through", |r| {
            r.split.next = |before, list| match *list {
                [_] => Ok(0),
                [first, ..] => Ok(usize::from(before == first)),
                [] => Err(13),
            }
        }),
        step("two are a crowd", |r| {
            r.split.next = |_, list| match list.len() {
                1 => Ok(0),
                _ => Err(12),
            }
        }),
    ]
}

/// Uses that are taken out of a list wrongly.
fn wrong_taking() -> Vec<Mutant> {
    vec![
        step("an emptied list kept", |r| {
            r.split.take = |lists, vertex, place| {
                let list = lists.get_mut(&vertex).expect("a list");
                list.remove(place)
            }
        }),
        step("the last use put in the place of a taken one", |r| {
            r.split.take = |lists, vertex, place| {
                let list = lists.get_mut(&vertex).expect("a list");
                let number = list.swap_remove(place);
                if list.is_empty() {
                    lists.remove(&vertex);
                }
                number
            };
            r.split.first = |_| Ok(0);
        }),
    ]
}

/// Marks on the wrong edges.
fn wrong_marks() -> Vec<Mutant> {
    vec![
        step("marks by direction", |r| {
            r.split.marked = |face, _, new| {
                let times = |number: u32| face.iter().filter(|&&used| used == number).count();
                let mark = |number: u32| times(number) > 1 || number / 2 >= new.start;
                let edges = 0..new.end;
                edges
                    .map(|edge| [mark(2 * edge), mark(2 * edge + 1)])
                    .collect()
            }
        }),
        step("marks from what is rebuilt", |r| {
            r.split.marked = |_, rebuilt, new| marked(rebuilt, &[], new)
        }),
        step("marks from both sets together", |r| {
            r.split.marked = |face, rebuilt, new| marked(&[face, rebuilt].concat(), &[], new)
        }),
    ]
}

/// Marks that new edges have wrongly or have not.
fn wrong_marks_of_seams() -> Vec<Mutant> {
    vec![
        step("new edges unmarked", |r| {
            r.split.marked = |face, _, new| {
                let mut marks = marked(face, &[], new.clone());
                marks[new.start as usize..].fill([false; 2]);
                marks
            }
        }),
        step("only new edges marked", |r| {
            r.split.marked = |_, _, new| marked(&[], &[], new)
        }),
        step("the first new edge marked alone", |r| {
            r.split.marked = |face, _, new| {
                let mut marks = marked(face, &[], new.clone());
                marks[new.start as usize..]
                    .iter_mut()
                    .skip(1)
                    .for_each(|mark| *mark = [false; 2]);
                marks
            }
        }),
        step("new edges marked forward only", |r| {
            r.split.marked = |face, _, new| {
                let mut marks = marked(face, &[], new.clone());
                marks[new.start as usize..].fill([true, false]);
                marks
            }
        }),
    ]
}

/// Marks for the wrong count of uses.
fn wrong_counts_of_marks() -> Vec<Mutant> {
    /// Marks where the count of an edge's uses in the face is such.
    fn where_times(face: &[u32], new: Range<u32>, such: fn(usize) -> bool) -> Marks {
        let times = |edge: u32| face.iter().filter(|&&used| used / 2 == edge).count();
        let mark = |edge: u32| edge >= new.start || such(times(edge));
        (0..new.end).map(|edge| [mark(edge); 2]).collect()
    }
    vec![
        step("marked from one use on", |r| {
            r.split.marked = |face, _, new| where_times(face, new, |times| times > 0)
        }),
        step("marked from three uses on", |r| {
            r.split.marked = |face, _, new| where_times(face, new, |times| times > 2)
        }),
        step("marked for two uses alone", |r| {
            r.split.marked = |face, _, new| where_times(face, new, |times| times == 2)
        }),
        step("a third use takes the mark away", |r| {
            r.split.marked =
                |face, _, new| where_times(face, new, |times| times > 0 && times % 2 == 0)
        }),
        step("marked where a use follows its like", |r| {
            r.split.marked = |face, _, new| {
                let pairs = face.windows(2).filter(|pair| pair[0] / 2 == pair[1] / 2);
                let twice: Vec<u32> = pairs.flatten().copied().collect();
                marked(&twice, &[], new)
            }
        }),
        step("every edge marked", |r| {
            r.split.marked = |_, _, new| vec![[true; 2]; new.end as usize]
        }),
    ]
}

/// Uses that come into the lists in a wrong order. In which order the uses of
/// the seams come is no matter: no vertex is twice on the divisor, so that no
/// list has two of them.
fn wrong_orders() -> Vec<Mutant> {
    vec![
        step("uses of seams first", |r| {
            r.split.uses = |rebuilt, new| [&uses(&[], new)[..], rebuilt].concat()
        }),
        step("uses from back to front", |r| {
            r.split.uses = |rebuilt, new| {
                let rebuilt: Vec<u32> = rebuilt.iter().rev().copied().collect();
                uses(&rebuilt, new)
            }
        }),
        step("uses in rising order", |r| {
            r.split.uses = |rebuilt, new| {
                let mut rebuilt = rebuilt.to_vec();
                rebuilt.sort_unstable();
                uses(&rebuilt, new)
            }
        }),
        step("backs for fronts", |r| {
            r.split.front = |number, ends| ends[1 - number as usize % 2]
        }),
    ]
}

/// Uses that are lost or added, which demand 3 alone finds.
pub fn wrong_tallies() -> Vec<Mutant> {
    vec![
        step("a seam in one direction only", |r| {
            r.split.uses = |rebuilt, new| {
                let seams = new.map(|edge| 2 * edge);
                rebuilt.iter().copied().chain(seams).collect()
            }
        }),
        step("seams twice forward", |r| {
            r.split.uses = |rebuilt, new| {
                let seams = new.flat_map(|edge| [2 * edge; 2]);
                rebuilt.iter().copied().chain(seams).collect()
            }
        }),
        step("no use of a seam", |r| {
            r.split.uses = |rebuilt, _| rebuilt.to_vec()
        }),
        step("every use once", |r| {
            r.split.uses = |rebuilt, new| {
                let mut all = uses(rebuilt, new);
                all.sort_unstable();
                all.dedup();
                all
            }
        }),
        step("every use forward", |r| r.split.front = |_, ends| ends[0]),
    ]
}

/// Seams with wrong ends or points.
fn wrong_seams() -> Vec<Mutant> {
    vec![
        step("uv points exchanged", |r| {
            r.split.seam =
                |first, second, surface| seam((first.0, second.1), (second.0, first.1), surface)
        }),
        step("the first point twice", |r| {
            r.split.seam = |first, second, surface| seam(first, (second.0, first.1), surface)
        }),
        step("u and v exchanged", |r| {
            r.split.seam = |(front, [u, v]), (back, [s, t]), surface| {
                seam((front, [v, u]), (back, [t, s]), surface)
            }
        }),
        step("negative zero lost", |r| {
            r.split.seam = |(front, p), (back, q), surface| {
                seam(
                    (front, p.map(|x| x + 0.0)),
                    (back, q.map(|x| x + 0.0)),
                    surface,
                )
            }
        }),
        step("ends and points exchanged", |r| {
            r.split.seam = |first, second, surface| seam(second, first, surface)
        }),
        step("ends exchanged", |r| {
            r.split.seam =
                |first, second, surface| seam((second.0, first.1), (first.0, second.1), surface)
        }),
        step("surface number lost", |r| {
            r.split.seam = |first, second, _| seam(first, second, 0)
        }),
    ]
}

/// Seams with a wrong curve.
fn wrong_curves() -> Vec<Mutant> {
    /// A seam over another range.
    fn over(edge: Edge, t0: f64, t1: f64) -> Edge {
        let curve = edge.curve.over(t0, t1);
        Edge { curve, ..edge }
    }
    vec![
        step("t1 is 0", |r| {
            r.split.seam = |first, second, surface| over(seam(first, second, surface), 0.0, 0.0)
        }),
        step("t0 is negative zero", |r| {
            r.split.seam = |first, second, surface| over(seam(first, second, surface), -0.0, 1.0)
        }),
        step("from 1 to 0", |r| {
            r.split.seam = |first, second, surface| over(seam(first, second, surface), 1.0, 0.0)
        }),
        step("t1 is the length", |r| {
            r.split.seam = |first, second, surface| {
                let [u, v] = [0, 1].map(|cell| second.1[cell] - first.1[cell]);
                over(seam(first, second, surface), 0.0, (u * u + v * v).sqrt())
            }
        }),
        step("a span for a seam", |r| {
            r.split.seam = |first, second, surface| Edge {
                curve: Curve::Span {
                    number: surface,
                    t0: 0.0,
                    t1: 1.0,
                },
                ..seam(first, second, surface)
            }
        }),
    ]
}

/// Lists that are paired off wrongly.
fn wrong_pairs() -> Vec<Mutant> {
    vec![
        step("a list of three walked through", |r| {
            r.split.odd = |_| false
        }),
        step("an odd last one pairs with the first", |r| {
            r.split.odd = |_| false;
            r.split.pairs = |count| {
                let place = |pair: usize| [2 * pair, (2 * pair + 1) % count];
                (0..count.div_ceil(2)).map(place).collect()
            };
        }),
        step("only a list of one is odd", |r| {
            r.split.odd = |count| count == 1
        }),
    ]
}

/// Vertices that are paired with others.
fn wrong_partners() -> Vec<Mutant> {
    vec![
        step("pairs that overlap", |r| {
            r.split.pairs = |count| (1..count).map(|place| [place - 1, place]).collect()
        }),
        step("the first with the last", |r| {
            r.split.pairs = |count| {
                (0..count / 2)
                    .map(|pair| [pair, count - 1 - pair])
                    .collect()
            }
        }),
        step("the first half with the second", |r| {
            r.split.pairs = |count| {
                (0..count / 2)
                    .map(|pair| [pair, count / 2 + pair])
                    .collect()
            }
        }),
        step("the last pair first", |r| {
            r.split.pairs = |count| {
                let all = (0..count / 2).rev();
                all.map(|pair| [2 * pair, 2 * pair + 1]).collect()
            }
        }),
        step("only the first pair", |r| {
            r.split.pairs = |count| (0..(count / 2).min(1)).map(|_| [0, 1]).collect()
        }),
    ]
}

/// Vertices that stand twice on the divisor and pass.
fn wrong_repeats() -> Vec<Mutant> {
    vec![
        step("a vertex twice passes", |r| r.split.repeated = |_| false),
        step("only neighbours may not be equal", |r| {
            r.split.repeated = |list| list.windows(2).any(|pair| pair[0] == pair[1])
        }),
        step("only a pair may not be equal", |r| {
            r.split.repeated = |list| list.chunks_exact(2).any(|pair| pair[0] == pair[1])
        }),
        step("only the first vertex may not come again", |r| {
            r.split.repeated = |list| list.iter().skip(1).any(|vertex| *vertex == list[0])
        }),
    ]
}
