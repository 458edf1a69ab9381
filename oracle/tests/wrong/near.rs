//! Wrong unwrapping, nearest copy, kind of wire and sorting of wires.

use super::{behind, step, Mutant};
use oracle::port::{Period, Port, Unwrap};
use oracle::reference::near::{causes, groups};
use oracle::reference::Reference;

/// Unwrapping that takes or makes the wrong candidate.
pub fn wrong_unwrapping() -> Vec<Mutant> {
    vec![
        step("the later on a tie", |r| r.near.wins = |d, best| d <= best),
        step("the farthest wins", |r| r.near.wins = |d, best| d > best),
        step("three candidates", |r| {
            r.near.candidates = |u, p| [-1.0, 0.0, 1.0].map(|i| u + i * p).to_vec()
        }),
        step("one candidate less below", |r| {
            r.near.candidates = |u, p| [-1.0, 0.0, 1.0, 2.0].map(|i| u + i * p).to_vec()
        }),
        step("one candidate less above", |r| {
            r.near.candidates = |u, p| [-2.0, -1.0, 0.0, 1.0].map(|i| u + i * p).to_vec()
        }),
        step("one candidate more", |r| {
            r.near.candidates = |u, p| [-2.0, -1.0, 0.0, 1.0, 2.0, 3.0].map(|i| u + i * p).to_vec()
        }),
        step("candidates in falling order", |r| {
            r.near.candidates = |u, p| [2.0, 1.0, 0.0, -1.0, -2.0].map(|i| u + i * p).to_vec()
        }),
        step("the period added twice", |r| {
            r.near.candidates = |u, p| vec![u - p - p, u - p, u + 0.0, u + p, u + p + p]
        }),
        step("negative zero kept", |r| {
            r.near.candidates = |u, p| vec![u - 2.0 * p, u - p, u, u + p, u + 2.0 * p]
        }),
        step("one jump to the nearest", |r| {
            r.near.candidates = |u, p| vec![u + p * (-u / p).round().clamp(-2.0, 2.0)]
        }),
        step("differences with their sign", |r| {
            r.near.away = |u, u0| u - u0
        }),
        step("squared differences", |r| {
            r.near.away = |u, u0| (u - u0) * (u - u0)
        }),
        step("differences rounded to 32 bits", |r| {
            r.near.away = |u, u0| f64::from((u - u0).abs() as f32)
        }),
        step("no period, negative zero lost", |r| {
            r.near.unwrapped = |bits| (f64::from_bits(bits) + 0.0).to_bits()
        }),
        behind("always 4.5", |b| {
            b.unwrap = |answer, _, out| {
                out[0] = if answer == 0 {
                    4.5f64.to_bits()
                } else {
                    out[0]
                };
                answer
            }
        }),
    ]
}

/// Periods and floats that are looked at wrongly, found by unwrapping.
pub fn wrong_numbers() -> Vec<Mutant> {
    vec![
        step("highest cause wins", |r| {
            r.near.choose = |causes| causes.iter().max().copied()
        }),
        step("first cause met wins", |r| {
            r.near.choose = |causes| causes.first().copied()
        }),
        step("the size of an absent period is looked at", |r| {
            r.near.causes = |floats, periods| {
                let there = |p: &Period| Period {
                    kind: p.kind.max(1),
                    ..*p
                };
                causes(floats, &periods.iter().map(there).collect::<Vec<_>>())
            }
        }),
        step("kind 2 is no period", |r| {
            r.near.causes = |floats, periods| {
                let none = |p: &Period| Period {
                    kind: p.kind % 2,
                    ..*p
                };
                causes(floats, &periods.iter().map(none).collect::<Vec<_>>())
            }
        }),
        step("period zero passes", |r| {
            r.near.causes = |floats, periods| {
                let some = periods
                    .iter()
                    .filter(|p| p.size << 1 != 0 || p.kind > 1)
                    .copied();
                causes(floats, &some.collect::<Vec<_>>())
            }
        }),
        step("period negative zero passes", |r| {
            r.near.causes = |floats, periods| {
                let some = periods
                    .iter()
                    .filter(|p| p.size != 1 << 63 || p.kind > 1)
                    .copied();
                causes(floats, &some.collect::<Vec<_>>())
            }
        }),
        step("NaN passes", |r| {
            r.near.causes = |floats, periods| causes(&numbers(floats), periods)
        }),
        step("1.0e15 is too large", |r| {
            r.near.causes = |floats, periods| {
                let all = |&bits: &u64| f64::from_bits(bits).abs() < 1.0e15;
                match floats.iter().all(all) {
                    true => causes(floats, periods),
                    false => [causes(floats, periods), vec![4]].concat(),
                }
            }
        }),
        step("the second float is not looked at", |r| {
            r.near.causes = |floats, periods| {
                let mut floats = floats.to_vec();
                floats[1] = 0;
                causes(&floats, periods)
            }
        }),
        step("never 5", |r| {
            r.near.causes = |floats, periods| {
                let mut found = causes(floats, periods);
                found.retain(|&cause| cause != 5);
                found
            }
        }),
        behind("u0 is not looked at with no period", |b| {
            b.unwrap = |answer, call, out| {
                let seen = Unwrap { u0: 0, ..call };
                match (answer, call.period.kind) {
                    (4, 0) => Reference::default().get_mindiff(seen, out),
                    _ => answer,
                }
            }
        }),
        behind("the place is written on a refusal", |b| {
            b.unwrap = |answer, call, out| {
                if answer != 0 {
                    out[0] = call.u;
                }
                answer
            }
        }),
        behind("every call refused", |b| b.unwrap = |_, _, _| 4),
    ]
}

/// Floats with zero for NaN.
fn numbers(floats: &[u64]) -> Vec<u64> {
    let number = |&bits: &u64| match f64::from_bits(bits).is_nan() {
        true => 0,
        false => bits,
    };
    floats.iter().map(number).collect()
}

/// Nearest copies that are wrong.
pub fn wrong_copies() -> Vec<Mutant> {
    vec![
        step("the later on a tie", |r| r.near.wins = |d, best| d <= best),
        step("v outermost", |r| {
            r.near.pairs = |us, vs| {
                let row = |&v: &f64| us.iter().map(move |&u| [u, v]).collect::<Vec<_>>();
                vs.iter().flat_map(row).collect()
            }
        }),
        step("negative zero kept with no period", |r| {
            r.near.copies = |x, period| match period {
                None => vec![x],
                Some(p) => [-2.0, -1.0, 0.0, 1.0, 2.0].map(|i| x + i * p).to_vec(),
            }
        }),
        step("negative zero kept with a period", |r| {
            r.near.copies = |x, period| match period {
                None => vec![x + 0.0],
                Some(p) => vec![x - 2.0 * p, x - p, x, x + p, x + 2.0 * p],
            }
        }),
        step("copies in falling order", |r| {
            r.near.copies = |x, period| match period {
                None => vec![x + 0.0],
                Some(p) => [2.0, 1.0, 0.0, -1.0, -2.0].map(|i| x + i * p).to_vec(),
            }
        }),
        step("three copies", |r| {
            r.near.copies = |x, period| match period {
                None => vec![x + 0.0],
                Some(p) => [-1.0, 0.0, 1.0].map(|i| x + i * p).to_vec(),
            }
        }),
        step("roots of the distances", |r| {
            r.near.distance2 = |p, q| oracle::reference::near::distance2(p, q).sqrt()
        }),
        step("hypotenuses", |r| {
            r.near.distance2 = |p, q| (q[0] - p[0]).hypot(q[1] - p[1])
        }),
        step("sums of the differences", |r| {
            r.near.distance2 = |p, q| (q[0] - p[0]).abs() + (q[1] - p[1]).abs()
        }),
        step("one rounding less", |r| {
            r.near.distance2 = |p, q| {
                let (x, y) = (q[0] - p[0], q[1] - p[1]);
                x.mul_add(x, y * y)
            }
        }),
    ]
}

/// Nearest copies that are wrong in more than one step.
pub fn wrong_copying() -> Vec<Mutant> {
    vec![
        behind("each coordinate by itself", |b| {
            b.copy = |answer, call, out| {
                for i in (0..2).filter(|_| answer == 0) {
                    let by_itself = Unwrap {
                        u: call.q[i],
                        u0: call.p[i],
                        period: call.periods[i],
                    };
                    Reference::default().get_mindiff(by_itself, &mut out[i..=i]);
                    out[i] = (f64::from_bits(out[i]) + 0.0).to_bits();
                }
                answer
            }
        }),
        behind("periods exchanged", |b| {
            b.copy = |_, mut call, out| {
                call.periods.swap(0, 1);
                Reference::default().nearest_copy(call, out)
            }
        }),
        behind("points exchanged", |b| {
            b.copy = |_, mut call, out| {
                std::mem::swap(&mut call.p, &mut call.q);
                Reference::default().nearest_copy(call, out)
            }
        }),
        behind("one place written on a refusal", |b| {
            b.copy = |answer, call, out| {
                if answer == 5 {
                    out[1] = call.q[1];
                }
                answer
            }
        }),
        behind("the second place is not written", |b| {
            b.copy = |answer, _, out| {
                if answer == 0 {
                    out[1] = 0x5eed_0002;
                }
                answer
            }
        }),
    ]
}

/// Kinds of wires that are wrong.
pub fn wrong_kinds() -> Vec<Mutant> {
    vec![
        step("closed at the threshold too", |r| {
            r.near.kind = |d, area| {
                if d <= 1.0e-3 {
                    u32::from(area <= 0.0)
                } else {
                    2
                }
            }
        }),
        step("another threshold", |r| {
            r.near.kind = |d, area| {
                if d < 1.0e-6 {
                    u32::from(area <= 0.0)
                } else {
                    2
                }
            }
        }),
        step("a threshold of 32 bits", |r| {
            r.near.kind = |d, area| match d < f64::from(1.0e-3f32) {
                true => u32::from(area <= 0.0),
                false => 2,
            }
        }),
        step("the distance itself", |r| {
            r.near.kind = |d, area| match d.sqrt() < 1.0e-3f64.sqrt() {
                true => u32::from(area <= 0.0),
                false => 2,
            }
        }),
        step("area zero is Positive", |r| {
            r.near.kind = |d, area| if d < 1.0e-3 { u32::from(area < 0.0) } else { 2 }
        }),
        step("area zero by its sign", |r| {
            r.near.kind = |d, area| match d < 1.0e-3 {
                true => u32::from(area.is_sign_negative()),
                false => 2,
            }
        }),
        step("Positive and Negative exchanged", |r| {
            r.near.kind = |d, area| if d < 1.0e-3 { u32::from(area > 0.0) } else { 2 }
        }),
        step("open and closed exchanged", |r| {
            r.near.kind = |d, area| {
                if d < 1.0e-3 {
                    2
                } else {
                    u32::from(area <= 0.0)
                }
            }
        }),
        step("only u", |r| {
            r.near.distance2 = |p, q| (q[0] - p[0]) * (q[0] - p[0])
        }),
        step("the greater of both", |r| {
            r.near.distance2 = |p, q| {
                let (x, y) = (q[0] - p[0], q[1] - p[1]);
                (x * x).max(y * y)
            }
        }),
        step("one rounding less", |r| {
            r.near.distance2 = |p, q| {
                let (x, y) = (q[0] - p[0], q[1] - p[1]);
                x.mul_add(x, y * y)
            }
        }),
        step("the area is not looked at", |r| {
            r.near.causes = |floats, periods| causes(&floats[..4], periods)
        }),
        behind("the area of an open wire is not looked at", |b| {
            b.kind = |answer, mut call, out| {
                call.area = 0;
                let mut seen = [9];
                Reference::default().boundary_type(call, &mut seen);
                if answer == 4 && seen[0] == 2 {
                    out[0] = 2;
                    return 0;
                }
                answer
            }
        }),
        behind("the place is written on a refusal", |b| {
            b.kind = |answer, _, out| {
                if answer != 0 {
                    out[0] = 2;
                }
                answer
            }
        }),
    ]
}

/// Sortings that are wrong.
pub fn wrong_sorting() -> Vec<Mutant> {
    vec![
        step("two open wires or more", |r| {
            r.near.sort.right = |open| open >= 2
        }),
        step("two open wires or fewer", |r| {
            r.near.sort.right = |open| open <= 2
        }),
        step("two open wires or none", |r| {
            r.near.sort.right = |open| open == 2 || open == 0
        }),
        step("always none", |r| r.near.sort.right = |_| false),
        step("closed ones in falling order", |r| {
            r.near.sort.groups = |kinds| {
                let [open, mut closed] = groups(kinds);
                closed.reverse();
                [open, closed]
            }
        }),
        step("open ones in falling order", |r| {
            r.near.sort.groups = |kinds| {
                let [mut open, closed] = groups(kinds);
                open.reverse();
                [open, closed]
            }
        }),
        step("Positive ones first", |r| {
            r.near.sort.groups = |kinds| {
                let [open, mut closed] = groups(kinds);
                closed.sort_by_key(|&number| kinds[number as usize]);
                [open, closed]
            }
        }),
        step("wires counted from 1", |r| {
            r.near.sort.groups =
                |kinds| groups(kinds).map(|group| group.iter().map(|number| number + 1).collect())
        }),
        step("places for open ones are not counted", |r| {
            r.near.sort.fits = |places, wires| places[1] >= wires[1]
        }),
        step("places for closed ones are not counted", |r| {
            r.near.sort.fits = |places, wires| places[0] >= wires[0]
        }),
        step("a spare place is asked for", |r| {
            r.near.sort.fits = |places, wires| places[0] >= wires[0] && places[1] > wires[1]
        }),
        step("places for all wires are asked for", |r| {
            r.near.sort.fits = |places, wires| places[0] >= 2 && places[1] >= wires[0] + wires[1]
        }),
    ]
}

/// Sortings that refuse or write wrongly.
pub fn wrong_sorting_calls() -> Vec<Mutant> {
    vec![
        step("64 wires are too many", |r| {
            r.near.sort.too_many = |wires, floats| wires > 63 || floats / 5 < wires
        }),
        step("65 wires pass", |r| {
            r.near.sort.too_many = |wires, floats| wires > 65 || floats / 5 < wires
        }),
        step("a spare row is asked for", |r| {
            r.near.sort.too_many = |wires, floats| wires > 64 || floats / 5 <= wires
        }),
        step("floats past the wires are looked at", |r| {
            r.near.sort.seen = |ends, _| ends
        }),
        step("only the first wires are looked at", |r| {
            r.near.sort.seen = |ends, wires| &ends[..5 * wires.min(2)]
        }),
        behind("6 before none", |b| {
            b.sort = |answer, call| match (answer, call.open.len()) {
                (-1, 0 | 1) => 6,
                _ => answer,
            }
        }),
        behind("4 before 1", |b| {
            b.sort = |answer, call| {
                let nan = call.ends.iter().any(|&bits| f64::from_bits(bits).is_nan());
                if answer == 1 && nan {
                    4
                } else {
                    answer
                }
            }
        }),
        behind("open ones written before 6", |b| {
            b.sort = |answer, call| {
                if let (6, [first, _, ..]) = (answer, &mut *call.open) {
                    *first = 0;
                }
                answer
            }
        }),
        behind("places past the result cleared", |b| {
            b.sort = |answer, call| {
                if answer == 0 {
                    call.closed[call.out[0]..].fill(0);
                }
                answer
            }
        }),
        behind("all wires counted", |b| {
            b.sort = |answer, call| {
                if answer == 0 {
                    call.out[0] = call.wires;
                }
                answer
            }
        }),
        behind("the count written for none", |b| {
            b.sort = |answer, call| {
                if answer == -1 {
                    call.out[0] = 0;
                }
                answer
            }
        }),
    ]
}
