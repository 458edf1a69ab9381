//! The refusals of the cut of an edge at several points, and what holds of its
//! wires.

use super::cut::{unsound, Cuts, CUT};
use super::lowest;
use crate::shell::{Lent, EDGE_NUMBERS};

/// Most cuts of an edge.
pub const MOST_CUTS: usize = 64;

/// Why the cuts are refused, save for their result: the lowest of 1 to 5, then
/// 16, then 17.
pub fn several_refused(lent: &Lent, cuts: &Cuts) -> Option<i32> {
    unsound(lent, cuts).or_else(|| {
        lowest(&[
            (16, &|| cuts.count > MOST_CUTS),
            (17, &|| any_not_rising(cuts)),
        ])
    })
}

/// 17: a parameter is not below the next one.
fn any_not_rising(cuts: &Cuts) -> bool {
    let t = |row: usize| f64::from_bits(cuts.cuts[row * CUT]);
    (1..cuts.count).any(|row| t(row - 1) >= t(row))
}

/// The edge numbers and the wires that a call has left.
pub struct Left<'a> {
    pub edge_numbers: &'a [u32],
    pub uses: &'a [u32],
    pub lengths: &'a [u32],
}

/// What the wires of a call that is done break of A.1's "connected wires remain
/// connected": besides, each begins and ends where it did.
pub fn torn(lent: &Lent, cuts: &Cuts, left: &Left) -> Option<&'static str> {
    if several_refused(lent, cuts).is_some() {
        return None;
    }
    let mut rest = left.uses;
    for (wire, &length) in lent.wires().read().iter().zip(left.lengths) {
        let Some((mended, behind)) = rest.split_at_checked(length as usize) else {
            return Some("the lengths are not those of the uses");
        };
        rest = behind;
        let before = Way::of(wire, &lent.tables.edge_numbers);
        let after = Way::of(mended, left.edge_numbers);
        if before.is_connected && !after.is_connected {
            return Some("a connected wire comes apart");
        }
        if before.ends != after.ends {
            return Some("a wire begins or ends elsewhere");
        }
    }
    None
}

/// How a wire goes: whether each back is the next front, and the first front
/// and the last back, where there are such vertices.
struct Way {
    is_connected: bool,
    ends: [Option<u32>; 2],
}

impl Way {
    fn of(wire: &[u32], edge_numbers: &[u32]) -> Way {
        let end = |number: u32, which: u32| {
            let cell = (number / 2) as usize * EDGE_NUMBERS + ((number % 2) ^ which) as usize;
            edge_numbers.get(cell).copied()
        };
        let joined = |pair: &[u32]| {
            let back = end(pair[0], 1);
            back.is_some() && back == end(pair[1], 0)
        };
        Way {
            is_connected: wire.windows(2).all(joined),
            ends: [
                wire.first().and_then(|&number| end(number, 0)),
                wire.last().and_then(|&number| end(number, 1)),
            ],
        }
    }
}
