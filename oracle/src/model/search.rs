//! The refusals of nearest ends and of the non-simple search. Whether the
//! search comes to an answer is a question of edge numbers alone, so the
//! model decides that as well.

use super::{any_pending, end_unknown, float_unfit, kind_or_preparation_unknown, range_unfit};
use super::{lowest, refused, tables_passed, use_unknown, MOST_USES};
use crate::shell::{Lent, Tables};

/// Two rows of uses with their counts, and the vertex to start from.
pub struct Stretches<'a> {
    pub first: &'a [u32],
    pub second: &'a [u32],
    pub first_count: usize,
    pub second_count: usize,
    pub v0: u32,
}

/// Why `nearest_correction` is refused.
pub fn nearest_refused(tables: &Tables, stretches: &Stretches) -> Option<i32> {
    let used = || {
        let first = &stretches.first[..stretches.first_count];
        [first, &stretches.second[..stretches.second_count]].concat()
    };
    lowest(&[
        (1, &|| tables_passed(tables)),
        (1, &|| stretches_passed(stretches)),
        (1, &|| kind_or_preparation_unknown(tables)),
        (2, &|| end_unknown(tables)),
        (2, &|| stretches.v0 as usize >= tables.vertices),
        (3, &|| use_unknown(&used(), tables.edges)),
        (4, &|| float_unfit(tables)),
        (5, &|| range_unfit(tables)),
        (7, &|| any_pending(tables)),
    ])
}

/// 1: a count of uses is above what was lent, or both are above the bound.
pub(super) fn stretches_passed(stretches: &Stretches) -> bool {
    let (first, second) = (stretches.first_count, stretches.second_count);
    first > stretches.first.len()
        || second > stretches.second.len()
        || first as u128 + second as u128 > MOST_USES as u128
}

/// Why `find_non_simple_wire_divisor` is refused before it searches.
pub fn search_refused(lent: &Lent) -> Option<i32> {
    refused(lent).or_else(|| any_pending(&lent.tables).then_some(7))
}

/// How a search ends.
#[derive(Clone, Copy, Debug, PartialEq, Eq)]
pub enum End {
    /// With two vertices.
    Answer,
    /// With "none".
    Nothing,
    /// With a second place past the end of a wire (8).
    PastEnd,
}

/// How the search over these wires ends: with the first wire that does not
/// end with "none".
pub fn search_end(wires: &[Vec<u32>]) -> End {
    let ends = wires.iter().map(|wire| wire_end(wire));
    let mut others = ends.filter(|&end| end != End::Nothing);
    others.next().unwrap_or(End::Nothing)
}

/// How the search over one wire ends.
fn wire_end(wire: &[u32]) -> End {
    let Some((earlier, later)) = pair(wire, 0) else {
        return End::Nothing;
    };
    let turned = [&wire[earlier..], &wire[..earlier]].concat();
    let (j0, length) = (later - earlier, wire.len());
    let (i1, j1) = match pair(&turned, j0 + 1) {
        Some(second) => second,
        None if j0 == length - 1 => return End::PastEnd,
        None => (j0, length),
    };
    // The first stretch is 1 to j0 - 1, the second i1 + 1 to j1 - 1.
    match j0 > 1 && j1 - i1 > 1 {
        true => End::Answer,
        false => End::Nothing,
    }
}

/// The first place whose edge stood at an earlier one, both from a place on,
/// as that earlier place and the later one.
fn pair(wire: &[u32], from: usize) -> Option<(usize, usize)> {
    let same = |i: usize, j: usize| wire[i] / 2 == wire[j] / 2;
    let earlier = |j: usize| (from..j).find(|&i| same(i, j)).map(|i| (i, j));
    (from..wire.len()).find_map(earlier)
}

#[cfg(test)]
mod tests {
    use super::{search_end, End};
    use crate::records::wires;

    #[test]
    fn worked_wires() {
        let end = |notations: &[&str]| search_end(&wires(notations));
        assert_eq!(end(&[]), End::Nothing);
        assert_eq!(end(&["0+ 1+ 2+"]), End::Nothing);
        assert_eq!(end(&["0+ 1+ 0-"]), End::PastEnd);
        assert_eq!(end(&["0+ 0- 1+"]), End::Nothing);
        assert_eq!(end(&["1+ 2+ 0+ 3+ 4+ 0-"]), End::Answer);
        assert_eq!(end(&["0+ 0- 1+", "0+ 1+ 0-"]), End::PastEnd);
        assert_eq!(end(&["1+ 2+ 0+ 3+ 4+ 0-", "0+ 1+ 0-"]), End::Answer);
    }
}
