//! The refusals of the join. Whether two open wires are joined is a question
//! of fronts alone, so the model decides that as well.

use super::search::{stretches_passed, Stretches};
use super::{edge_float_unfit, edge_kind_or_preparation_unknown, edge_range_unfit, edges_passed};
use super::{end_unknown, lowest, use_count, use_unknown};
use super::{MOST_USES, MOST_VERTICES, MOST_WIRES};
use crate::shell::Lent;

/// The new wires and the edge table, which are lent without a vertex table,
/// the two open wires with the first vertex, and the second vertex.
pub struct Joining<'a> {
    pub lent: &'a Lent,
    pub open: Stretches<'a>,
    pub v1: u32,
}

impl<'a> Joining<'a> {
    /// The two open wires.
    fn open_wires(&self) -> [&'a [u32]; 2] {
        [
            &self.open.first[..self.open.first_count],
            &self.open.second[..self.open.second_count],
        ]
    }

    /// The uses of the new wires.
    fn new_uses(&self) -> &'a [u32] {
        &self.lent.uses[..use_count(self.lent) as usize]
    }

    /// The uses of all wires once they are joined.
    pub fn result_uses(&self) -> usize {
        self.new_uses().len() + self.open.first_count + self.open.second_count
    }
}

/// Why a join is refused, save for its result: the lowest of 1 to 5, else 15.
pub fn join_refused(join: &Joining) -> Option<i32> {
    let tables = &join.lent.tables;
    let unknown = |uses: &[u32]| use_unknown(uses, tables.edges);
    lowest(&[
        (1, &|| tables.vertices > MOST_VERTICES),
        (1, &|| edges_passed(tables)),
        (1, &|| stretches_passed(&join.open)),
        (1, &|| new_wires_passed(join)),
        (1, &|| edge_kind_or_preparation_unknown(tables)),
        (2, &|| end_unknown(tables)),
        (2, &|| join.open.v0.max(join.v1) as usize >= tables.vertices),
        (3, &|| unknown(&join.open_wires().concat())),
        (3, &|| unknown(join.new_uses())),
        (4, &|| edge_float_unfit(tables)),
        (5, &|| edge_range_unfit(tables)),
        (15, &|| join.open_wires().contains(&[].as_slice())),
    ])
}

/// 1: with the open wires there are more wires or uses than the bounds allow,
/// or the new wires are more or longer than what was lent. The open wires are
/// within what was lent here.
fn new_wires_passed(join: &Joining) -> bool {
    let lent = join.lent;
    if lent.wires > MOST_WIRES - 2 || lent.wires > lent.lengths.len() {
        return true;
    }
    let open = (join.open.first_count + join.open.second_count) as u128;
    let new = use_count(lent);
    open + new > MOST_USES as u128 || new > lent.uses.len() as u128
}

/// 6: the joined wires do not fit into what was lent for them.
pub fn join_cause_6(join: &Joining) -> bool {
    let uses = join.result_uses();
    uses > MOST_USES || uses > join.lent.uses.len()
}

/// Whether the open wires are joined, where no cause above holds.
pub fn joins(join: &Joining, new: &[Vec<u32>]) -> bool {
    let [v0, v1] = [join.open.v0, join.v1];
    let [first, second] = join.open_wires().map(|wire| fronts(join, wire));
    // v0 is a front of the first open wire, or else of the second.
    let holder = if first.contains(&v0) { &first } else { &second };
    if !holder.contains(&v0) {
        return false;
    }
    let (front, behind) = match holder[0] == v0 {
        true => (first, second),
        false => (second, first),
    };
    let mut new = new.iter().map(|wire| fronts(join, wire));
    let taken = new.find(|fronts| fronts.contains(&v0));
    taken.is_some_and(|taken| behind.contains(&v1) && [front, taken].concat().contains(&v1))
}

/// The fronts of uses.
fn fronts(join: &Joining, uses: &[u32]) -> Vec<u32> {
    let front = |&number: &u32| {
        let edge = join.lent.tables.edge(number as usize / 2);
        [edge.front, edge.back][number as usize % 2]
    };
    uses.iter().map(front).collect()
}

#[cfg(test)]
mod tests {
    use super::{joins, Joining, Stretches};
    use crate::calls::tables::{edge_table, sample_edges};
    use crate::records::wire;
    use crate::shell::Lent;

    #[test]
    fn worked_wires() {
        let lent = Lent {
            tables: edge_table(4, &sample_edges()),
            uses: Vec::new(),
            lengths: Vec::new(),
            wires: 0,
        };
        let found = |open: [&str; 2], new: &[&str], v0, v1| {
            let [first, second] = open.map(wire);
            let open = Stretches {
                first_count: first.len(),
                second_count: second.len(),
                first: &first,
                second: &second,
                v0,
            };
            let new: Vec<Vec<u32>> = new.iter().map(|notation| wire(notation)).collect();
            let lent = &lent;
            joins(&Joining { lent, open, v1 }, &new)
        };
        assert!(found(["1+ 2+", "3+ 4+"], &["0+ 0-"], 0, 2));
        assert!(!found(["3+ 4+", "1+ 2+"], &["0+ 0-"], 0, 2));
        assert!(!found(["1+ 2+", "3+ 4+"], &["3+", ""], 0, 2));
        assert!(!found(["1+ 2+", "3+ 4+"], &[], 0, 2));
        assert!(!found(["1+ 2+", "3+ 4+"], &["0+"], 0, 2));
        assert!(found(["2+ 1+", "3+ 4+"], &["0+ 0-"], 0, 0));
        assert!(!found(["2+ 1+", "3+ 4+"], &["0+ 0-"], 0, 1));
    }
}
