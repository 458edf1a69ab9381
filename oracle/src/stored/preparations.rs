//! Calls that were done before the preparation of an edge was made one that
//! is not known, for every call that is lent edges.

use super::changed::{put_changed, Change};
use super::make::Most;
use crate::calls::cut_edge::CutEdge;
use crate::calls::find_divisor::FindDivisor;
use crate::calls::join_wires::JoinWires;
use crate::calls::nearest_correction::NearestEnds;
use crate::calls::several_cuts::SeveralCuts;
use crate::calls::split_closed_edges::SplitClosed;
use crate::calls::split_wires::SplitWires;
use crate::calls::Families;
use crate::random::Random;
use crate::shell::{Tables, EDGE_NUMBERS, PREPARATION};

/// A call that is lent edges.
pub trait LentEdges: Families {
    /// The tables.
    fn tables(&mut self) -> &mut Tables;

    /// Every cell for a use.
    fn uses(&self) -> Vec<u32>;
}

impl LentEdges for SplitClosed {
    fn tables(&mut self) -> &mut Tables {
        &mut self.lent.tables
    }

    fn uses(&self) -> Vec<u32> {
        self.lent.uses.clone()
    }
}

impl LentEdges for NearestEnds {
    fn tables(&mut self) -> &mut Tables {
        &mut self.tables
    }

    fn uses(&self) -> Vec<u32> {
        [&self.first[..], &self.second].concat()
    }
}

impl LentEdges for FindDivisor {
    fn tables(&mut self) -> &mut Tables {
        &mut self.0.tables
    }

    fn uses(&self) -> Vec<u32> {
        self.0.uses.clone()
    }
}

impl LentEdges for CutEdge {
    fn tables(&mut self) -> &mut Tables {
        &mut self.lent.tables
    }

    fn uses(&self) -> Vec<u32> {
        self.lent.uses.clone()
    }
}

impl LentEdges for SeveralCuts {
    fn tables(&mut self) -> &mut Tables {
        self.0.tables()
    }

    fn uses(&self) -> Vec<u32> {
        self.0.uses()
    }
}

impl LentEdges for JoinWires {
    fn tables(&mut self) -> &mut Tables {
        &mut self.new.tables
    }

    fn uses(&self) -> Vec<u32> {
        [&self.first[..], &self.second, &self.new.uses].concat()
    }
}

impl LentEdges for SplitWires {
    fn tables(&mut self) -> &mut Tables {
        &mut self.tables
    }

    fn uses(&self) -> Vec<u32> {
        [&self.face.uses[..], &self.rebuilt.uses].concat()
    }
}

/// Adds such calls, made by a maker of calls that are mostly done.
pub fn put_unknown<I: LentEdges>(words: &mut Vec<u64>, most: Most, made: fn(&mut Random) -> I) {
    let changes: [Change<I>; 6] = [
        (1, of_used),
        (1, of_unused),
        (1, with_front),
        (1, with_back),
        (0, uncounted),
        (1, four_numbers),
    ];
    put_changed(words, most, &changes, made);
}

/// Sets a number cell of an edge row.
fn set(tables: &mut Tables, row: usize, cell: usize, value: u32) {
    tables.edge_numbers[row * EDGE_NUMBERS + cell] = value;
}

/// The first edge that is used, or that is not.
fn edge<I: LentEdges>(input: &mut I, used: bool) -> Option<usize> {
    let uses = input.uses();
    let is_used = |row: &usize| uses.iter().any(|&number| number as usize / 2 == *row);
    (0..input.tables().edges).find(|row| is_used(row) == used)
}

/// The preparation of a used edge is 3.
fn of_used<I: LentEdges>(input: &mut I) -> bool {
    let Some(row) = edge(input, true) else {
        return false;
    };
    set(input.tables(), row, PREPARATION, 3);
    true
}

/// The preparation of an unused edge, not the first, is the largest number.
fn of_unused<I: LentEdges>(input: &mut I) -> bool {
    match edge(input, false) {
        Some(row @ 1..) => {
            set(input.tables(), row, PREPARATION, u32::MAX);
            true
        }
        _ => false,
    }
}

/// The last preparation is 3, and the first front too large.
fn with_front<I: LentEdges>(input: &mut I) -> bool {
    let tables = input.tables();
    let last = tables.edges.saturating_sub(1);
    if last > 0 {
        set(tables, last, PREPARATION, 3);
        set(tables, 0, 0, tables.vertices as u32);
    }
    last > 0
}

/// The first preparation is 3, and the last back too large.
fn with_back<I: LentEdges>(input: &mut I) -> bool {
    let tables = input.tables();
    let last = tables.edges.saturating_sub(1);
    if last > 0 {
        set(tables, 0, PREPARATION, 3);
        set(tables, last, 1, tables.vertices as u32);
    }
    last > 0
}

/// The last edge is not counted any more, and its preparation is 3.
fn uncounted<I: LentEdges>(input: &mut I) -> bool {
    let tables = input.tables();
    if tables.edges < 2 {
        return false;
    }
    tables.edges -= 1;
    set(tables, tables.edges, PREPARATION, 3);
    true
}

/// Just four numbers are lent for each edge.
fn four_numbers<I: LentEdges>(input: &mut I) -> bool {
    let tables = input.tables();
    tables.edge_numbers.truncate(4 * tables.edges);
    tables.edges > 0
}
