//! The rows of the table: every call at every size, both sides made ready
//! from the same input.

use crate::checks;
use crate::inputs::{self, Size};
use crate::port;
use kaugrenna::Refusal;
use oracle::healing::prepared::{self as rust, Ready};
use std::fmt;

/// What a row is about.
#[derive(Clone, Copy, Debug)]
pub struct Row {
    pub call: &'static str,
    /// Uses, or wires to be sorted, or 0 for plain numbers.
    pub size: usize,
    /// `small` or `full` tables, or `-` where there are none.
    pub tables: &'static str,
    /// How many prepared inputs a round goes through.
    pub batch: usize,
}

impl Row {
    /// The size, where the call has one.
    pub fn size_name(&self) -> String {
        match self.size {
            0 => "-".into(),
            size => size.to_string(),
        }
    }
}

impl fmt::Display for Row {
    fn fmt(&self, to: &mut fmt::Formatter<'_>) -> fmt::Result {
        write!(to, "{} {} {}", self.call, self.size_name(), self.tables)
    }
}

/// Something that is done with every row, given the way to make either side
/// ready. Inputs of plain numbers differ by the number handed in.
pub trait Visitor {
    fn row<P, R>(&mut self, row: Row, port: impl Fn(usize) -> P, rust: impl Fn(usize) -> R)
    where
        P: Ready,
        R: Ready<Answer = P::Answer>;
}

/// The call has said nothing yet.
const NOTHING: Refusal = Refusal::Malformed;

/// The number of the surface on which seams are drawn.
const SURFACE: u32 = 7;

/// Shows all rows to the visitor.
pub fn visit_all(visitor: &mut impl Visitor) {
    for full in [false, true] {
        for uses in [8, 64, 1024] {
            let size = Size { uses, full };
            visit_cuts(size, visitor);
            visit_several_cuts(size, visitor);
            visit_lookups(size, visitor);
            visit_rebuilt(size, visitor);
            visit_checks(size, visitor);
        }
    }
    for wires in [8, 64] {
        let ends = inputs::sort(wires);
        let row = row("sort_wires", wires, "-", 8192 / wires);
        visitor.row(row, |_| port::Sort::of(&ends), |_| rust::Sort::of(&ends));
    }
    visit_unwrapping(visitor);
    visit_copies(visitor);
    visit_kinds(visitor);
}

fn row(call: &'static str, size: usize, tables: &'static str, batch: usize) -> Row {
    Row {
        call,
        size,
        tables,
        batch,
    }
}

/// A row over tables. Of full ones a round goes through few, so that they stay
/// in a cache of the processor.
fn over_tables(call: &'static str, size: Size) -> Row {
    match size.full {
        false => row(call, size.uses, "small", 8192 / size.uses),
        true => row(call, size.uses, "full", 4),
    }
}

/// The pass and the cut.
fn visit_cuts(size: Size, visitor: &mut impl Visitor) {
    let (shell, more) = inputs::pass(size);
    visitor.row(
        over_tables("split_closed_edges", size),
        |_| port::Pass::of(&shell, more, 4),
        |_| rust::Pass::of(&shell, more),
    );
    if size.uses == 1024 {
        // Here the Rust's curves name the parameter in place of their range.
        visitor.row(
            over_tables("split_closed_edges, k 3", size),
            |_| port::Pass::of(&shell, more, 3),
            |_| rust::Pass::at(&shell, more, 3),
        );
    }
    let shell = inputs::cut(size);
    let cut = [shell.edges[0].curve.range().0 + 0.25, 1.0, 2.0, 3.0];
    visitor.row(
        over_tables("cut_edge_by_intersections", size),
        |_| port::OneCut::of(&shell, 0, cut),
        |_| rust::OneCut::of(&shell, 0, cut),
    );
}

/// Several cuts, as many as have room in the result. The Rust's own call comes
/// apart: its one cut is made over and over.
fn visit_several_cuts(size: Size, visitor: &mut impl Visitor) {
    let rows = [
        ("cut_edge_at_points, 1 cut", 1),
        ("cut_edge_at_points, 3 cuts", 3),
        ("cut_edge_at_points, 64 cuts", 64),
    ];
    for (call, count) in rows.into_iter().filter(|&(_, count)| count < size.uses) {
        let (shell, cuts, uses) = inputs::cuts(size, count);
        visitor.row(
            over_tables(call, size),
            |_| port::SeveralCuts::of(&shell, &cuts, uses),
            |_| rust::SeveralCuts::of(&shell, 0, &cuts),
        );
    }
}

/// Nearest ends and the search.
fn visit_lookups(size: Size, visitor: &mut impl Visitor) {
    let shell = inputs::ends(size);
    visitor.row(
        over_tables("nearest_correction", size),
        |_| port::NearestEnds::of(&shell, 1),
        |_| rust::NearestEnds::of(&shell, 1),
    );
    let shell = inputs::search(size);
    visitor.row(
        over_tables("find_non_simple_wire_divisor", size),
        |_| port::Search::of(&shell),
        |_| rust::Search::of(&shell),
    );
}

/// The split and the join.
fn visit_rebuilt(size: Size, visitor: &mut impl Visitor) {
    let (shell, list) = inputs::split(size);
    visitor.row(
        over_tables("split_boundaries_by_divisor", size),
        |_| port::Split::of(&shell, &list, SURFACE),
        |_| rust::Split::of(&shell, &list, SURFACE),
    );
    let (shell, ends) = inputs::join(size);
    visitor.row(
        over_tables("connect_open_boundaries", size),
        |_| port::Join::of(&shell, ends),
        |_| rust::Join::of(&shell, ends),
    );
}

/// The checks alone, over the shells of one cut; here the Rust side is the same
/// tests in Rust.
fn visit_checks(size: Size, visitor: &mut impl Visitor) {
    let shell = inputs::cut(size);
    visitor.row(
        over_tables("checks alone", size),
        |_| checks::OfPort::of(&shell),
        |_| checks::OfRust::of(&shell),
    );
}

/// How many inputs of plain numbers there are.
const PLAIN: usize = 4096;

fn visit_unwrapping(visitor: &mut impl Visitor) {
    let numbers = |index| {
        let [u, u0, period, ..] = inputs::plain(index);
        (u, u0, period.abs() + 1.0)
    };
    visitor.row(
        row("get_mindiff", 0, "-", PLAIN),
        |index| {
            let (u, u0, period) = numbers(index);
            let said = Err(NOTHING);
            port::Unwrap {
                u,
                u0,
                period,
                said,
            }
        },
        |index| {
            let (u, u0, period) = numbers(index);
            let nearest = f64::NAN;
            rust::Unwrap {
                u,
                u0,
                period,
                nearest,
            }
        },
    );
}

fn visit_copies(visitor: &mut impl Visitor) {
    let points = |index| {
        let [pu, pv, qu, qv, period] = inputs::plain(index);
        let period = period.abs() + 1.0;
        ([pu, pv], [qu, qv], [Some(period), Some(2.0 * period)])
    };
    visitor.row(
        row("nearest_copy", 0, "-", PLAIN),
        |index| {
            let (p, q, periods) = points(index);
            let said = Err(NOTHING);
            port::NearestCopy {
                p,
                q,
                periods,
                said,
            }
        },
        |index| {
            let (p, q, periods) = points(index);
            rust::NearestCopy::of(p, q, periods)
        },
    );
}

fn visit_kinds(visitor: &mut impl Visitor) {
    let wire = |index| {
        let [u, v, area, ..] = inputs::plain(index);
        let far = if index % 3 == 0 { 1.0 } else { 0.0 };
        ([u, v], [u + far, v], area)
    };
    visitor.row(
        row("boundary_type", 0, "-", PLAIN),
        |index| {
            let (first, last, area) = wire(index);
            let said = Err(NOTHING);
            port::WireKind {
                first,
                last,
                area,
                said,
            }
        },
        |index| {
            let (first, last, area) = wire(index);
            rust::WireKind::of(first, last, area)
        },
    );
}
