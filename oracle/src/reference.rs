//! A plain implementation of the calls. It is not the comparison's truth,
//! although a pass by a k other than 4 must come out as here too: it shows that
//! a right port is found right, and, with one step replaced by a wrong one, that
//! a wrong port is found wrong.

pub mod cut;
pub mod eighths;
pub mod join;
pub mod near;
pub mod pass;
pub mod search;
pub mod several_cuts;
pub mod split;
pub mod tables;

use crate::port::{Closed, Cut, CutParameter, Join, Nearest, NearestCopy, Port};
use crate::port::{Search, Sort, Split, Unwrap, WireEnds};

/// The steps of the calls, each of which can be replaced.
#[derive(Clone, Copy, Default)]
pub struct Reference {
    pub tables: tables::Steps,
    pub eighths: eighths::Steps,
    pub pass: pass::Steps,
    pub near: near::Steps,
    pub search: search::Steps,
    pub cut: cut::Steps,
    pub several: several_cuts::Steps,
    pub join: join::Steps,
    pub split: split::Steps,
}

impl Port for Reference {
    fn split_closed_edges(&self, call: Closed<'_>) -> i32 {
        pass::split_closed_edges(self, call)
    }

    fn cut_parameter(&self, call: CutParameter, out: &mut [u64]) -> i32 {
        self.eighths.cut_parameter(call, out)
    }

    fn get_mindiff(&self, call: Unwrap, out: &mut [u64]) -> i32 {
        self.near.get_mindiff(call, out)
    }

    fn nearest_copy(&self, call: NearestCopy, out: &mut [u64]) -> i32 {
        self.near.nearest_copy(call, out)
    }

    fn boundary_type(&self, call: WireEnds, out: &mut [u32]) -> i32 {
        self.near.boundary_type(call, out)
    }

    fn sort_wires(&self, call: Sort<'_>) -> i32 {
        self.near.sort_wires(call)
    }

    fn nearest_correction(&self, call: Nearest<'_>) -> i32 {
        search::nearest_correction(self, call)
    }

    fn find_non_simple_wire_divisor(&self, call: Search<'_>) -> i32 {
        search::find_non_simple_wire_divisor(self, call)
    }

    fn cut_edge_by_intersections(&self, call: Cut<'_>) -> i32 {
        cut::cut_edge_by_intersections(self, call)
    }

    fn cut_edge_at_points(&self, call: Cut<'_>) -> i32 {
        several_cuts::cut_edge_at_points(self, call)
    }

    fn connect_open_boundaries(&self, call: Join<'_>) -> i32 {
        join::connect_open_boundaries(self, call)
    }

    fn split_boundaries_by_divisor(&self, call: Split<'_>) -> i32 {
        split::split_boundaries_by_divisor(self, call)
    }
}
