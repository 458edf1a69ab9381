//! Ports that are wrong in one place each.

pub mod cut;
pub mod eighths;
pub mod join;
pub mod near;
pub mod pass;
pub mod preparations;
pub mod search;
pub mod several_cuts;
pub mod split;

use oracle::port::{Closed, Cut, CutParameter, Join, Nearest, NearestCopy, Port};
use oracle::port::{Search, Sort, Split, Unwrap, WireEnds};
use oracle::reference::Reference;
use oracle::shell::Lent;

/// A wrong port with the name of what is wrong.
pub type Mutant = (&'static str, Box<dyn Port>);

/// The wrong ports of a call.
pub fn lists(call: &str) -> Vec<Vec<Mutant>> {
    match call {
        "split_closed_edges" => of_edges(pass::lists()),
        "cut_parameter" => eighths::lists_of_parameter(),
        "get_mindiff" => vec![near::wrong_unwrapping(), near::wrong_numbers()],
        "nearest_copy" => vec![near::wrong_copies(), near::wrong_copying()],
        "boundary_type" => vec![near::wrong_kinds()],
        "sort_wires" => vec![near::wrong_sorting(), near::wrong_sorting_calls()],
        "nearest_correction" => of_edges(search::lists_of_nearest()),
        "find_non_simple_wire_divisor" => of_edges(search::lists_of_search()),
        "cut_edge_by_intersections" => of_edges(cut::lists()),
        "cut_edge_at_points" => of_edges(several_cuts::lists()),
        "connect_open_boundaries" => of_edges(join::lists()),
        "split_boundaries_by_divisor" => of_edges(split::lists()),
        _ => panic!("no call of the name {call}"),
    }
}

/// The wrong ports of a call that is lent edges: its own, and wrong checks of
/// preparations.
fn of_edges(own: Vec<Vec<Mutant>>) -> Vec<Vec<Mutant>> {
    own.into_iter().chain(preparations::lists()).collect()
}

/// The reference with some steps replaced.
pub fn step(name: &'static str, change: fn(&mut Reference)) -> Mutant {
    let mut reference = Reference::default();
    change(&mut reference);
    (name, Box::new(reference))
}

/// The reference with something done after a call: it is told the answer, and
/// gives another one or the same.
#[derive(Clone, Copy)]
pub struct Behind {
    pub pass: fn(i32, &Lent, &mut Closed) -> i32,
    pub parameter: fn(i32, CutParameter, &mut [u64]) -> i32,
    pub unwrap: fn(i32, Unwrap, &mut [u64]) -> i32,
    pub copy: fn(i32, NearestCopy, &mut [u64]) -> i32,
    pub kind: fn(i32, WireEnds, &mut [u32]) -> i32,
    pub sort: fn(i32, &mut Sort) -> i32,
    pub nearest: fn(i32, &mut Nearest) -> i32,
    pub search: fn(i32, &mut Search) -> i32,
    pub cut: fn(i32, &Lent, &mut Cut) -> i32,
    pub several: fn(i32, &Lent, &mut Cut) -> i32,
    /// The uses and lengths of the new wires as they were come first.
    pub join: fn(i32, [&[u32]; 2], &mut Join) -> i32,
    pub split: fn(i32, &Kept, &mut Split) -> i32,
}

/// What a split may write, as it was before.
pub struct Kept {
    pub edge_numbers: Vec<u32>,
    pub edge_floats: Vec<u64>,
    pub uses: Vec<u32>,
    pub lengths: Vec<u32>,
    pub out: Vec<usize>,
}

impl Kept {
    fn of(call: &Split) -> Kept {
        Kept {
            edge_numbers: call.edge_numbers.to_vec(),
            edge_floats: call.edge_floats.to_vec(),
            uses: call.uses.to_vec(),
            lengths: call.lengths.to_vec(),
            out: call.out.to_vec(),
        }
    }

    /// Puts everything back.
    pub fn put_back(&self, call: &mut Split) {
        call.edge_numbers.copy_from_slice(&self.edge_numbers);
        call.edge_floats.copy_from_slice(&self.edge_floats);
        call.uses.copy_from_slice(&self.uses);
        call.lengths.copy_from_slice(&self.lengths);
        call.out.copy_from_slice(&self.out);
    }
}

/// A port that does something wrong after all else was right.
pub fn behind(name: &'static str, change: impl Fn(&mut Behind)) -> Mutant {
    let mut behind = Behind {
        pass: |answer, _, _| answer,
        parameter: |answer, _, _| answer,
        unwrap: |answer, _, _| answer,
        copy: |answer, _, _| answer,
        kind: |answer, _, _| answer,
        sort: |answer, _| answer,
        nearest: |answer, _| answer,
        search: |answer, _| answer,
        cut: |answer, _, _| answer,
        several: |answer, _, _| answer,
        join: |answer, _, _| answer,
        split: |answer, _, _| answer,
    };
    change(&mut behind);
    (name, Box::new(behind))
}

/// A port of which only one call is there.
pub struct Only<'a> {
    pub name: &'a str,
    pub port: &'a dyn Port,
}

impl Port for Only<'_> {
    fn has(&self, name: &str) -> bool {
        name == self.name
    }

    fn split_closed_edges(&self, call: Closed<'_>) -> i32 {
        self.port.split_closed_edges(call)
    }

    fn cut_parameter(&self, call: CutParameter, out: &mut [u64]) -> i32 {
        self.port.cut_parameter(call, out)
    }

    fn get_mindiff(&self, call: Unwrap, out: &mut [u64]) -> i32 {
        self.port.get_mindiff(call, out)
    }

    fn nearest_copy(&self, call: NearestCopy, out: &mut [u64]) -> i32 {
        self.port.nearest_copy(call, out)
    }

    fn boundary_type(&self, call: WireEnds, out: &mut [u32]) -> i32 {
        self.port.boundary_type(call, out)
    }

    fn sort_wires(&self, call: Sort<'_>) -> i32 {
        self.port.sort_wires(call)
    }

    fn nearest_correction(&self, call: Nearest<'_>) -> i32 {
        self.port.nearest_correction(call)
    }

    fn find_non_simple_wire_divisor(&self, call: Search<'_>) -> i32 {
        self.port.find_non_simple_wire_divisor(call)
    }

    fn cut_edge_by_intersections(&self, call: Cut<'_>) -> i32 {
        self.port.cut_edge_by_intersections(call)
    }

    fn cut_edge_at_points(&self, call: Cut<'_>) -> i32 {
        self.port.cut_edge_at_points(call)
    }

    fn connect_open_boundaries(&self, call: Join<'_>) -> i32 {
        self.port.connect_open_boundaries(call)
    }

    fn split_boundaries_by_divisor(&self, call: Split<'_>) -> i32 {
        self.port.split_boundaries_by_divisor(call)
    }
}

/// The implementation that is spoiled afterwards.
fn right() -> Reference {
    Reference::default()
}

impl Port for Behind {
    fn split_closed_edges(&self, mut call: Closed<'_>) -> i32 {
        let before = call.pass.copy();
        let answer = right().split_closed_edges(call.again());
        (self.pass)(answer, &before, &mut call)
    }

    fn cut_parameter(&self, call: CutParameter, out: &mut [u64]) -> i32 {
        let answer = right().cut_parameter(call, out);
        (self.parameter)(answer, call, out)
    }

    fn get_mindiff(&self, call: Unwrap, out: &mut [u64]) -> i32 {
        let answer = right().get_mindiff(call, out);
        (self.unwrap)(answer, call, out)
    }

    fn nearest_copy(&self, call: NearestCopy, out: &mut [u64]) -> i32 {
        let answer = right().nearest_copy(call, out);
        (self.copy)(answer, call, out)
    }

    fn boundary_type(&self, call: WireEnds, out: &mut [u32]) -> i32 {
        let answer = right().boundary_type(call, out);
        (self.kind)(answer, call, out)
    }

    fn sort_wires(&self, mut call: Sort<'_>) -> i32 {
        let answer = right().sort_wires(Sort {
            open: call.open,
            closed: call.closed,
            out: call.out,
            ..call
        });
        (self.sort)(answer, &mut call)
    }

    fn nearest_correction(&self, mut call: Nearest<'_>) -> i32 {
        let answer = right().nearest_correction(Nearest {
            out: call.out,
            ..call
        });
        (self.nearest)(answer, &mut call)
    }

    fn find_non_simple_wire_divisor(&self, mut call: Search<'_>) -> i32 {
        let answer = right().find_non_simple_wire_divisor(Search {
            out: call.out,
            ..call
        });
        (self.search)(answer, &mut call)
    }

    fn cut_edge_by_intersections(&self, mut call: Cut<'_>) -> i32 {
        let before = call.pass.copy();
        let answer = right().cut_edge_by_intersections(call.again());
        (self.cut)(answer, &before, &mut call)
    }

    fn cut_edge_at_points(&self, mut call: Cut<'_>) -> i32 {
        let before = call.pass.copy();
        let answer = right().cut_edge_at_points(call.again());
        (self.several)(answer, &before, &mut call)
    }

    fn connect_open_boundaries(&self, mut call: Join<'_>) -> i32 {
        let (uses, lengths) = (call.uses.to_vec(), call.lengths.to_vec());
        let answer = right().connect_open_boundaries(call.again());
        (self.join)(answer, [&uses, &lengths], &mut call)
    }

    fn split_boundaries_by_divisor(&self, mut call: Split<'_>) -> i32 {
        let before = Kept::of(&call);
        let answer = right().split_boundaries_by_divisor(call.again());
        (self.split)(answer, &before, &mut call)
    }
}
