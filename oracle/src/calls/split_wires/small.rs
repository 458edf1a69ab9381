//! Small splits, in five families.
//!
//! 1. K9's edges with every list of up to five of their four vertices, with
//!    nothing and with K9's wire to be rebuilt, in buffers that are just long
//!    enough and in such that lack a cell for a use, for a length, for a number
//!    or for a float of an edge.
//! 2. Four chosen splits in buffers of every length from nothing to one more
//!    than needed, for uses and lengths all pairs of lengths, for the numbers
//!    and floats of the edges all pairs from the rows that are there on.
//! 3. Five chosen tables of five edges, with every set of their ten uses. A set
//!    in balance comes with each of the 32 sets of marked edges, in four
//!    orders; any other set with one of these choices, in turn. The list is
//!    empty, a pair, or two pairs, in turn.
//! 4. Every table of two edges between three vertices, with every row of up to
//!    four uses of these edges. The face is empty, or what is rebuilt, or one
//!    of the edges twice. Each of these with an empty list, and with one of the
//!    six pairs of different vertices, in turn.
//! 5. Every table of three edges between three vertices, the order of the edges
//!    aside, with every choice of up to four uses in which a use may occur more
//!    than once, in three orders: rising, falling, and rising but turned by
//!    half. The face is empty, or what is rebuilt, or one of the edges twice.
//!    Each with an empty list or one of the six pairs, in turn.
//!
//! In families 3 to 5 the buffers are just long enough, and what is rebuilt
//! stands in one wire or in two, in turn. In all families the edges have the
//! three preparations in turn, from any of them on.

use super::{Place, SplitWires};
use crate::calls::tables::{in_turn, sample_edges, spans};
use crate::records::{wire, Edge};
use crate::shell::{EDGE_FLOATS, EDGE_NUMBERS};

/// Shows every small input to the visitor, until it answers false.
pub fn each(visit: &mut dyn FnMut(&SplitWires) -> bool) {
    let mut small = Small { turn: 0, visit };
    let _ = small.every_list()
        && small.every_room()
        && small.five_edges()
        && small.two_edges()
        && small.three_edges();
}

/// The ends of an edge.
type Ends = (u32, u32);

/// The ends of the five edges of each table of the third family.
const FIVE: [[Ends; 5]; 5] = [
    [(0, 2), (0, 1), (1, 0), (2, 3), (3, 2)],
    [(0, 1), (1, 2), (2, 0), (0, 1), (2, 1)],
    [(1, 0), (1, 2), (1, 3), (0, 0), (2, 3)],
    [(0, 1), (1, 1), (1, 2), (2, 2), (2, 0)],
    [(0, 1), (0, 1), (1, 2), (1, 2), (2, 0)],
];

/// The pairs of different vertices of three.
const PAIRS: [[u32; 2]; 6] = [[0, 1], [1, 0], [0, 2], [2, 0], [1, 2], [2, 1]];

/// The lists of the third family.
const LISTS: [&[u32]; 7] = [
    &[],
    &[3, 1],
    &[1, 2],
    &[0, 2],
    &[],
    &[0, 1, 2, 3],
    &[3, 1, 0, 2],
];

/// A vertex with a point of its own.
fn place(&vertex: &u32) -> Place {
    (vertex, [f64::from(vertex) - 1.5, -0.0])
}

/// A number of the whole run, and who is shown the inputs.
struct Small<'a> {
    turn: usize,
    visit: &'a mut dyn FnMut(&SplitWires) -> bool,
}

impl Small<'_> {
    /// The next number.
    fn next(&mut self) -> usize {
        self.turn += 1;
        self.turn
    }

    /// Shows one input in buffers that are just long enough.
    fn show(&mut self, table: (usize, &[Edge]), sets: [&[u32]; 2], list: &[u32]) -> bool {
        let turn = self.next();
        let [face, rebuilt] = sets;
        let places: Vec<Place> = list.iter().map(place).collect();
        let (first, second) = rebuilt.split_at(turn % 2 * (rebuilt.len() / 2));
        let rebuilt = [first.to_vec(), second.to_vec()];
        let rebuilt = &rebuilt[1 - turn % 2..];
        let table = (table.0, &in_turn(table.1, turn)[..]);
        let input = SplitWires::over(table, [&[face.to_vec()], rebuilt], &places, 0);
        (self.visit)(&input)
    }

    /// The first family.
    fn every_list(&mut self) -> bool {
        let k9 = [wire("1+ 2+ 0+ 3+ 4+ 0-")];
        (0..=5).all(|length| {
            (0..4u32.pow(length)).all(|row| {
                let list: Vec<u32> = (0..length).map(|place| row >> (2 * place) & 3).collect();
                let places: Vec<Place> = list.iter().map(place).collect();
                [&[][..], &k9[..]].iter().all(|rebuilt| {
                    let table = (4, &in_turn(&sample_edges()[..5], row as usize)[..]);
                    let input = SplitWires::over(table, [&k9, rebuilt], &places, 0);
                    (0..5).all(|short| (self.visit)(&shorter(&input, short)))
                })
            })
        })
    }

    /// The second family.
    fn every_room(&mut self) -> bool {
        let k9 = [wire("1+ 2+ 0+ 3+ 4+ 0-")];
        let lists: [&[u32]; 4] = [&[3, 1], &[], &[0, 1, 2, 3], &[3, 1, 0]];
        lists.iter().all(|list| {
            let places: Vec<Place> = list.iter().map(place).collect();
            let table = (4, &in_turn(&sample_edges()[..5], list.len())[..]);
            let input = SplitWires::over(table, [&k9, &k9], &places, 1);
            self.rooms_for_wires(&input) && self.rooms_for_edges(&input)
        })
    }

    /// Shows an input with every length of the buffers for wires.
    fn rooms_for_wires(&mut self, input: &SplitWires) -> bool {
        (0..=input.uses.len()).all(|uses| {
            (0..=input.lengths.len()).all(|lengths| {
                let mut input = input.clone();
                input.uses.truncate(uses);
                input.lengths.truncate(lengths);
                (self.visit)(&input)
            })
        })
    }

    /// Shows an input with every length of the edge table from its rows on.
    fn rooms_for_edges(&mut self, input: &SplitWires) -> bool {
        let tables = &input.tables;
        let edges = tables.edges;
        (edges * EDGE_NUMBERS..=tables.edge_numbers.len()).all(|numbers| {
            (edges * EDGE_FLOATS..=tables.edge_floats.len()).all(|floats| {
                let mut input = input.clone();
                input.tables.edge_numbers.truncate(numbers);
                input.tables.edge_floats.truncate(floats);
                (self.visit)(&input)
            })
        })
    }

    /// The third family.
    fn five_edges(&mut self) -> bool {
        FIVE.iter().all(|ends| {
            (0..1024u32).all(|set| {
                let uses: Vec<u32> = (0..10).filter(|place| set >> place & 1 == 1).collect();
                let turn = self.next();
                match balanced(ends, &uses) {
                    true => (0..128).all(|choice| self.one_of_five(ends, &uses, choice)),
                    false => self.one_of_five(ends, &uses, turn * 37 % 128),
                }
            })
        })
    }

    /// Shows one set of uses with one set of marks in one order.
    fn one_of_five(&mut self, ends: &[Ends], uses: &[u32], choice: usize) -> bool {
        let marked = (0..5u32).filter(|edge| choice >> edge & 1 == 1);
        let face: Vec<u32> = marked.flat_map(|edge| [2 * edge, 2 * edge]).collect();
        let list = &LISTS[self.next() % LISTS.len()];
        let order = &orders(uses)[choice / 32];
        self.show((4, &spans(ends)), [&face, order], list)
    }

    /// Shows what is rebuilt with every face of the last two families.
    fn each_face(&mut self, edges: &[Edge], rebuilt: &[u32], list: &[u32]) -> bool {
        let doubled = |edge: usize| vec![2 * edge as u32, 2 * edge as u32 + 1];
        let mut faces = vec![vec![], rebuilt.to_vec()];
        faces.extend((0..edges.len()).map(doubled));
        faces
            .iter()
            .all(|face| self.show((3, edges), [face, rebuilt], list))
    }

    /// The fourth family.
    fn two_edges(&mut self) -> bool {
        let mut pair = 0;
        (0..81).all(|code| {
            let edges = spans(&[ends(code / 9), ends(code % 9)]);
            (0..=4).all(|length| {
                (0..4u32.pow(length)).all(|row| {
                    let uses: Vec<u32> = (0..length).map(|place| row >> (2 * place) & 3).collect();
                    pair = (pair + 1) % PAIRS.len();
                    self.each_face(&edges, &uses, &[])
                        && self.each_face(&edges, &uses, &PAIRS[pair])
                })
            })
        })
    }

    /// The fifth family.
    fn three_edges(&mut self) -> bool {
        let choices: Vec<Vec<u32>> = (0..=4).flat_map(|length| rising(6, length)).collect();
        rising(9, 3).iter().all(|codes| {
            let all: Vec<Ends> = codes.iter().map(|&code| ends(code)).collect();
            let edges = spans(&all);
            choices.iter().all(|uses| {
                let orders = orders(uses);
                orders[..3].iter().all(|uses| {
                    let list = match self.next() % 7 {
                        6 => &[][..],
                        pair => &PAIRS[pair],
                    };
                    self.each_face(&edges, uses, list)
                })
            })
        })
    }
}

/// The ends with a number below 9.
fn ends(code: u32) -> Ends {
    (code / 3, code % 3)
}

/// Every row of so many numbers below `base` in which none is above the next.
fn rising(base: u32, length: usize) -> Vec<Vec<u32>> {
    let mut rows = vec![vec![]];
    for _ in 0..length {
        let longer = |row: &Vec<u32>| {
            let row = row.clone();
            let from = row.last().copied().unwrap_or(0);
            (from..base).map(move |next| [&row[..], &[next]].concat())
        };
        rows = rows.iter().flat_map(longer).collect();
    }
    rows
}

/// The uses as they are, falling, turned by half, and every second first.
fn orders(uses: &[u32]) -> [Vec<u32>; 4] {
    let (mut falling, mut turned) = (uses.to_vec(), uses.to_vec());
    falling.reverse();
    turned.rotate_left(uses.len() / 2);
    let second = uses.iter().skip(1).step_by(2);
    let mixed = second.chain(uses.iter().step_by(2)).copied();
    [uses.to_vec(), falling, turned, mixed.collect()]
}

/// Whether as many uses begin as end at each vertex.
fn balanced(ends: &[Ends], uses: &[u32]) -> bool {
    let mut excess = [0i32; 4];
    for &number in uses {
        let (front, back) = ends[number as usize / 2];
        let sign = 1 - 2 * (number as i32 % 2);
        excess[front as usize] += sign;
        excess[back as usize] -= sign;
    }
    excess == [0; 4]
}

/// An input with one cell less in one of four buffers, or as it is.
fn shorter(input: &SplitWires, buffer: usize) -> SplitWires {
    let mut input = input.clone();
    match buffer {
        0 => {}
        1 => drop(input.uses.pop()),
        2 => drop(input.lengths.pop()),
        3 => drop(input.tables.edge_numbers.pop()),
        _ => drop(input.tables.edge_floats.pop()),
    }
    input
}
