//! Small joins over four edges between four vertices, with the preparations in
//! turn.
//!
//! First every list of up to two new wires of up to two uses, with all pairs
//! of vertices and six pairs of open wires, each of these over one of the edge
//! tables. Then every pair of open wires of up to two uses, with all pairs of
//! vertices, four edge tables and four lists of new wires. Then every pair of
//! open wires of up to three uses, each with six of the 384 choices of an edge
//! table, of one of six lists of new wires and of the vertices, taken in turn.
//! Where the variable `KAUGRENNA_WHOLE` is set, each of these pairs is shown
//! with all 384 choices, 131,414,400 in all.
//! The buffer for uses is just long enough in most cases, and longer or one
//! cell too short in some, in turn as well.

use super::JoinWires;
use crate::calls::tables::{edge_table, in_turn, spans};
use crate::records::wire;
use crate::shell::Tables;

/// The ends of the edges of each table.
const TABLES: [[(u32, u32); 4]; 4] = [
    [(0, 1), (1, 2), (2, 3), (3, 0)],
    [(0, 2), (0, 1), (1, 0), (2, 3)],
    [(0, 0), (0, 1), (1, 1), (2, 3)],
    [(0, 1), (0, 1), (1, 0), (3, 2)],
];

/// New wires.
const NEW: [&[&str]; 6] = [
    &["0+ 0-"],
    &["", "1+ 0- 2-"],
    &["3+ 0+ 2-", "0+ 1- 0- 3-"],
    &["0+ 1+ 2+ 3+"],
    &[],
    &["2-", "2+"],
];

/// How many of the lists of new wires are gone through in full.
const IN_FULL: usize = 4;

/// Pairs of open wires with which every list of new wires is gone through.
const OPEN: [[&str; 2]; 6] = [
    ["0+ 1+", "2+ 3+"],
    ["1- 0+", "3- 2-"],
    ["2+", "0-"],
    ["3+ 1+ 0-", "1-"],
    ["0-", "2+ 0+ 3-"],
    ["1+ 1-", "0+ 0-"],
];

/// How many choices are taken for each pair of longer open wires, where not
/// all of them are asked for.
const CHOICES: usize = 6;

/// Shows every small input to the visitor, until it answers false.
pub fn each(visit: &mut dyn FnMut(&JoinWires) -> bool) {
    let mut small = Small {
        tables: TABLES.map(|ends| edge_table(4, &in_turn(&spans(&ends), 0))),
        new: NEW.map(|wires| wires.iter().map(|notation| wire(notation)).collect()),
        turn: 0,
        visit,
    };
    let _ = small.every_new_wire() && small.in_full() && small.longer();
}

/// What is chosen from, and who is shown the choices.
struct Small<'a> {
    tables: [Tables; 4],
    new: [Vec<Vec<u32>>; 6],
    turn: usize,
    visit: &'a mut dyn FnMut(&JoinWires) -> bool,
}

impl Small<'_> {
    /// Shows one input, with both vertices as one number below 16.
    fn show(&mut self, table: usize, open: [&[u32]; 2], new: &[Vec<u32>], ends: usize) -> bool {
        self.turn += 1;
        let uses = open.concat().len() + new.iter().map(Vec::len).sum::<usize>();
        let room = match self.turn % 7 {
            0 => uses.saturating_sub(1),
            1 | 2 => uses + self.turn % 3,
            _ => uses,
        };
        let vertices = [ends as u32 % 4, ends as u32 / 4];
        let (tables, open) = (self.tables[table].clone(), open.map(<[u32]>::to_vec));
        let more = self.turn % 2;
        let input = JoinWires::over(tables, open, new, vertices, (room, more));
        (self.visit)(&input)
    }

    /// Every list of new wires with the chosen pairs of open wires.
    fn every_new_wire(&mut self) -> bool {
        let wires = wires_of(2);
        let mut lists = vec![vec![]];
        for first in &wires {
            lists.push(vec![first.clone()]);
            lists.extend(
                wires
                    .iter()
                    .map(|second| vec![first.clone(), second.clone()]),
            );
        }
        let open = OPEN.map(|pair| pair.map(wire));
        lists.iter().all(|new| {
            open.iter().enumerate().all(|(table, [first, second])| {
                (0..16).all(|ends| self.show(table % 4, [first, second], new, ends))
            })
        })
    }

    /// Open wires of up to two uses with all of the rest.
    fn in_full(&mut self) -> bool {
        let wires = wires_of(2);
        let new = self.new.clone();
        wires.iter().all(|first| {
            wires.iter().all(|second| {
                (0..16 * self.tables.len() * IN_FULL).all(|code| {
                    let (table, list) = (code / 16 % 4, code / 64);
                    self.show(table, [first, second], &new[list], code % 16)
                })
            })
        })
    }

    /// Open wires of up to three uses with some of the rest, in turn. The
    /// steps from one choice and from one pair to the next have no divisor in
    /// common with the count of choices, so that all of them come up.
    fn longer(&mut self) -> bool {
        let (wires, new) = (wires_of(3), self.new.clone());
        let choices = 16 * self.tables.len() * new.len();
        let whole = std::env::var_os("KAUGRENNA_WHOLE").is_some();
        let taken = if whole { choices } else { CHOICES };
        let mut code = 0;
        wires.iter().all(|first| {
            wires.iter().all(|second| {
                code += 5;
                (0..taken).all(|_| {
                    code = (code + 91) % choices;
                    let (table, list) = (code / 16 % 4, code / 64);
                    self.show(table, [first, second], &new[list], code % 16)
                })
            })
        })
    }
}

/// Every wire of up to so many uses of four edges.
fn wires_of(most: u32) -> Vec<Vec<u32>> {
    let mut wires = Vec::new();
    for length in 0..=most {
        let wire = |code: u32| {
            (0..length)
                .map(|place| code / 8u32.pow(place) % 8)
                .collect()
        };
        wires.extend((0..8u32.pow(length)).map(wire));
    }
    wires
}
