//! Uses around 64, where the port's small local arrays end: one has the uses
//! of the first open wire and of the new wire, the other those of all new
//! wires.

use crate::calls::join_wires::JoinWires;
use crate::calls::tables::{edge_table, sample_edges};
use crate::compare::{Case, NONE};
use crate::limits::arrays::{around_64, Around};
use crate::records::wire;

/// Uses that are laid one behind the other, and uses of all new wires.
const LAID_AND_NEW: [Around; 15] = around_64!(3, " uses laid and ", " new");

/// The same where the open wires change places.
const CHANGED: [Around; 15] = around_64!(3, " uses laid, places changed, and ", " new");

/// All cases.
pub fn cases() -> Vec<Case<JoinWires>> {
    let both = |changed: bool| {
        move |(sizes, [fits, short]): Around| {
            let (input, after) = joined(sizes, changed);
            let expected = input.done(&after);
            let mut few = input.clone();
            few.new.uses.truncate(after.concat().len() - 1);
            let done = Case {
                name: fits,
                input,
                expected,
            };
            [done, Case::unchanged(short, few, 6)]
        }
    };
    let kept = LAID_AND_NEW.into_iter().flat_map(both(false));
    let changed = CHANGED.into_iter().flat_map(both(true));
    kept.chain(changed).chain(nones()).collect()
}

/// So many uses whose fronts are 0 and 3, 0 first.
fn some(count: usize) -> Vec<u32> {
    let uses = wire("1+ 2- 3- 4+ 5+ 5-").into_iter().cycle();
    uses.take(count).collect()
}

/// A join by the second of three new wires, and the wires that come of it: so
/// many uses of the open wire that is laid first and of the new one, and so
/// many of all new wires. Where the open wires change places v0 is the second
/// front of the first.
fn joined([laid, new]: [usize; 2], changed: bool) -> (JoinWires, Vec<Vec<u32>>) {
    let (last, second, v1) = match changed {
        false => ("0-", "3+ 4+", 2),
        true => ("2+", "2+ 1+", 1),
    };
    let length = laid.min(new) - 1;
    let (first, between) = (some(laid - length), some(length - 2));
    let [zero, last, second] = ["0+", last, second].map(wire);
    let taken = [&zero[..], &between, &last].concat();
    let whole = [&last[..], &first, &zero, &between, &second].concat();
    let wires = |middle: Vec<u32>| vec![wire("5+"), middle, some(new - 1 - length)];
    let mut open = [first, second];
    if changed {
        open.reverse();
    }
    let (new, after) = (wires(taken), wires(whole));
    let tables = edge_table(4, &sample_edges());
    let room = (after.concat().len() + 3, 2);
    (JoinWires::over(tables, open, &new, [0, v1], room), after)
}

/// v1 is in the second open wire, but not among the uses laid.
fn nones() -> [Case<JoinWires>; 3] {
    let none = |name, laid: usize| {
        let (mut input, _) = joined([laid, 3], false);
        (input.second, input.v1) = (wire("3+ 2+"), 1);
        Case::unchanged(name, input, NONE)
    };
    [
        none("63 uses laid and no v1", 63),
        none("64 uses laid and no v1", 64),
        none("65 uses laid and no v1", 65),
    ]
}
