//! The calls, one module each: their inputs, what the Rust and the model say
//! to an input, and the families of inputs that are gone through.

pub mod boundary_type;
pub mod cut_edge;
pub mod cut_parameter;
pub mod find_divisor;
pub mod get_mindiff;
pub mod join_wires;
pub mod nearest_copy;
pub mod nearest_correction;
pub mod numbers;
pub mod several_cuts;
pub mod sort_wires;
pub mod split_closed_edges;
pub mod split_wires;
pub mod tables;

use crate::compare::{Case, Input};
use crate::random::Random;

/// The families of inputs of a call.
pub trait Families: Input {
    /// How many inputs of a random family are made where one is asked for.
    const TIMES: usize = 1;

    /// How many inputs of a random family stand in a row: they are made alike,
    /// and then told their place in it.
    const ROW: usize = 1;

    /// The input at this place of its row.
    fn at(self, _place: usize) -> Self {
        self
    }

    /// Named inputs with their answers written out by hand.
    fn limits() -> Vec<Case<Self>>;

    /// Shows every small input to the visitor, until it answers false.
    fn small(visit: &mut dyn FnMut(&Self) -> bool);

    /// Inputs that are mostly accepted.
    fn random(random: &mut Random) -> Self;

    /// Good inputs that were spoiled in a few places.
    fn damaged(random: &mut Random) -> Self;

    /// Any bits.
    fn noise(random: &mut Random) -> Self;

    /// What the unchanged Rust and the model of the refusals say.
    #[cfg(rust_at_hand)]
    fn expected(&self) -> crate::compare::Expected<Self>;
}
