//! Cut edges and mended wires for burner pipe shells: the twelve calls of
//! Kaugrenna's archive, whose contracts are proved, as safe functions.
//!
//! A host lends slices and counts ([`lent`]); a call answers a result, or
//! [`None`] where it can have none, or a [`Refusal`]. On the last two nothing
//! lent is changed. No input is undefined behaviour, whatever its bits are.
#![warn(missing_docs)]
#![deny(unsafe_op_in_unsafe_fn)]

mod calls;
mod edge_use;
pub mod lent;
mod owned;
mod preparation;
pub mod raw;
mod refusal;

pub use calls::*;
pub use edge_use::{NoUse, Use};
pub use lent::{Cuts, Divisor, Edges, EdgesMut, Room, Stretch};
pub use lent::{Tables, TablesMut, Wires, WiresMut};
pub use owned::{OwnedTables, OwnedWires};
pub use preparation::{NoPreparation, Preparation};
pub use refusal::Refusal;
