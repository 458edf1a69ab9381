//! The tests that go through the oracle as a whole.

mod limits;

#[cfg(rust_at_hand)]
mod library;
#[cfg(rust_at_hand)]
mod mutants;
#[cfg(rust_at_hand)]
mod runs;
#[cfg(rust_at_hand)]
mod stored;
#[cfg(rust_at_hand)]
mod wrong;
