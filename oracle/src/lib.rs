//! The oracle: every call of the port is held against the unchanged Rust it
//! was ported from, byte for byte, and against a model of the refusals.

pub mod calls;
pub mod cells;
pub mod chain;
pub mod compare;
pub mod describe;
#[cfg(rust_at_hand)]
pub mod differ;
pub mod eighths;
#[cfg(rust_at_hand)]
pub mod healing;
pub mod inputs;
pub mod library;
pub mod limits;
#[cfg(rust_at_hand)]
pub mod long_run;
pub mod model;
pub mod options;
pub mod port;
#[cfg(rust_at_hand)]
pub mod progress;
pub mod random;
pub mod records;
pub mod reference;
pub mod shell;
#[cfg(rust_at_hand)]
pub mod shim;
pub mod small;
pub mod stored;
