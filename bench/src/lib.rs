//! A plain Rust marker, and random hand-ins for it.

pub mod coverage;
pub mod hand_ins;
pub mod reference;
pub mod workloads;
