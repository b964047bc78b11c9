//! The rules and the plan format, written a second time in plain Rust from `docs/` alone, and the
//! means to compare this with the proved engine: a wrapper over its C function, a generator of
//! plans, and a shrinker of plans on which the two differ.

pub mod heap;
pub mod plan;
pub mod proved;
pub mod random;
pub mod report;
pub mod rules;
pub mod shrink;
pub mod workload;
