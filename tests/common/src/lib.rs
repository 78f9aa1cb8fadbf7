//! What the comparison (tests/compare) and the benchmarks (bench) both use. The implementations that they hold against
//! the proved code are their own.

pub mod calls;
pub mod questions;
pub mod random;
pub mod samples;
pub mod session;
