//! What the benchmarks share: split lists in plain Rust, random legs, readings and tables, and the
//! turns in which programs are timed.

mod clock;
pub mod hull;
pub mod legs;
pub mod reading;
pub mod record;
pub mod tables;
pub mod ties;
pub mod turns;
pub mod verdict;
pub mod vertex;
pub mod wrap;
