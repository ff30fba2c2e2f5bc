//! The parts of the benchmark, as a library so that tests can compare the baseline with the model.
//!
//! - [`plain`]: the baseline, an ordinary Rust host with running sums
//! - [`work`]: the trees that calls are timed on, and how they are timed

pub mod plain;
pub mod work;

pub use plain::Plain;
