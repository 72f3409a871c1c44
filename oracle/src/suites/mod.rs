//! The suites. Each case answers what it ran, or the first difference.

pub mod batched;
pub mod differences;
pub mod figures;
pub mod planted;
pub mod recorded;
pub mod sequences;
