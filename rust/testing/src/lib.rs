//! What the tests and the stress programs share.

pub mod lending;
pub mod made;
pub mod programs;
pub mod random;
pub mod seen;
pub mod widths;
pub mod windows;
