//! Stand-in for the module's root.

pub mod math;
