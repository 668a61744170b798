//! The crate root around the given files; the modules named in sources.sha256 are theirs,
//! unchanged, and the others are stand-ins for files that are not given.

// Most of the given code is not reached from the float loop.
#![allow(dead_code, unused_imports)]

pub mod catalog;
pub mod compile;
pub mod hash;
pub mod numeric;
pub mod ops;
pub mod reference;
pub mod rng;
pub mod stdlib;
pub mod version;
pub mod vm;
