//! Stand-in for the module's root: it only gathers the given files.

pub mod arith;
pub(crate) mod fpu;
mod instr;
pub(crate) mod platform;
mod post_op;

pub use instr::*;
pub use platform::Platform;
pub use post_op::PostOp;
