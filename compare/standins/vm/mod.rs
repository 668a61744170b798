//! Stand-in for the module's root: it gathers the given files and the stand-ins around them.

mod arrays;
pub(crate) mod cx;
mod eval;
mod global_rng;
pub(crate) mod host;
mod limits;
mod name;
mod query;
pub(crate) mod sink;
pub(crate) mod value;
pub(crate) mod vars;

pub use limits::EvalLimits;
pub use name::{ArrayName, ContextName, TempName, VariableName};
