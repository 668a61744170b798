//! Calls of the compiled library.

use calls::abi::{self, Brought};
use calls::{Call, Lent, Reply, Terms};

pub use calls::abi::{check, convert};

/// A whole call, under terms that were made of it before.
pub fn run(terms: Terms, call: &Call, lent: &mut Lent) -> Reply {
    let brought = Brought {
        file: &call.file,
        kinds: &mut lent.cells.kinds,
        values: &mut lent.cells.values,
        context_kinds: &call.context.kinds,
        context_values: &call.context.values,
        terms,
        stack: &mut lent.stack,
        loops: &mut lent.loops,
        handlers: &mut lent.handlers,
    };
    // SAFETY: the stack is one of u32, the handlers are of u64.
    unsafe { abi::run::<u32, u64>(brought) }
}
