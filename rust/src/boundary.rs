//! The library's functions over this crate's own types.

use crate::abi::{self, Reply};
use crate::{Float, Handler};

pub(crate) use crate::abi::{check, convert, Terms};

#[cfg(test)]
mod tests;

/// What a call brings.
pub(crate) type Brought<'a> = abi::Brought<'a, Float, Handler>;

/// One call.
pub(crate) fn run(brought: Brought<'_>) -> Reply {
    // SAFETY: `Float` is a transparent u32 and `Handler` a transparent u64, and both may hold any bits.
    unsafe { abi::run(brought) }
}
