//! The machine under test: the compiled library, or the plain reading in its place.

use calls::{Call, Conversion, Lent, Reply};

#[cfg(library)]
use crate::library;

pub trait Subject: Sync {
    /// 0 for an accepted file, otherwise its refusal, 1 to 9 or 14.
    fn check(&self, file: &[u8]) -> u32;
    /// Converts a stored file in its own bytes; one that is sent back keeps them.
    fn convert(&self, file: &mut [u8]) -> Conversion;
    /// A whole call; the lent stores are left as the machine leaves them.
    fn run(&self, call: &Call, lent: &mut Lent) -> Reply;
}

#[cfg(not(library))]
pub struct Plain;

#[cfg(not(library))]
impl Subject for Plain {
    fn check(&self, file: &[u8]) -> u32 {
        crate::plain::check(file)
    }

    fn convert(&self, file: &mut [u8]) -> Conversion {
        crate::plain::convert(file)
    }

    fn run(&self, call: &Call, lent: &mut Lent) -> Reply {
        crate::plain::run(call, lent, &mut crate::plain::Unwatched)
    }
}

#[cfg(library)]
pub struct Library;

#[cfg(library)]
impl Subject for Library {
    fn check(&self, file: &[u8]) -> u32 {
        library::check(file)
    }

    fn convert(&self, file: &mut [u8]) -> Conversion {
        library::convert(file)
    }

    fn run(&self, call: &Call, lent: &mut Lent) -> Reply {
        library::run(call.terms(), call, lent)
    }
}
