//! The lent working stores.

use std::fmt;

use crate::Float;

/// The working stores of a run: `STACK` operands, `LOOPS` loop counts, `HANDLERS` handlers. What
/// they hold before a run doesn't matter. After it the entries below the account's depths are the
/// stacks, lowest first, and the others are zero.
///
/// At most 65,600, 64 and 64 entries; more don't compile:
///
/// ```compile_fail
/// nimbohaza::Stores::<65_601, 64, 64>::new();
/// ```
/// ```compile_fail
/// nimbohaza::Stores::<16, 65, 4>::new();
/// ```
/// ```compile_fail
/// nimbohaza::Stores::<16, 4, 65>::new();
/// ```
/// ```
/// nimbohaza::Stores::<0, 0, 0>::new();
/// ```
#[derive(Clone, Debug, PartialEq, Eq)]
pub struct Stores<const STACK: usize, const LOOPS: usize, const HANDLERS: usize> {
    stack: [Float; STACK],
    loops: [u32; LOOPS],
    handlers: [Handler; HANDLERS],
}

/// The stores that Studio lends.
pub type Studio = Stores<16, 4, 4>;

/// The stores that House lends, the largest: 263 KB, better boxed.
pub type House = Stores<65_600, 64, 64>;

impl<const STACK: usize, const LOOPS: usize, const HANDLERS: usize> Stores<STACK, LOOPS, HANDLERS> {
    const FIT: () = assert!(
        STACK <= 65_600 && LOOPS <= 64 && HANDLERS <= 64,
        "a working store over its maximum"
    );

    /// Stores of zeros.
    #[allow(clippy::let_unit_value)]
    pub fn new() -> Self {
        let _fit = Self::FIT;
        Self {
            stack: [Float::from_bits(0); STACK],
            loops: [0; LOOPS],
            handlers: [Handler(0); HANDLERS],
        }
    }

    /// The operand stack.
    pub fn stack(&self) -> &[Float] {
        &self.stack
    }

    /// The loop counts.
    pub fn loops(&self) -> &[u32] {
        &self.loops
    }

    /// The handlers.
    pub fn handlers(&self) -> &[Handler] {
        &self.handlers
    }

    pub(crate) fn lend(&mut self) -> (&mut [Float], &mut [u32], &mut [Handler]) {
        (&mut self.stack, &mut self.loops, &mut self.handlers)
    }
}

impl<const STACK: usize, const LOOPS: usize, const HANDLERS: usize> Default
    for Stores<STACK, LOOPS, HANDLERS>
{
    fn default() -> Self {
        Self::new()
    }
}

/// A handler for a missing value, as target * 2^32 + stack mark * 2^12 + loop mark.
#[derive(Copy, Clone, PartialEq, Eq, Hash)]
#[repr(transparent)]
pub struct Handler(pub(crate) u64);

impl Handler {
    /// The entry itself.
    pub const fn entry(self) -> u64 {
        self.0
    }

    /// The record to go on from.
    pub const fn target(self) -> u32 {
        (self.0 >> 32) as u32
    }

    /// The depth that the operand stack is cut to.
    pub const fn stack_mark(self) -> u32 {
        (self.0 >> 12) as u32 & 0xF_FFFF
    }

    /// The depth that the loop counts are cut to.
    pub const fn loop_mark(self) -> u32 {
        self.0 as u32 & 0xFFF
    }
}

impl fmt::Debug for Handler {
    fn fmt(&self, f: &mut fmt::Formatter<'_>) -> fmt::Result {
        f.debug_struct("Handler")
            .field("target", &self.target())
            .field("stack_mark", &self.stack_mark())
            .field("loop_mark", &self.loop_mark())
            .finish()
    }
}
