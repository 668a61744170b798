//! The three functions of libnimbohaza.a and their structs, as include/nimbohaza.h has them.
//! compare/ reads this file too.

/// The terms of a call. A limit counts where its flag is 1.
#[repr(C)]
#[derive(Copy, Clone, Debug, PartialEq, Eq)]
pub struct Terms {
    this_bits: u32,
    loop_limit: u32,
    step_limit: u64,
    has_step_limit: u8,
    has_loop_limit: u8,
    has_house_limit: u8,
    house_limit: u64,
}

impl Terms {
    /// Terms with the bits of `this`, and each limit none or a number.
    pub fn new(
        this_bits: u32,
        step_limit: Option<u64>,
        loop_limit: Option<u32>,
        house_limit: Option<u64>,
    ) -> Self {
        Self {
            this_bits,
            loop_limit: loop_limit.unwrap_or(0),
            step_limit: step_limit.unwrap_or(0),
            has_step_limit: step_limit.is_some().into(),
            has_loop_limit: loop_limit.is_some().into(),
            has_house_limit: house_limit.is_some().into(),
            house_limit: house_limit.unwrap_or(0),
        }
    }
}

/// The entries of the three working stores that are in use when the run ends.
#[repr(C)]
#[derive(Copy, Clone, Debug, Default, PartialEq, Eq, Hash)]
pub struct Depths {
    /// On the operand stack.
    pub stack: u64,
    /// Open loops.
    pub loops: u64,
    /// Standing handlers.
    pub handlers: u64,
}

/// What the run gave notice of, counted.
#[repr(C)]
#[derive(Copy, Clone, Debug, Default, PartialEq, Eq, Hash)]
pub struct Notices {
    /// A member was asked for; a float has none.
    pub missing_member: u64,
    /// A pointer was left that was not entered.
    pub access_underflow: u64,
    /// The loop limit cut a loop short: once a run, so 0 or 1.
    pub loop_limit: u64,
}

/// The bits of each temp, 0 where it is not given, and 1 where it is.
#[repr(C)]
#[derive(Copy, Clone, Debug, Default, PartialEq, Eq)]
pub struct Temps {
    pub numbers: [u32; 8],
    pub given: [u8; 8],
}

impl Temps {
    /// The bits of each temp that is given.
    pub fn bits(&self) -> [Option<u32>; 8] {
        let mut bits = [None; 8];
        for (i, temp) in bits.iter_mut().enumerate() {
            *temp = (self.given[i] != 0).then_some(self.numbers[i]);
        }
        bits
    }
}

impl From<[Option<u32>; 8]> for Temps {
    fn from(bits: [Option<u32>; 8]) -> Self {
        Self {
            numbers: bits.map(Option::unwrap_or_default),
            given: bits.map(|temp| temp.is_some().into()),
        }
    }
}

/// How a run ended: its numbers as bits.
#[repr(C)]
#[derive(Copy, Clone, Debug, Default, PartialEq, Eq)]
pub struct End {
    pub outcome: u32,
    pub value: u32,
    pub position: u64,
    pub charges: u64,
    pub accumulator: u32,
    pub depths: Depths,
    pub notices: Notices,
    pub empty_pops: u64,
    pub temps: Temps,
}

/// What remains of both step limits once a run has ended: each less the charges made, where none
/// counts as 2^64 - 1.
#[repr(C)]
#[derive(Copy, Clone, Debug, Default, PartialEq, Eq, Hash)]
pub struct Remainders {
    /// Of the call's own limit.
    pub guest: u64,
    /// Of the house limit: the house limit of the partner's next call.
    pub house: u64,
}

/// The account of a run, but for the lent stores.
#[repr(C)]
#[derive(Copy, Clone, Debug, Default, PartialEq, Eq)]
pub struct Account {
    pub end: End,
    pub remainders: Remainders,
}

/// The answer to a call: the refusal's number, 0 where there is none, and the account. Where the
/// call is refused, its end is all zero, and both limits remain as they came.
#[repr(C)]
#[derive(Copy, Clone, Debug, Default, PartialEq, Eq)]
pub struct Reply {
    pub refusal: u32,
    pub account: Account,
}

/// What the converter answers: the refusal's number, 0 where there is none, and how many records it
/// converted.
#[repr(C)]
#[derive(Copy, Clone, Debug, Default, PartialEq, Eq)]
pub struct Conversion {
    pub refusal: u32,
    pub records: u32,
}

/// What a call brings: operands of a type `F`, handlers of a type `H`. Any lengths are safe: the
/// library answers those that don't fit with a refusal.
pub struct Brought<'a, F, H> {
    pub file: &'a [u8],
    pub kinds: &'a mut [u8],
    pub values: &'a mut [u64],
    pub context_kinds: &'a [u8],
    pub context_values: &'a [u64],
    pub terms: Terms,
    pub stack: &'a mut [F],
    pub loops: &'a mut [u32],
    pub handlers: &'a mut [H],
}

extern "C" {
    fn nimbohaza_check(file: *const u8, file_length: usize) -> u32;

    fn nimbohaza_convert(file: *mut u8, file_length: usize) -> Conversion;

    fn nimbohaza_run(
        file: *const u8,
        file_length: usize,
        kinds: *mut u8,
        kinds_length: usize,
        values: *mut u64,
        values_length: usize,
        context_kinds: *const u8,
        context_kinds_length: usize,
        context_values: *const u64,
        context_values_length: usize,
        terms: Terms,
        stack: *mut u32,
        stack_length: usize,
        loops: *mut u32,
        loops_length: usize,
        handlers: *mut u64,
        handlers_length: usize,
    ) -> Reply;
}

/// 0 for an accepted file, otherwise its refusal.
#[inline]
pub fn check(file: &[u8]) -> u32 {
    // SAFETY: the pointer comes with the length of its slice, which is only read.
    unsafe { nimbohaza_check(file.as_ptr(), file.len()) }
}

/// Converts a file in its own bytes; one that is refused keeps them.
#[inline]
pub fn convert(file: &mut [u8]) -> Conversion {
    // SAFETY: the pointer comes with the length of its slice, which was borrowed with `&mut`.
    unsafe { nimbohaza_convert(file.as_mut_ptr(), file.len()) }
}

/// One call.
///
/// # Safety
///
/// `F` is laid out as a `u32`, `H` as a `u64`, and both may hold any bits.
#[inline]
pub unsafe fn run<F, H>(brought: Brought<'_, F, H>) -> Reply {
    // Every pointer comes with the length of its own slice, so it is aligned and not null; what is
    // written to was borrowed with `&mut`, so it overlaps nothing.
    nimbohaza_run(
        brought.file.as_ptr(),
        brought.file.len(),
        brought.kinds.as_mut_ptr(),
        brought.kinds.len(),
        brought.values.as_mut_ptr(),
        brought.values.len(),
        brought.context_kinds.as_ptr(),
        brought.context_kinds.len(),
        brought.context_values.as_ptr(),
        brought.context_values.len(),
        brought.terms,
        brought.stack.as_mut_ptr().cast(),
        brought.stack.len(),
        brought.loops.as_mut_ptr(),
        brought.loops.len(),
        brought.handlers.as_mut_ptr().cast(),
        brought.handlers.len(),
    )
}
