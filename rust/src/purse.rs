//! What a partner has left of a day.

/// The steps that a partner's runs of one day may still charge, all together: the house limit.
/// [`Program::run_from`](crate::Program::run_from) takes a purse and gives it back with what
/// remains, for the partner's next run:
///
/// ```
/// # use nimbohaza::{Cells, Limits, Program, Purse, Studio};
/// # fn day(program: Program<'_>) {
/// let run = |purse| {
///     let (mut cells, mut stores) = (Cells::new(), Studio::new());
///     program.run_from(purse, &mut cells, &Cells::new(), 0.0.into(), Limits::NONE, &mut stores)
/// };
/// let purse = Purse::new(10_000);
/// let (first, purse) = run(purse);
/// let (second, purse) = run(purse);
/// # let _ = (first, second, purse);
/// # }
/// ```
///
/// It can't be copied. Two runs that would spend the same steps don't compile, neither one after
/// the other nor at once:
///
/// ```compile_fail,E0382
/// # use nimbohaza::{Cells, Limits, Program, Purse, Studio};
/// # fn day(program: Program<'_>) {
/// # let run = |purse| {
/// #     let (mut cells, mut stores) = (Cells::new(), Studio::new());
/// #     program.run_from(purse, &mut cells, &Cells::new(), 0.0.into(), Limits::NONE, &mut stores)
/// # };
/// let purse = Purse::new(10_000);
/// let (first, left) = run(purse);
/// let (second, left) = run(purse);
/// # let _ = (first, second, left);
/// # }
/// ```
/// ```compile_fail,E0382
/// # use nimbohaza::{Cells, Limits, Program, Purse, Studio};
/// # fn day(program: Program<'_>) {
/// # let run = |purse| {
/// #     let (mut cells, mut stores) = (Cells::new(), Studio::new());
/// #     program.run_from(purse, &mut cells, &Cells::new(), 0.0.into(), Limits::NONE, &mut stores)
/// # };
/// let purse = Purse::new(10_000);
/// std::thread::scope(|scope| {
///     scope.spawn(|| run(purse));
///     scope.spawn(|| run(purse));
/// });
/// # }
/// ```
///
/// A host that is started anew within the day writes down what [remains](Purse::remaining), and
/// makes the purse of that.
#[derive(Debug, PartialEq, Eq)]
#[must_use = "it holds what remains of the day, for the partner's next run"]
pub struct Purse(u64);

impl Purse {
    /// A purse of so many steps.
    pub const fn new(steps: u64) -> Self {
        Self(steps)
    }

    /// The purse of a day without a house limit, which counts as 2^64 - 1.
    pub const fn unlimited() -> Self {
        Self(u64::MAX)
    }

    /// The steps that it holds.
    pub const fn remaining(&self) -> u64 {
        self.0
    }
}
