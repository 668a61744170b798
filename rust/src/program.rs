//! A checked program and its run.

use crate::abi::Conversion;
use crate::boundary::{self, Brought, Terms};
use crate::{Account, Cells, Float, Purse, Refusal, Stores};

/// A run's own step limit and its loop limit, each none or a number. The house limit stands in a
/// [`Purse`].
#[derive(Copy, Clone, Debug, Default, PartialEq, Eq, Hash)]
pub struct Limits {
    /// The charges that this run may make, the guest's own limit; `None` counts as 2^64 - 1. Code
    /// may loop for ever: set a limit if you don't know the code.
    pub steps: Option<u64>,
    /// A loop goes on while its count of passes is below this; the first pass is always made.
    pub loops: Option<u32>,
}

impl Limits {
    /// No limit.
    pub const NONE: Self = Self {
        steps: None,
        loops: None,
    };
}

/// A program file that was checked; it can't change while this lives.
#[derive(Copy, Clone, Debug, PartialEq, Eq)]
pub struct Program<'a> {
    file: &'a [u8],
}

/// A stored file that [`Program::convert`] converted.
#[derive(Copy, Clone, Debug, PartialEq, Eq)]
pub struct Converted<'a> {
    /// The file as it is now.
    pub program: Program<'a>,
    /// How many of its records were converted.
    pub records: u32,
}

impl<'a> Program<'a> {
    /// Checks a file.
    ///
    /// # Errors
    ///
    /// The reason that sends it back; never [`Refusal::Arguments`].
    ///
    /// ```
    /// use nimbohaza::{Program, Refusal};
    ///
    /// assert_eq!(Program::check(&[]), Err(Refusal::End));
    /// assert_eq!(Program::check(&[2]).unwrap_err().number(), 2);
    /// ```
    pub fn check(file: &'a [u8]) -> Result<Self, Refusal> {
        match boundary::check(file) {
            0 => Ok(Self { file }),
            number => Err(Refusal::of(number)),
        }
    }

    /// Converts a stored file in its own bytes: each record of opcode 22, HostMath, which is
    /// withdrawn, becomes a PointerEnter to the next record. The accounts of its runs are those
    /// that the old file had. A file without such a record is left as it is, and is a program too.
    ///
    /// # Errors
    ///
    /// The reason that sends the file back, which then keeps its bytes: any that [`Program::check`]
    /// meets but [`Refusal::Withdrawn`], or [`Refusal::Arguments`].
    ///
    /// ```
    /// use nimbohaza::{Converted, Program, Refusal};
    ///
    /// let mut file = [
    ///     1, 4, 0, 0, 0, 0, 0, // no names, no temps
    ///     2, 0, 0, // no constants
    ///     3, 8, 0, 0, 0, 0x80, 0x3F, 0, 0, 0, 0, // post 0
    ///     4, 0, 0, // no hashes
    ///     5, 8, 0, 22, 1, 0, 0, 0, 0, 0, 0, // HostMath of one argument
    /// ];
    /// assert_eq!(Program::check(&file), Err(Refusal::Withdrawn));
    ///
    /// let Converted { program, records } = Program::convert(&mut file)?;
    /// assert_eq!(records, 1);
    /// assert_eq!(program.file()[27..], [37, 0, 0, 0, 1, 0, 0, 0]); // PointerEnter 1
    /// # Ok::<(), nimbohaza::Refusal>(())
    /// ```
    ///
    /// A file that a program still reads can't be converted:
    ///
    /// ```compile_fail,E0502
    /// # let mut file = [1, 4, 0];
    /// let program = nimbohaza::Program::check(&file)?;
    /// nimbohaza::Program::convert(&mut file)?;
    /// program.names();
    /// # Ok::<(), nimbohaza::Refusal>(())
    /// ```
    pub fn convert(file: &'a mut [u8]) -> Result<Converted<'a>, Refusal> {
        let Conversion { refusal, records } = boundary::convert(file);
        match refusal {
            0 => Ok(Converted {
                program: Self { file },
                records,
            }),
            number => Err(Refusal::of(number)),
        }
    }

    /// The file.
    pub fn file(self) -> &'a [u8] {
        self.file
    }

    /// How many names it has, 0 to 256: the cells that a run reads and writes.
    pub fn names(self) -> u16 {
        u16::from_le_bytes([self.file[3], self.file[4]])
    }

    /// How many temps it has, 0 to 8.
    pub fn temps(self) -> u16 {
        u16::from_le_bytes([self.file[5], self.file[6]])
    }

    /// One run from the first record, with no house limit. `cells` are the variables and are left
    /// as the run leaves them, so that a later run meets them; `context` is only read.
    ///
    /// There is no refusal: the types leave no call that has one (see the crate's page).
    pub fn run<const STACK: usize, const LOOPS: usize, const HANDLERS: usize>(
        self,
        cells: &mut Cells,
        context: &Cells,
        this: Float,
        limits: Limits,
        stores: &mut Stores<STACK, LOOPS, HANDLERS>,
    ) -> Account {
        self.run_under(None, cells, context, this, limits, stores)
    }

    /// A run like that of [`Program::run`] under a house limit, which is what the purse holds: a
    /// charge is made only if the purse and `limits.steps` both hold one, and takes one from each.
    /// The purse that comes back holds what remains, and goes into the partner's next run.
    ///
    /// A day of three runs:
    ///
    /// ```
    /// use nimbohaza::{Cell, Cells, Float, Limits, Outcome, Program, Purse, Studio};
    ///
    /// # let file = [
    /// #     1, 4, 0, 1, 0, 0, 0, // one name
    /// #     2, 0, 0,
    /// #     3, 16, 0, 0, 0, 0x80, 0x3F, 0, 0, 0, 0, 0, 0, 0, 0x40, 0, 0, 0, 0x3F,
    /// #     4, 0, 0,
    /// #     5, 24, 0, 5, 0, 1, 0, 0, 0, 0, 0, 9, 0, 0, 0, 0, 0, 0, 0, 48, 0, 0, 0, 0, 0, 0, 0,
    /// # ];
    /// let program = Program::check(&file)?; // v = 2 v + 0.5, three charges
    /// let (mut cells, context, mut stores) = (Cells::new(), Cells::new(), Studio::new());
    /// cells.set(0, Cell::from(1.5));
    /// let this = Float::from(0.0);
    /// let limits = Limits { steps: Some(5), loops: None };
    ///
    /// let mut purse = Purse::new(8);
    /// for (outcome, charges, remaining) in [
    ///     (Outcome::Done, 3, 5),
    ///     (Outcome::Done, 3, 2),
    ///     (Outcome::Steps, 2, 0), // the day is used up
    /// ] {
    ///     let (account, left) =
    ///         program.run_from(purse, &mut cells, &context, this, limits, &mut stores);
    ///     assert_eq!((account.outcome, account.charges), (outcome, charges));
    ///     assert_eq!(account.remainders.guest, 5 - charges);
    ///     assert_eq!(account.remainders.house, remaining);
    ///     assert_eq!(left.remaining(), remaining);
    ///     purse = left;
    /// }
    /// # Ok::<(), nimbohaza::Refusal>(())
    /// ```
    pub fn run_from<const STACK: usize, const LOOPS: usize, const HANDLERS: usize>(
        self,
        purse: Purse,
        cells: &mut Cells,
        context: &Cells,
        this: Float,
        limits: Limits,
        stores: &mut Stores<STACK, LOOPS, HANDLERS>,
    ) -> (Account, Purse) {
        let house = Some(purse.remaining());
        let account = self.run_under(house, cells, context, this, limits, stores);
        (account, Purse::new(account.remainders.house))
    }

    /// One run under a house limit, or under none.
    fn run_under<const STACK: usize, const LOOPS: usize, const HANDLERS: usize>(
        self,
        house: Option<u64>,
        cells: &mut Cells,
        context: &Cells,
        this: Float,
        limits: Limits,
        stores: &mut Stores<STACK, LOOPS, HANDLERS>,
    ) -> Account {
        let (kinds, values) = cells.lend(self.names());
        let (context_kinds, context_values) = context.first(self.names());
        let (stack, loops, handlers) = stores.lend();
        let reply = boundary::run(Brought {
            file: self.file,
            kinds,
            values,
            context_kinds,
            context_values,
            terms: Terms::new(this.bits(), limits.steps, limits.loops, house),
            stack,
            loops,
            handlers,
        });
        assert_eq!(reply.refusal, 0, "the types fit every call");
        Account::of(&reply.account)
    }
}
