//! The float machine of molangx, ported to a proved language: one call runs one program file.
//!
//! ```
//! use nimbohaza::{Cell, Cells, Float, Limits, Outcome, Program, Studio};
//!
//! // v = 2 v + 0.5
//! let file = [
//!     1, 4, 0, 1, 0, 0, 0, // one name, no temps
//!     2, 0, 0, // no constants
//!     3, 16, 0, 0, 0, 0x80, 0x3F, 0, 0, 0, 0, // post 0: times 1, plus 0
//!     0, 0, 0, 0x40, 0, 0, 0, 0x3F, // post 1: times 2, plus 0.5
//!     4, 0, 0, // no hashes
//!     5, 24, 0, 5, 0, 1, 0, 0, 0, 0, 0, // LoadVar 0, post 1
//!     9, 0, 0, 0, 0, 0, 0, 0, 48, 0, 0, 0, 0, 0, 0, 0, // StoreVar 0; End
//! ];
//! let program = Program::check(&file)?;
//!
//! let mut cells = Cells::new();
//! cells.set(0, Cell::from(1.5));
//! let mut stores = Studio::new();
//! let limits = Limits { steps: Some(1000), loops: None };
//! let account = program.run(&mut cells, &Cells::new(), Float::from(0.0), limits, &mut stores);
//!
//! assert_eq!(account.outcome, Outcome::Done);
//! assert_eq!(account.value, Float::from(3.5));
//! assert_eq!(account.charges, 3);
//! assert_eq!(cells.get(0), Cell::from(3.5));
//! # Ok::<(), nimbohaza::Refusal>(())
//! ```
//!
//! The types leave no wrong call to make, so [`Program::run`] has no refusal: a [`Program`] is a
//! file that was checked, [`Cells`] hold a cell for every name there can be, and [`Stores`] over
//! their maximum don't compile. The refusals of a file are met by [`Program::check`] and
//! [`Program::convert`], and those of a call can't be met.
//!
//! A partner's runs of one day share a house limit beside the limit of each run: a [`Purse`], which
//! [`Program::run_from`] takes and gives back with what remains for the next run.
//!
//! A program's records are molangx's without HostMath (opcode 22), and four more, Floor, Ceil,
//! Trunc and Abs (opcodes 49 to 52): docs/OPCODES.md says what each may hold. A stored file that
//! has a HostMath is converted by [`Program::convert`].
//!
//! Nothing is allocated, and there is no state but what the caller lends: threads may run at once,
//! each with its own cells and stores.
//!
//! The environment variable `NIMBOHAZA_LIB` names the folder of `libnimbohaza.a` when this crate is
//! built, as an absolute path.
#![deny(unsafe_code)]
#![warn(missing_docs)]

#[allow(unsafe_code)]
mod abi;
mod account;
#[allow(unsafe_code)]
mod boundary;
mod cells;
mod program;
mod purse;
mod refusal;
mod stores;

pub use abi::{Depths, Notices, Remainders};
pub use account::{Account, Outcome};
pub use cells::{Cell, Cells, Float};
pub use program::{Converted, Limits, Program};
pub use purse::Purse;
pub use refusal::Refusal;
pub use stores::{Handler, House, Stores, Studio};
