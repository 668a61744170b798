//! The account of a run.

use crate::abi::{self, End};
use crate::{Depths, Float, Notices, Remainders};

/// Of each outcome its number, its name, what of the run's end it holds, and its words.
macro_rules! outcomes {
    ($($number:literal $name:ident $({ $field:ident })? $words:literal;)*) => {
        /// How a run ended.
        #[derive(Copy, Clone, Debug, PartialEq, Eq, Hash)]
        pub enum Outcome {
            $(
                #[doc = concat!("Outcome ", $number, ", ", $words, ".")]
                $name $({
                    /// The record, from 0.
                    $field: u64,
                })?,
            )*
        }

        fn outcome_of(end: &End) -> Outcome {
            match end.outcome {
                $($number => Outcome::$name $({ $field: end.$field })?,)*
                n => unreachable!("no account has the outcome {n}"),
            }
        }
    };
}

outcomes! {
    // tools/answers.py: rust_outcomes
    0 Done "done: the code ended, and the value is the accumulator (otherwise +0.0)";
    1 Steps "stopped for steps: a charge fell due that a step limit forbids";
    2 MissingValue "stopped for a missing value: a value is missing and no handler stands";
    3 StackCap "stopped for the stack cap: LoopCheck met a stack deeper than 65,536";
    4 FullStore "stopped for a full store: a push found its lent store full";
    5 HandedOver { position } "handed over: the record at the position named is the host's to do";
    // tools/answers.py: end
}

/// The account of a run. The cells and the working stores as left complete it.
#[derive(Copy, Clone, Debug, PartialEq, Eq, Hash)]
pub struct Account {
    /// How the run ended.
    pub outcome: Outcome,
    /// The accumulator when done, otherwise +0.0.
    pub value: Float,
    /// The charges made, never more than the smaller of the two step limits.
    pub charges: u64,
    /// The accumulator as it stood at the end.
    pub accumulator: Float,
    /// The final depths.
    pub depths: Depths,
    /// The temps, `None` where missing.
    pub temps: [Option<Float>; 8],
    /// The notices.
    pub notices: Notices,
    /// How often a record took an operand that was not on the stack; at 2^64 - 1 it stays.
    pub empty_pops: u64,
    /// What remains of both step limits, the run's own and the house limit.
    pub remainders: Remainders,
}

impl Account {
    /// The account that the library gives an accepted call.
    pub(crate) fn of(account: &abi::Account) -> Self {
        let end = &account.end;
        Self {
            outcome: outcome_of(end),
            value: Float::from_bits(end.value),
            charges: end.charges,
            accumulator: Float::from_bits(end.accumulator),
            depths: end.depths,
            temps: end.temps.bits().map(|temp| temp.map(Float::from_bits)),
            notices: end.notices,
            empty_pops: end.empty_pops,
            remainders: account.remainders,
        }
    }
}
