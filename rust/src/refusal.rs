//! Why a file is sent back.

use std::{error::Error, fmt};

/// Of each refusal its number, its name and its words.
macro_rules! refusals {
    ($($number:literal $name:ident $words:literal;)*) => {
        /// Why a program file is sent back, by the numbers of documents 01 and 02.
        #[derive(Copy, Clone, Debug, PartialEq, Eq, Hash)]
        pub enum Refusal {
            $(
                #[doc = concat!("Refusal ", $number, ": ", $words, ".")]
                $name = $number,
            )*
        }

        impl Refusal {
            /// The refusal of a number that a file is sent back with.
            pub(crate) fn of(number: u32) -> Self {
                match number {
                    $($number => Self::$name,)*
                    _ => unreachable!("no file has the refusal {number}"),
                }
            }

            const fn reason(self) -> &'static str {
                match self {
                    $(Self::$name => $words,)*
                }
            }
        }
    };
}

refusals! {
    // tools/answers.py: rust_refusals
    1 End "bytes end where a tag, length or body is due";
    2 Tag "tag not the next";
    3 Length "length not a whole count of entries, or over the maximum (field 1: not 4)";
    4 After "bytes after field 5";
    5 Counts "names over 256 or temps over 8";
    6 Post0 "no post 0, or not bits 3F800000, 00000000";
    7 Opcode "opcode 0 or above 52";
    8 Part "choice out of range, or an unused part not 0";
    9 Index "index outside its table";
    14 Withdrawn "opcode 22 in a file for anything but the converter";
    15 Arguments "the converter meets a count above 1 at opcode 22";
    // tools/answers.py: end
}

impl Refusal {
    /// Its number.
    pub const fn number(self) -> u32 {
        self as u32
    }
}

impl fmt::Display for Refusal {
    fn fmt(&self, f: &mut fmt::Formatter<'_>) -> fmt::Result {
        write!(f, "refused {}: {}", self.number(), self.reason())
    }
}

impl Error for Refusal {}
