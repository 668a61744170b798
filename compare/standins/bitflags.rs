//! Stand-in for the crate of this name: the part of its second version that program.rs uses.

/// A struct of named bits with `bits`, as the crate's macro declares it.
#[macro_export]
macro_rules! bitflags {
    (
        $(#[$outer:meta])*
        pub struct $name:ident: $bits:ty {
            $($(#[$inner:meta])* const $flag:ident = $value:expr;)*
        }
    ) => {
        $(#[$outer])*
        pub struct $name($bits);

        impl $name {
            $($(#[$inner])* pub const $flag: Self = Self($value);)*

            /// The bits that are set.
            pub const fn bits(&self) -> $bits {
                self.0
            }
        }
    };
}
