//! Stand-in: the one platform that document 01 compares with, whose `fpu()` is None.

/// The processors that an emulated platform would follow; none is.
#[derive(Copy, Clone, Debug, PartialEq, Eq)]
pub(crate) enum Fpu {
    X86_64,
    Arm64,
}

#[derive(Copy, Clone, Debug, Default, PartialEq, Eq)]
pub enum Platform {
    #[default]
    Native,
}

impl Platform {
    pub(crate) const fn fpu(self) -> Option<Fpu> {
        None
    }
}
