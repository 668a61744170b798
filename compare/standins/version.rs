//! Stand-in: the language version, which the float loop never reads.

#[derive(Copy, Clone, Debug)]
pub struct MolangVersion;
