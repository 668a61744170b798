//! Stand-in: walks over nested structs, which the float loop never makes.

use super::Value;
use crate::vm::host::Host;

pub struct DistinctStructs;

impl<H: Host> Value<H> {
    pub(crate) fn struct_depth(&self) -> u32 {
        unreachable!("not compared")
    }
}
