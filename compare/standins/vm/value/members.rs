//! Stand-in: structs. No cell of the comparison holds a struct with members, and the float loop
//! stores into none.

use std::marker::PhantomData;

use super::Value;
use crate::hash::HashedStr;
use crate::vm::host::Host;

/// A struct without members.
pub struct StructValue<H: Host>(PhantomData<fn() -> H>);

/// What a member store would cost.
pub(crate) struct MemberStoreCheck {
    pub(crate) cost: u64,
    pub(crate) exceeded_width: Option<u32>,
}

impl<H: Host> StructValue<H> {
    pub fn new() -> Self {
        Self(PhantomData)
    }

    pub fn rgba(_r: f32, _g: f32, _b: f32, _a: f32) -> Self {
        unreachable!("not compared")
    }
}

impl<H: Host> Value<H> {
    /// A float has no members.
    pub(crate) fn member(&self, _name: HashedStr) -> Option<&Self> {
        None
    }

    pub(crate) fn member_store_check(
        &self,
        _path: &[HashedStr],
        _limit: Option<u32>,
    ) -> MemberStoreCheck {
        unreachable!("not compared")
    }

    pub(crate) fn set_member_path(&mut self, _path: &[HashedStr], _value: Self) {
        unreachable!("not compared")
    }
}
