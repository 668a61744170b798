//! Stand-in: render-controller arrays. No array instruction is compared, so there are none.

use super::name::ArrayName;
use super::value::ResourceRef;

pub trait ArrayProvider {
    fn array(&self, name: ArrayName) -> Option<&[ResourceRef]>;
}

#[derive(Debug)]
pub struct ArrayTable;

impl ArrayTable {
    pub fn new() -> Self {
        Self
    }
}

impl ArrayProvider for ArrayTable {
    fn array(&self, _name: ArrayName) -> Option<&[ResourceRef]> {
        None
    }
}
