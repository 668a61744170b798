//! Stand-in: the variable stores. A run without an actor reads and writes the detached map.

use std::collections::HashMap;
use std::fmt;

use nohash_hasher::BuildNoHashHasher;

use super::host::Host;
use super::name::namespace::{Namespace, Temp, Variable};
use super::name::{Name, VariableName};
use super::value::Value;

pub trait VariableStore<H: Host> {
    fn get(&self, actor: H::ActorRef, name: VariableName) -> Option<&Value<H>>;
    fn get_public(&self, actor: H::ActorRef, name: VariableName) -> Option<&Value<H>>;
    fn get_local(&self, name: VariableName) -> Option<&Value<H>>;
    fn set(&mut self, actor: H::ActorRef, name: VariableName, value: Value<H>);
    fn set_local(&mut self, name: VariableName, value: Value<H>);
}

/// The values of the names of one namespace.
pub struct Values<H: Host, N: Namespace> {
    values: HashMap<Name<N>, Value<H>, BuildNoHashHasher<Name<N>>>,
}

pub type VariableMap<H> = Values<H, Variable>;
pub type TempMap<H> = Values<H, Temp>;

impl<H: Host, N: Namespace> Values<H, N> {
    pub fn new() -> Self {
        Self {
            values: HashMap::default(),
        }
    }

    pub fn get(&self, name: Name<N>) -> Option<&Value<H>> {
        self.values.get(&name)
    }

    pub fn set(&mut self, name: Name<N>, value: Value<H>) -> Option<Value<H>> {
        self.values.insert(name, value)
    }
}

impl<H: Host, N: Namespace> fmt::Debug for Values<H, N> {
    fn fmt(&self, f: &mut fmt::Formatter<'_>) -> fmt::Result {
        f.debug_map().entries(&self.values).finish()
    }
}

impl<H: Host> VariableStore<H> for VariableMap<H> {
    fn get(&self, _actor: H::ActorRef, _name: VariableName) -> Option<&Value<H>> {
        unreachable!("a run has no actor")
    }

    fn get_public(&self, _actor: H::ActorRef, _name: VariableName) -> Option<&Value<H>> {
        unreachable!("a run has no actor")
    }

    fn get_local(&self, name: VariableName) -> Option<&Value<H>> {
        Values::get(self, name)
    }

    fn set(&mut self, _actor: H::ActorRef, _name: VariableName, _value: Value<H>) {
        unreachable!("a run has no actor")
    }

    fn set_local(&mut self, name: VariableName, value: Value<H>) {
        Values::set(self, name, value);
    }
}
