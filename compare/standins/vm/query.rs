//! Stand-in: the host's query implementations. The float loop hands over at every call with
//! arguments, so there are none.

use std::fmt;
use std::marker::PhantomData;

use super::host::Host;

pub struct QueryTable<H: Host>(PhantomData<fn() -> H>);

impl<H: Host> fmt::Debug for QueryTable<H> {
    fn fmt(&self, f: &mut fmt::Formatter<'_>) -> fmt::Result {
        f.write_str("QueryTable")
    }
}
