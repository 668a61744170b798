//! Stand-in: how a value is shown.

use std::fmt;

use super::Value;
use crate::vm::host::Host;

impl<H: Host> fmt::Debug for Value<H> {
    fn fmt(&self, f: &mut fmt::Formatter<'_>) -> fmt::Result {
        f.write_str(self.kind().name())
    }
}
