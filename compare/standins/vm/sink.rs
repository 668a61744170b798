//! Stand-in: the run-time messages, as the given files send them.

/// A message of a run. Three of them are document 01's notices; three say why a run stopped.
#[derive(Debug)]
pub enum RuntimeMsg<'a> {
    UnknownVariable { name: &'a str, public_access: bool },
    MissingMember { name: &'a str },
    PublicAccessUnderflow,
    LoopLimit { limit: u32 },
    StepLimit { limit: u64 },
    OperandStackLimit { limit: u32 },
    StructMemberLimit { limit: u32 },
    StructDepthLimit { limit: u32 },
    UnknownArray { name: &'a str },
    EmptyArray { name: &'a str },
}

pub trait RuntimeSink {
    fn runtime(&mut self, message: RuntimeMsg<'_>);
}

/// The environments' default sink; the comparison brings its own.
#[derive(Debug)]
pub struct BoundedSink;

impl BoundedSink {
    pub fn new() -> Self {
        Self
    }
}

impl RuntimeSink for BoundedSink {
    fn runtime(&mut self, _message: RuntimeMsg<'_>) {}
}
