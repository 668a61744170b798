//! Stand-in for the query calls, and the comparison's run: as a module of `eval` it can call
//! `Vm::<NoHost, f32>::run` and read the machine's private parts.

use std::sync::Arc;

use calls::{Call, Cells, Depths, End, Lent, Notices, pack_handler};

use super::{Base, Deopt, Frame, Stop, Vm};
use crate::compile::program::{Program, QueryCall};
use crate::reference::{Reference, key};
use crate::vm::arrays::ArrayTable;
use crate::vm::cx::EvalCx;
use crate::vm::global_rng::ProcessRng;
use crate::vm::host::{ContextMap, Host, NoHost, Subjects};
use crate::vm::sink::{RuntimeMsg, RuntimeSink};
use crate::vm::value::{ResourceRef, StructValue, Value};
use crate::vm::vars::VariableMap;
use crate::vm::{ContextName, EvalLimits, VariableName};

/// Every compared call has an argument, and the float loop hands over before it.
pub(super) fn call<H: Host>(
    _program: &Program,
    _cx: &mut EvalCx<'_, '_, H>,
    _call: &QueryCall,
    _general: Option<&mut Vm<H, Value<H>>>,
) -> Value<H> {
    unreachable!("not compared")
}

/// The notices of a run, and why it was aborted.
#[derive(Default)]
struct Messages {
    notices: Notices,
    abort: Option<u32>,
}

impl RuntimeSink for Messages {
    fn runtime(&mut self, message: RuntimeMsg<'_>) {
        match message {
            RuntimeMsg::MissingMember { .. } => self.notices.missing_member += 1,
            RuntimeMsg::PublicAccessUnderflow => self.notices.access_underflow += 1,
            RuntimeMsg::LoopLimit { .. } => self.notices.loop_limit += 1,
            RuntimeMsg::UnknownVariable { .. } => self.abort = Some(calls::MISSING_VALUE),
            RuntimeMsg::StepLimit { .. } => self.abort = Some(calls::STEPS),
            RuntimeMsg::OperandStackLimit { .. } => self.abort = Some(calls::STACK_CAP),
            other => unreachable!("the float loop sent {other:?}"),
        }
    }
}

impl Reference {
    /// `run` from position 0 with `Base::ROOT`: how it ended, and the lent stores as left. The Rust
    /// has one step limit, and is given the smaller of the two.
    pub fn run(&self, program: &calls::Program, call: &Call, lent: &Lent) -> (End, Lent) {
        let program = self.program(program);
        let step_limit = call.smaller_limit();
        let limits = EvalLimits::NONE
            .with_total_steps(step_limit)
            .with_loop_iterations(call.loop_limit);
        let mut variables = VariableMap::new();
        for (index, value) in values(&lent.cells) {
            variables.set(VariableName::from_raw_hash(key(index)), value);
        }
        let mut context = ContextMap::new();
        for (index, value) in values(&call.context) {
            context.set(ContextName::from_raw_hash(key(index)), value);
        }
        let mut messages = Messages::default();
        let (mut host, mut rng) = (NoHost, ProcessRng);
        let arrays = ArrayTable::new();
        let mut cx = EvalCx::new(
            &mut host,
            &mut variables,
            &context,
            &arrays,
            &mut rng,
            &mut messages,
        )
        .with_subjects(Subjects::none().with_this(f32::from_bits(call.this)))
        .with_limits(limits);
        let mut vm = Vm::<NoHost, f32>::new(&program, step_limit);
        let stop = vm.run(&program, &mut cx, 0, Base::ROOT);
        let end = end(&vm, stop, &messages, step_limit);
        (end, lent_as_left(&vm, &variables, lent))
    }
}

/// The cells that are not missing, as values.
fn values(cells: &Cells) -> impl Iterator<Item = (usize, Value<NoHost>)> {
    let each = cells.kinds.iter().zip(&cells.values).enumerate();
    each.filter_map(|(index, (&kind, &value))| Some((index, cell_value(kind, value)?)))
}

/// 'Other' stands for six kinds of value; the cell's own number picks one.
fn cell_value(kind: u8, value: u64) -> Option<Value<NoHost>> {
    match (kind, value % 6) {
        (Cells::MISSING, _) => None,
        (Cells::FLOAT, _) => Some(Value::Float(f32::from_bits(value as u32))),
        (Cells::HASH, _) => Some(Value::Hash(value.into())),
        (_, 0) => Some(Value::Actor(())),
        (_, 1) => Some(Value::Item(())),
        (_, 2) => Some(Value::ActorArray(Arc::new(vec![(); 2]))),
        (_, 3) => Some(Value::structure(StructValue::new())),
        (_, 4) => Some(Value::identity_matrix()),
        (_, _) => Some(Value::Resource(ResourceRef::from_raw_hash(value.into()))),
    }
}

fn end(
    vm: &Vm<NoHost, f32>,
    stop: Result<(), Stop<NoHost>>,
    messages: &Messages,
    step_limit: Option<u64>,
) -> End {
    let (outcome, position) = match stop {
        Ok(()) => (calls::DONE, 0),
        Err(Stop::Abort) => (messages.abort.expect("an abort says why"), 0),
        Err(Stop::Deopt(Deopt::At(position))) => (calls::HANDED_OVER, position as u64),
        Err(Stop::Deopt(Deopt::After { .. })) => unreachable!("no call was made"),
    };
    let done = outcome == calls::DONE;
    let mut temps = [None; 8];
    for (bits, temp) in temps.iter_mut().zip(&vm.temps) {
        *bits = temp.map(f32::to_bits);
    }
    End {
        outcome,
        value: if done { vm.acc.to_bits() } else { 0 },
        position,
        charges: step_limit.unwrap_or(u64::MAX) - vm.steps_left,
        accumulator: vm.acc.to_bits(),
        depths: Depths {
            stack: vm.stack.len() as u64,
            loops: vm.loops.len() as u64,
            handlers: vm.handlers.len() as u64,
        },
        notices: messages.notices,
        empty_pops: 0, // the Rust counts none
        temps: temps.into(),
    }
}

/// The lent stores after the run. A cell without a number, here missing or other, keeps the number
/// it was lent with.
fn lent_as_left(vm: &Vm<NoHost, f32>, variables: &VariableMap<NoHost>, lent: &Lent) -> Lent {
    let mut left = lent.clone();
    for index in 0..left.cells.len() {
        let value = variables.get(VariableName::from_raw_hash(key(index)));
        let (kind, number) = match value {
            None => (Cells::MISSING, left.cells.values[index]),
            Some(Value::Float(x)) => (Cells::FLOAT, x.to_bits().into()),
            Some(Value::Hash(h)) => (Cells::HASH, h.to_u64()),
            Some(_) => (Cells::OTHER, left.cells.values[index]),
        };
        left.cells.kinds[index] = kind;
        left.cells.values[index] = number;
    }
    fill(&mut left.stack, vm.stack.iter().map(|x| x.to_bits()));
    fill(&mut left.loops, vm.loops.iter().map(passes));
    let packed = |h: &super::Handler| pack_handler(h.to, h.mark.stack, h.mark.loops);
    fill(&mut left.handlers, vm.handlers.iter().map(packed));
    left
}

fn passes(frame: &Frame<NoHost>) -> u32 {
    match frame {
        Frame::Count { iterations } => *iterations,
        Frame::Each { .. } => unreachable!("no actor array reaches the float loop"),
    }
}

/// Writes `entries` and zeros above them; a store too small for them grows, which no lent one does.
fn fill<T: Default + Clone>(store: &mut Vec<T>, entries: impl ExactSizeIterator<Item = T>) {
    let room = store.len().max(entries.len());
    store.clear();
    store.extend(entries);
    store.resize(room, T::default());
}
