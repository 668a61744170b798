//! The benchmark's run of the Rust: the program and the maps are made once, and a timed call is what
//! `Expr::eval` does on the float loop.

use calls::{Call, Cells};

use super::super::{Base, Vm};
use super::{Messages, values};
use crate::compile::program::Program;
use crate::reference::{Reference, key};
use crate::vm::arrays::ArrayTable;
use crate::vm::cx::EvalCx;
use crate::vm::global_rng::ProcessRng;
use crate::vm::host::{ContextMap, NoHost, Subjects};
use crate::vm::vars::VariableMap;
use crate::vm::{ContextName, EvalLimits, VariableName};

/// A call made ready, whose variables stay from run to run.
pub struct Timed {
    program: Program,
    variables: VariableMap<NoHost>,
    context: ContextMap<NoHost>,
    arrays: ArrayTable,
    messages: Messages,
    limits: EvalLimits,
    this: f32,
}

impl Reference {
    pub fn timed(&self, program: &calls::Program, call: &Call, cells: &Cells) -> Timed {
        let mut variables = VariableMap::new();
        for (index, value) in values(cells) {
            variables.set(VariableName::from_raw_hash(key(index)), value);
        }
        let mut context = ContextMap::new();
        for (index, value) in values(&call.context) {
            context.set(ContextName::from_raw_hash(key(index)), value);
        }
        Timed {
            program: self.program(program),
            variables,
            context,
            arrays: ArrayTable::new(),
            messages: Messages::default(),
            limits: EvalLimits::NONE
                .with_total_steps(call.smaller_limit())
                .with_loop_iterations(call.loop_limit),
            this: f32::from_bits(call.this),
        }
    }
}

impl Timed {
    /// One call: the bits of the accumulator, and the charges; whether it was done is checked.
    pub fn run(&mut self) -> (u32, u64) {
        let (mut host, mut rng) = (NoHost, ProcessRng);
        let mut cx = EvalCx::new(
            &mut host,
            &mut self.variables,
            &self.context,
            &self.arrays,
            &mut rng,
            &mut self.messages,
        )
        .with_subjects(Subjects::none().with_this(self.this))
        .with_limits(self.limits);
        let limit = cx.limits.total_steps;
        let mut vm = Vm::<NoHost, f32>::new(&self.program, limit);
        let end = vm.run(&self.program, &mut cx, 0, Base::ROOT);
        assert!(end.is_ok(), "a timed program is done");
        (vm.acc.to_bits(), limit.unwrap_or(u64::MAX) - vm.steps_left)
    }
}
