//! Stand-in: the compiled expression as `Expr::eval` sees it. `eval` is not compared; the
//! comparison writes the [`program::Program`] itself.

pub(crate) mod program;

use program::Program;

pub struct Expr {
    program: Program,
}

pub(crate) enum Evaluation<'a> {
    Constant(f32),
    Program(&'a Program),
}

impl Expr {
    pub(crate) fn evaluation(&self) -> Evaluation<'_> {
        Evaluation::Program(&self.program)
    }
}
