//! Writes programs record by record.

use calls::{Cells, Post, Program, Record, op};

/// The names of every program: the even ones are set, in the cells and in the context.
pub const NAMES: u16 = 8;
const TEMPS: u16 = 4;

/// A post that changes its number, and keeps a chain of them within bounds.
pub const HALVING: u16 = 1;
/// A post that makes a remainder large again.
pub const WIDENING: u16 = 2;

pub struct Writer {
    program: Program,
}

impl Writer {
    pub fn new() -> Self {
        let post = |scale: f32, offset: f32| Post {
            scale: scale.to_bits(),
            offset: offset.to_bits(),
        };
        Self {
            program: Program {
                names: NAMES,
                temps: TEMPS,
                constants: Vec::new(),
                posts: vec![Post::IDENTITY, post(0.5, 0.25), post(900.0, 77.5)],
                hashes: Vec::new(),
                records: Vec::new(),
            },
        }
    }

    /// The program, with End as its last record.
    pub fn ended(mut self) -> Program {
        self.put(op::END);
        self.program
    }

    /// The program as it stands.
    pub fn open(self) -> Program {
        self.program
    }

    pub fn position(&self) -> usize {
        self.program.records.len()
    }

    pub fn put(&mut self, opcode: u8) {
        self.put_with(opcode, 0, 0);
    }

    pub fn put_with(&mut self, opcode: u8, argument: usize, post: u16) {
        self.program.records.push(Record {
            opcode,
            choice: 0,
            post,
            argument: argument as u32,
        });
    }

    /// A record that names the constant `value`.
    pub fn put_constant(&mut self, opcode: u8, value: f32, post: u16) {
        let index = self.constant(value);
        self.put_with(opcode, index, post);
    }

    fn constant(&mut self, value: f32) -> usize {
        let constants = &mut self.program.constants;
        let known = constants.iter().position(|&c| c == value.to_bits());
        known.unwrap_or_else(|| {
            constants.push(value.to_bits());
            constants.len() - 1
        })
    }

    /// A record whose target is the position after `block`.
    pub fn past(&mut self, opcode: u8, block: impl FnOnce(&mut Self)) {
        let at = self.position();
        self.put(opcode);
        block(self);
        self.program.records[at].argument = self.position() as u32;
    }

    /// `left ?? right`.
    pub fn handled(&mut self, left: impl FnOnce(&mut Self), right: impl FnOnce(&mut Self)) {
        let push = self.position();
        self.put(op::HANDLER_PUSH);
        left(self);
        self.past(op::HANDLER_POP, |writer| {
            writer.program.records[push].argument = writer.position() as u32;
            right(writer);
        });
    }

    /// A counted loop around `block`.
    pub fn repeated(&mut self, passes: u32, block: impl FnOnce(&mut Self)) {
        self.put_constant(op::CONST, passes as f32, 0);
        self.past(op::LOOP_BEGIN, |writer| {
            let body = writer.position();
            block(writer);
            writer.put_with(op::LOOP_CHECK, body, 0);
            writer.put(op::LOOP_END);
        });
    }
}

/// The cells of a call: every other name is missing.
pub fn cells() -> Cells {
    let kind = |i| [Cells::FLOAT, Cells::MISSING][usize::from(i % 2)];
    let value = |i| u64::from(f32::from(1 + i).to_bits());
    Cells {
        kinds: (0..NAMES).map(kind).collect(),
        values: (0..NAMES).map(value).collect(),
    }
}
