//! Programs that come to a counted loop, as document 02's first request has it. Whoever writes one knows what stands
//! when the run comes to the loop: no machine is asked.

use calls::{Call, Cells, Lent, Notices, Post, Program, Record, op, pack_handler};

use crate::code::{Opcodes, Writer};
use crate::generate::{Case, cells, number, post, two_limits};
use crate::random::Random;

/// The records that a body is made of. The first two forget the accumulator.
pub const STRAIGHT: [u8; 7] = [
    op::CONST,
    op::THIS,
    op::POST,
    op::NEGATE,
    op::NOT,
    op::STORE_VAR,
    op::STORE_TEMP,
];

/// No whole number: a count that never ends without a loop limit.
pub const ENDLESS: u64 = u64::MAX;

/// Every program has this post at this place: it takes one away.
const LESS_ONE_POST: u16 = 1;
const LESS_ONE: Post = Post {
    scale: 0x3F80_0000,
    offset: 0xBF80_0000,
};

const NAMES: usize = 3;
const TEMPS: usize = 4;

/// A loop that is cut short to have the loop notice at 1 makes no more passes than this.
const SHORT_LIMIT: u32 = 1000;

/// What stands between two records of a run.
#[derive(Clone)]
pub struct Standing {
    pub charges: u64,
    pub accumulator: f32,
    pub stack: Vec<f32>,
    pub loops: Vec<u32>,
    pub handlers: Vec<u64>,
    pub temps: [Option<f32>; 8],
    pub cells: Cells,
    pub notices: Notices,
}

impl Standing {
    pub fn set_cell(&mut self, name: usize, x: f32) {
        self.cells.kinds[name] = Cells::FLOAT;
        self.cells.values[name] = x.to_bits().into();
    }
}

/// A loop's count: the number in the accumulator, and the whole number that it was written as.
#[derive(Copy, Clone)]
pub struct Count {
    pub number: f32,
    pub whole: u64,
}

impl Count {
    pub fn whole(k: u64) -> Self {
        Self {
            number: k as f32,
            whole: k,
        }
    }

    /// A number that is itself again when one is taken away, or becomes such a number.
    pub fn endless(number: f32) -> Self {
        Self {
            number,
            whole: ENDLESS,
        }
    }
}

/// The rooms that are left for the loop's own entries.
#[derive(Copy, Clone)]
pub struct Places {
    pub stack: usize,
    pub loops: usize,
}

impl Places {
    pub const ONE: Self = Self { stack: 1, loops: 1 };
}

/// A call whose run comes to a counted loop.
pub struct Counted {
    pub case: Case,
    pub count: Count,
    pub places: Places,
    /// The position of LoopBegin.
    pub at: usize,
    /// The number of body records.
    pub body: usize,
    /// What stands there.
    pub before: Standing,
}

impl Counted {
    pub fn loop_limit(&self) -> Option<u32> {
        self.case.call.loop_limit
    }

    pub fn body(&self) -> &[Record] {
        &self.case.program.records[self.at + 1..][..self.body]
    }

    /// The position behind LoopEnd.
    pub fn behind(&self) -> usize {
        self.at + self.body + 3
    }

    /// Leaves the run this many charges when it comes to the loop.
    pub fn under(mut self, charges: u64) -> Self {
        self.case.call.step_limit = Some(self.before.charges.saturating_add(charges));
        self
    }

    /// Brings a second limit; the smaller of the two is the one that it had.
    pub fn under_two(mut self, random: &mut Random) -> Self {
        let call = &mut self.case.call;
        call.set_limits(two_limits(random, call.step_limit));
        self
    }

    /// Has every body record take one away by its post.
    pub fn less_one(mut self) -> Self {
        for record in &mut self.case.program.records[self.at + 1..][..self.body] {
            record.post = LESS_ONE_POST;
        }
        self.case.call.file = self.case.program.encode();
        self
    }

    /// `k = .., b = .., limit ..`
    pub fn title(&self) -> String {
        let k = match self.count.whole {
            ENDLESS => self.count.number.to_string(),
            whole => whole.to_string(),
        };
        let limit = self.loop_limit().map(|limit| limit.to_string());
        let limit = limit.as_deref().unwrap_or("none");
        format!("k = {k}, b = {}, limit {limit}", self.body)
    }
}

/// Writes a program up to its loop, and keeps what stands.
pub struct Builder<'a> {
    random: &'a mut Random,
    program: Program,
    standing: Standing,
    lent_cells: Cells,
    this: u32,
    loop_limit: Option<u32>,
}

impl<'a> Builder<'a> {
    pub fn new(random: &'a mut Random, loop_limit: Option<u32>) -> Self {
        let lent_cells = cells(random, Opcodes::OfTheRust, NAMES);
        let mut posts = vec![Post::IDENTITY, LESS_ONE];
        posts.extend((0..4).map(|_| post(random)));
        Self {
            program: Program {
                names: NAMES as u16,
                temps: TEMPS as u16,
                constants: vec![number(random)],
                posts,
                hashes: vec![random.next()],
                records: Vec::new(),
            },
            standing: Standing {
                charges: 0,
                accumulator: 0.0,
                stack: Vec::new(),
                loops: Vec::new(),
                handlers: Vec::new(),
                temps: [None; 8],
                cells: lent_cells.clone(),
                notices: Notices::default(),
            },
            this: number(random),
            lent_cells,
            random,
            loop_limit,
        }
    }

    fn position(&self) -> usize {
        self.program.records.len()
    }

    fn write(&mut self, opcode: u8, argument: usize) {
        self.program.records.push(Record {
            opcode,
            argument: argument as u32,
            ..Record::default()
        });
    }

    /// Writes a record that the run takes once.
    fn take(&mut self, opcode: u8, argument: usize) {
        self.write(opcode, argument);
        self.standing.charges += 1;
    }

    fn any_target(&mut self) -> usize {
        match self.random.below(3) {
            0 => self.random.below(20),
            1 => self.position() + 1,
            _ => self.random.next() as u32 as usize,
        }
    }

    fn load(&mut self, x: f32) {
        self.program.constants.push(x.to_bits());
        self.take(op::CONST, self.program.constants.len() - 1);
        self.standing.accumulator = x;
    }

    fn load_any(&mut self) -> f32 {
        let x = f32::from_bits(number(self.random));
        self.load(x);
        x
    }

    /// Some records before the loop: operands, open loops, handlers, stores, notices, a jump.
    pub fn surround(mut self) -> Self {
        for _ in 0..self.random.below(7) {
            match self.random.below(9) {
                0 | 1 => self.operand(),
                2 => self.open_loop(),
                3 => self.handler(),
                4 => self.store_temp(),
                5 => self.store_cell(),
                6 => self.notices(),
                7 => self.jump(),
                _ => self.cut_loop(),
            }
        }
        self
    }

    fn operand(&mut self) {
        let x = self.load_any();
        self.take(op::PUSH, 0);
        self.standing.stack.push(x);
    }

    fn open_loop(&mut self) {
        let passes = self.random.between(1, 9) as f32;
        self.load(passes);
        let exit = self.any_target();
        self.take(op::LOOP_BEGIN, exit);
        self.standing.stack.push(passes - 1.0);
        self.standing.loops.push(1);
    }

    fn handler(&mut self) {
        let target = self.any_target();
        self.take(op::HANDLER_PUSH, target);
        let (stack, loops) = (self.standing.stack.len(), self.standing.loops.len());
        let entry = pack_handler(target as u32, stack, loops);
        self.standing.handlers.push(entry);
    }

    fn store_temp(&mut self) {
        let (x, temp) = (self.load_any(), self.random.below(TEMPS));
        self.take(op::STORE_TEMP, temp);
        self.standing.temps[temp] = Some(x);
    }

    fn store_cell(&mut self) {
        let (x, name) = (self.load_any(), self.random.below(NAMES));
        self.take(op::STORE_VAR, name);
        self.standing.set_cell(name, x);
    }

    /// A member that is missing, under a handler, and a pointer that was not entered.
    fn notices(&mut self) {
        self.take(op::HANDLER_PUSH, self.position() + 2);
        self.take(op::MEMBER, 0);
        self.take(op::POINTER_LEAVE, 0);
        self.standing.accumulator = 0.0;
        self.standing.notices.missing_member += 1;
        self.standing.notices.access_underflow += 1;
    }

    /// Over a record that would end the run.
    fn jump(&mut self) {
        self.take(op::JUMP, self.position() + 2);
        self.write(op::HALT, 0);
    }

    /// An endless loop that the loop limit ends, where it does so soon.
    fn cut_loop(&mut self) {
        let Some(limit) = self.loop_limit.filter(|&limit| limit <= SHORT_LIMIT) else {
            return;
        };
        self.load(f32::INFINITY);
        self.take(op::LOOP_BEGIN, 0);
        self.write(op::LOOP_CHECK, self.position());
        self.standing.charges += u64::from(limit.max(1));
        self.take(op::LOOP_END, 0);
        self.standing.notices.loop_limit = 1;
    }

    /// Infinities on the stack, one more than the loop limit, under a loop that stays open.
    pub fn deepen(mut self) -> Self {
        let limit = self.loop_limit.expect("a limit ends the loop");
        self.load(f32::INFINITY);
        self.take(op::LOOP_BEGIN, 0);
        self.write(op::PUSH, 0);
        self.write(op::LOOP_CHECK, self.position() - 1);
        self.standing.charges += 2 * u64::from(limit);
        let depth = self.standing.stack.len() + 1 + limit as usize;
        self.standing.stack.resize(depth, f32::INFINITY);
        self.standing.loops.push(limit);
        self.standing.notices.loop_limit = 1;
        self
    }

    /// The loop, over a body of these opcodes, and what ends the run behind it.
    pub fn counted(mut self, count: Count, body: &[u8], places: Places) -> Counted {
        if self.random.once_in(4) {
            self.this = count.number.to_bits();
            self.take(op::THIS, 0);
            self.standing.accumulator = count.number;
        } else {
            self.load(count.number);
        }
        let at = self.position();
        let exit = self.any_target();
        self.write(op::LOOP_BEGIN, exit);
        for &opcode in body {
            Writer::new(self.random, Opcodes::OfTheRust, &mut self.program).write_usable(opcode);
        }
        self.write(op::LOOP_CHECK, at + 1);
        self.write(op::LOOP_END, 0);
        match self.random.below(4) {
            0 => {}
            1 => self.write(op::END, 0),
            _ => self.write(op::HASH, 0),
        }
        self.call(count, at, body.len(), places)
    }

    fn call(self, count: Count, at: usize, body: usize, places: Places) -> Counted {
        let Self {
            random,
            program,
            standing,
            ..
        } = self;
        let lent = Lent {
            cells: self.lent_cells,
            stack: vec![random.next() as u32; standing.stack.len() + places.stack],
            loops: vec![random.next() as u32; standing.loops.len() + places.loops],
            handlers: vec![random.next(); standing.handlers.len() + random.between(1, 3)],
        };
        let call = Call {
            file: program.encode(),
            context: cells(random, Opcodes::OfTheRust, NAMES),
            this: self.this,
            step_limit: None,
            loop_limit: self.loop_limit,
            house_limit: None,
        };
        Counted {
            case: Case {
                program,
                call,
                lent,
            },
            count,
            places,
            at,
            body,
            before: standing,
        }
    }
}
