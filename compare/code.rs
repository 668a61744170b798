//! Random code: shapes that a compiler would write, loose records between them, and targets and
//! records changed at random afterwards.

use calls::{LAST_OF_THE_RUST, Program, Record, TABLE, WEIGHTS, most_choice, op, uses};

use crate::random::Random;

/// The opcodes that bring a number to the accumulator.
const OPERANDS: [u8; 6] = [
    op::CONST,
    op::THIS,
    op::LOAD_VAR,
    op::LOAD_TEMP,
    op::LOAD_CTX,
    op::PUSH_CONST,
];

/// The opcodes that make a number whole, or give its magnitude.
pub const WHOLE: [u8; 4] = [op::FLOOR, op::CEIL, op::TRUNC, op::ABS];

const MOST_RECORDS: usize = 4096;

/// The opcodes that random programs have.
#[derive(Copy, Clone, PartialEq)]
pub enum Opcodes {
    /// Those of stored files that the Rust has.
    OfTheRust,
    /// Those of files that a call accepts.
    Accepted,
    /// Those of stored files: HostMath too.
    Stored,
}

impl Opcodes {
    /// How often each is that of a loose record.
    fn weights(self) -> &'static [usize] {
        match self {
            Self::OfTheRust => &WEIGHTS[..=usize::from(LAST_OF_THE_RUST)],
            Self::Accepted => &WITHOUT_HOST_MATH,
            Self::Stored => WEIGHTS,
        }
    }

    /// How often each shape of a block is written.
    fn shapes(self) -> &'static [usize] {
        match self {
            Self::OfTheRust => &[40, 6, 4, 3, 3, 3, 2],
            Self::Accepted => &[40, 6, 4, 3, 3, 3, 0, 6],
            Self::Stored => &[40, 6, 4, 3, 3, 3, 2, 6],
        }
    }

    fn has_host_math(self) -> bool {
        self != Self::Accepted
    }
}

const WITHOUT_HOST_MATH: [usize; TABLE.len()] = {
    let mut weights = [0; TABLE.len()];
    weights.copy_from_slice(WEIGHTS);
    weights[op::HOST_MATH as usize] = 0;
    weights
};

pub struct Writer<'a> {
    random: &'a mut Random,
    opcodes: Opcodes,
    program: &'a mut Program,
    /// The records whose targets are chosen once the code is whole.
    loose: Vec<usize>,
}

impl<'a> Writer<'a> {
    pub fn new(random: &'a mut Random, opcodes: Opcodes, program: &'a mut Program) -> Self {
        Self {
            random,
            opcodes,
            program,
            loose: Vec::new(),
        }
    }

    pub fn write(mut self) {
        if self.random.once_in(40) {
            return;
        }
        let blocks = [1, 2, 12, 60][self.random.weighted(&[120, 40, 20, 1])];
        for _ in 0..blocks {
            self.block(3);
        }
        match self.random.weighted(&[5, 3, 1]) {
            0 => self.put(op::END, 0),
            1 => {}
            _ => self.put(op::RETURN, 0),
        }
        self.program.records.truncate(MOST_RECORDS);
        for at in std::mem::take(&mut self.loose) {
            if at < self.position() {
                self.program.records[at].argument = self.any_target(at);
            }
        }
        while self.random.once_in(4) {
            self.disturb();
        }
        if self.opcodes.has_host_math() && self.random.once_in(4) {
            self.place_host_math();
        }
    }

    fn position(&self) -> usize {
        self.program.records.len()
    }

    /// Writes a record with the given target or index, and a random choice and post.
    fn put(&mut self, opcode: u8, argument: usize) {
        let mut record = self.loose_record(opcode);
        record.argument = argument as u32;
        self.program.records.push(record);
    }

    /// Aims the record at `at` to the present position.
    fn aim_here(&mut self, at: usize) {
        self.program.records[at].argument = self.position() as u32;
    }

    fn block(&mut self, depth: usize) {
        for _ in 0..self.random.between(1, 5) {
            match self.random.weighted(self.opcodes.shapes()) {
                1 if depth > 0 => self.counted_loop(depth - 1),
                2 if depth > 0 => self.handled(depth - 1),
                3 if depth > 0 => self.division(depth - 1),
                4 if depth > 0 => self.steps(),
                5 => self.each(),
                6 => self.host_function(),
                7 => self.whole_number(),
                _ => self.loose(),
            }
        }
    }

    fn counted_loop(&mut self, depth: usize) {
        self.operand();
        let begin = self.position();
        self.put(op::LOOP_BEGIN, 0);
        self.block(depth);
        self.put(op::LOOP_CHECK, begin + 1);
        if !self.random.once_in(8) {
            self.put(op::LOOP_END, 0);
        }
        self.aim_here(begin);
    }

    fn handled(&mut self, depth: usize) {
        let push = self.position();
        self.put(op::HANDLER_PUSH, 0);
        self.block(depth);
        if self.random.once_in(2) {
            let opcode = self
                .random
                .pick(&[op::LOAD_VAR, op::LOAD_TEMP, op::LOAD_CTX, op::MEMBER]);
            self.write_usable(opcode);
        }
        let pop = self.position();
        self.put(op::HANDLER_POP, 0);
        self.aim_here(push);
        self.block(depth);
        self.aim_here(pop);
    }

    fn division(&mut self, depth: usize) {
        self.operand();
        let guard = self.position();
        self.put(op::DIV_GUARD, 0);
        if self.random.once_in(2) {
            self.operand();
        } else {
            self.block(depth);
        }
        self.put(op::DIV, 0);
        self.aim_here(guard);
    }

    /// A chain of `&&` or `||`.
    fn steps(&mut self) {
        let [step, last] = self
            .random
            .pick(&[[op::AND_STEP, op::AND_LAST], [op::OR_STEP, op::OR_LAST]]);
        self.operand();
        let at = self.position();
        self.put(step, 0);
        self.operand();
        self.put(last, 0);
        self.aim_here(at);
    }

    /// EachBegin over the number in the accumulator, with each of its ways out.
    fn each(&mut self) {
        let begin = self.position();
        self.put(op::EACH_BEGIN, 0);
        if self.random.once_in(2) {
            self.loose();
        }
        self.aim_here(begin);
        if !self.random.once_in(4) {
            self.write_usable(op::CONST);
        }
        let next: &[u8] = self.random.pick(&[
            &[],
            &[op::END],
            &[op::HALT],
            &[op::CONST, op::STORE_VAR],
            &[op::CONST, op::STORE_TEMP],
            &[op::CONST],
            &[op::PUSH],
        ]);
        for &opcode in next {
            self.write_usable(opcode);
        }
        let at = self.program.records[begin].argument as usize + self.random.below(3);
        if at < self.position() && self.opcodes.has_host_math() && self.random.once_in(3) {
            self.program.records[at] = self.loose_record(op::HOST_MATH);
        }
    }

    /// A host function of at most one argument, with operands below it and a use of what it gives.
    fn host_function(&mut self) {
        for _ in 0..self.random.between(0, 2) {
            self.operand();
            self.write_usable(op::PUSH);
        }
        self.operand();
        self.write_usable(op::HOST_MATH);
        let opcode = self
            .random
            .pick(&[op::STORE_VAR, op::STORE_TEMP, op::PUSH, op::ADD_LAST]);
        self.write_usable(opcode);
    }

    /// A number that is made whole, and kept.
    fn whole_number(&mut self) {
        self.operand();
        let opcode = self.random.pick(&WHOLE);
        self.write_usable(opcode);
        let opcode = self
            .random
            .pick(&[op::STORE_VAR, op::STORE_TEMP, op::PUSH, op::ADD_ACC]);
        self.write_usable(opcode);
    }

    fn operand(&mut self) {
        let opcode = self.random.pick(&OPERANDS);
        self.write_usable(opcode);
    }

    fn loose(&mut self) {
        let opcode = self.random.weighted(self.opcodes.weights()) as u8;
        self.write_usable(opcode);
    }

    /// Writes a record of this opcode, or a Push where the program lacks what it names.
    pub fn write_usable(&mut self, opcode: u8) {
        let record = self.loose_record(opcode);
        if uses(record.opcode, 'j') {
            self.loose.push(self.position());
        }
        self.program.records.push(record);
    }

    /// A random record of this opcode; its target, if it has one, is left at 0.
    fn loose_record(&mut self, opcode: u8) -> Record {
        let (argument_count, post_count) = self.counts(opcode);
        if argument_count == 0 || post_count == 0 {
            return self.loose_record(op::PUSH);
        }
        let post_count = if self.random.once_in(2) {
            1
        } else {
            post_count
        };
        Record {
            opcode,
            choice: self.choice(opcode),
            post: self.random.below(post_count) as u16,
            argument: self.random.below(argument_count) as u32,
        }
    }

    /// How many arguments and how many numbers in bytes 2-3 are legal for this opcode.
    fn counts(&self, opcode: u8) -> (usize, usize) {
        let Program { names, temps, .. } = *self.program;
        let count = |part| match part {
            'c' => self.program.constants.len(),
            'h' => self.program.hashes.len(),
            'p' => self.program.posts.len(),
            'n' | 'N' => names.into(),
            't' | 'T' => temps.into(),
            _ => 1 << 32,
        };
        let used = |parts: &str| parts.chars().find(|&part| uses(opcode, part));
        (used("chntq").map_or(1, count), used("pNT").map_or(1, count))
    }

    /// A legal choice; of HostMath a count that is converted.
    fn choice(&mut self, opcode: u8) -> u8 {
        let most = match opcode {
            op::HOST_MATH => 1,
            _ => most_choice(opcode),
        };
        self.random.between(0, most.into()) as u8
    }

    fn any_target(&mut self, at: usize) -> u32 {
        let end = self.position();
        match self.random.weighted(&[12, 6, 4, 2, 1]) {
            0 => (at + self.random.between(1, 5)) as u32,
            1 => self.random.below(end + 3) as u32,
            2 => self.random.between(end.saturating_sub(2), end + 1) as u32,
            3 => u32::MAX - self.random.below(4) as u32,
            _ => (1 << 16 | self.random.below(end + 3)) as u32,
        }
    }

    /// Puts a HostMath where its place tells: alone, first, last, or where a target leads.
    fn place_host_math(&mut self) {
        let host_math = self.loose_record(op::HOST_MATH);
        let length = self.position();
        if length == 0 || self.random.once_in(8) {
            self.program.records = vec![host_math];
            return;
        }
        let at = match self.random.weighted(&[1, 1, 2]) {
            0 => 0,
            1 => length - 1,
            _ => self.led_to(),
        };
        self.program.records[at] = host_math;
    }

    /// A target inside the code, or one or two records behind it, where EachBegin looks.
    fn led_to(&mut self) -> usize {
        let length = self.position();
        let from = self.random.below(length);
        let behind = self.random.below(3);
        let with_target = |r: &&Record| uses(r.opcode, 'j');
        let targets = self.program.records[from..].iter().filter(with_target);
        let mut places = targets.map(|r| r.argument as usize + behind);
        places.find(|&at| at < length).unwrap_or(from)
    }

    /// Changes one target or one record.
    fn disturb(&mut self) {
        let length = self.position();
        if length == 0 {
            return;
        }
        let at = self.random.below(length);
        if self.random.once_in(2) {
            let opcode = self.random.weighted(self.opcodes.weights()) as u8;
            self.program.records[at] = self.loose_record(opcode);
        }
        if uses(self.program.records[at].opcode, 'j') {
            self.program.records[at].argument = self.any_target(at);
        }
    }
}

/// Code that fills the operand stack, up to the cap or to a loop limit near it, and goes on with
/// what is left then.
pub fn deep_code(random: &mut Random, program: &mut Program) {
    program.constants = vec![random.pick(&[0x3F80_0000, 0x4980_0000, 0x7FC0_0000, 0x7F80_0000])];
    let mut writer = Writer::new(random, Opcodes::OfTheRust, program);
    writer.put(op::CONST, 0);
    for _ in 0..writer.random.between(0, 3) {
        let opcode = writer
            .random
            .pick(&[op::PUSH, op::PUSH_CONST, op::LOOP_BEGIN]);
        writer.put(opcode, 0);
    }
    if writer.random.once_in(2) {
        writer.put(op::HANDLER_PUSH, 0);
    }
    writer.put(op::LOOP_BEGIN, 1000);
    let body = writer.position();
    let pushes: &[u8] = writer.random.pick(&[
        &[op::PUSH],
        &[op::PUSH_CONST],
        &[op::PUSH, op::PUSH],
        &[op::PUSH, op::PUSH, op::PUSH],
    ]);
    for &opcode in pushes {
        writer.put(opcode, 0);
    }
    let back = writer.random.pick(&[
        op::LOOP_CHECK,
        op::LOOP_CHECK,
        op::LOOP_CHECK,
        op::LOOP_CHECK,
        op::JUMP,
    ]);
    writer.put(back, body);
    write_behind(&mut writer);
}

/// What takes from a full stack, and may cut it.
fn write_behind(writer: &mut Writer<'_>) {
    for _ in 0..writer.random.between(0, 4) {
        let opcode = writer.random.pick(&[
            op::PUSH,
            op::PUSH,
            op::PUSH,
            op::ADD_LAST,
            op::MUL,
            op::HANDLER_PUSH,
            op::LOOP_CHECK,
            op::LOOP_END,
        ]);
        writer.put(opcode, 0);
    }
    if writer.random.once_in(2) {
        writer.put(op::HANDLER_PUSH, 0);
    }
    if !writer.random.once_in(4) {
        writer.put(op::LOAD_TEMP, 0);
    }
}
