//! Random calls. A session keeps its cells and working stores over several calls, as the machine
//! under test leaves them; each call brings its own program, context and limits.

use calls::{Call, Cells, Lent, Limits, MOST_STACK, Post, Program, STEPS};

use crate::code::{Opcodes, Writer, deep_code};
use crate::plain::{self, Unwatched};
use crate::random::Random;

/// One call, whole: what is read and what is lent.
#[derive(Clone)]
pub struct Case {
    pub program: Program,
    pub call: Call,
    pub lent: Lent,
}

impl Case {
    /// The same call with another file.
    pub fn with_file(&self, file: Vec<u8>) -> Self {
        let mut case = self.clone();
        case.call.file = file;
        case
    }
}

/// The most charges of a run that is not deep.
const SHORT_RUN: u64 = 600;
const LONG_RUN: u64 = 6_000;
/// Enough for the stack cap by three records a push.
const DEEP_RUN: u64 = 300_000;

/// Numbers where the arithmetic has its edges.
const EDGES: [u32; 40] = [
    0x0000_0000, // +0.0
    0x8000_0000, // -0.0
    0x3F80_0000, // 1.0
    0xBF80_0000, // -1.0
    0x4000_0000, // 2.0
    0xC000_0000, // -2.0
    0x4040_0000, // 3.0
    0x4080_0000, // 4.0
    0xC080_0000, // -4.0
    0x3F00_0000, // 0.5
    0x3FC0_0000, // 1.5
    0x4020_0000, // 2.5
    0x3DCC_CCCD, // 0.1
    0x3EAA_AAAB, // 1/3
    0x4049_0FDB, // pi
    0xC2F6_E979, // -123.456
    0x7F80_0000, // infinity
    0xFF80_0000, // -infinity
    0x7FC0_0000, // the NaN that an operation makes
    0xFFC0_0000, // x86-64's
    0x7F80_0001, // signalling
    0xFF80_0001,
    0x7FC0_0001, // with a payload
    0x7FFF_FFFF,
    0xFFFF_FFFF,
    0x0000_0001, // the smallest subnormals
    0x8000_0001,
    0x007F_FFFF, // the largest subnormal
    0x0080_0000, // the smallest normal
    0x7F7F_FFFF, // the largest number
    0xFF7F_FFFF,
    0x3400_0000, // 2^-23 and its neighbours
    0x33FF_FFFF,
    0xB400_0000,
    0xB3FF_FFFF,
    0x3400_0001,
    0x4B80_0000, // 2^24 and its neighbours
    0x4B7F_FFFF,
    0x4B80_0001,
    0x4C00_0000, // 2^25
];

pub fn number(random: &mut Random) -> u32 {
    match random.weighted(&[5, 4, 3, 2]) {
        0 => random.pick(&EDGES),
        1 => (random.below(9) as f32 - 2.0).to_bits(),
        2 => (random.below(4001) as f32 / 64.0 - 30.0).to_bits(),
        _ => random.next() as u32,
    }
}

/// Magnitudes at which it tells how a number is made whole.
const WHOLE_EDGES: [u32; 24] = [
    0x0000_0000, // zero
    0x0000_0001, // the smallest subnormal
    0x007F_FFFF, // the largest
    0x0080_0000, // the smallest normal
    0x3EFF_FFFF, // 0.5 and its neighbours
    0x3F00_0000,
    0x3F00_0001,
    0x3F7F_FFFF, // 1.0 and its neighbours
    0x3F80_0000,
    0x3F80_0001,
    0x3FC0_0000, // 1.5
    0x4020_0000, // 2.5
    0x4A7F_FFFF, // 2^22 and its neighbours
    0x4A80_0000,
    0x4A80_0001,
    0x4AFF_FFFF, // 2^23 - 0.5
    0x4B00_0000, // 2^23
    0x4B00_0001,
    0x4B7F_FFFF, // 2^24 and its neighbours
    0x4B80_0000,
    0x4B80_0001,
    0x7F7F_FFFF, // the largest number
    0x7F80_0000, // infinity
    0x7FC0_0000, // NaN
];

/// A number of either sign at which it tells how it is made whole.
pub fn whole_edge(random: &mut Random) -> u32 {
    let magnitude = match random.weighted(&[4, 3, 2, 3]) {
        0 => random.pick(&WHOLE_EDGES),
        // A whole number, or a neighbour of one.
        1 => (random.between(1, 40) as f32).to_bits() + random.below(3) as u32 - 1,
        2 => (random.below(40) as f32 + 0.5).to_bits(),
        // From 2^-2 to below 2^25.
        _ => (random.between(125, 151) << 23) as u32 | random.next() as u32 >> 9,
    };
    magnitude | random.pick(&[0, 0x8000_0000])
}

/// A number for a call whose program has these opcodes.
fn number_for(random: &mut Random, opcodes: Opcodes) -> u32 {
    match opcodes {
        Opcodes::OfTheRust => number(random),
        _ if random.once_in(4) => whole_edge(random),
        _ => number(random),
    }
}

/// Hashes that can equal a number's bits, as those of `numbers` do, and others.
fn hash(random: &mut Random, numbers: &[u32]) -> u64 {
    match random.weighted(&[4, 2, 1, 2]) {
        0 => u64::from(random.pick(numbers)),
        1 => u64::from(random.pick(numbers)) | 1 << 32,
        2 => 0,
        _ => random.next(),
    }
}

pub fn post(random: &mut Random) -> Post {
    match random.weighted(&[2, 2, 6, 2]) {
        0 => Post::IDENTITY,
        1 => Post {
            offset: 0x8000_0000,
            ..Post::IDENTITY
        },
        2 => Post {
            scale: number(random),
            offset: number(random),
        },
        _ => Post {
            offset: number(random),
            ..Post::IDENTITY
        },
    }
}

pub fn cells(random: &mut Random, opcodes: Opcodes, count: usize) -> Cells {
    let mut cells = Cells::default();
    for _ in 0..count {
        let kind = random.weighted(&[2, 5, 2, 1]) as u8;
        cells.kinds.push(kind);
        cells.values.push(match kind {
            Cells::FLOAT => u64::from(number_for(random, opcodes)),
            Cells::HASH => hash(random, &EDGES),
            _ => random.next(),
        });
    }
    cells
}

/// What stays over the calls of a session.
struct Session {
    names: usize,
    deep: bool,
    lent: Lent,
    program: Program,
    calls_left: usize,
}

pub struct Generator {
    opcodes: Opcodes,
    random: Random,
    /// For the second limits: the calls are the same without them.
    limits: Random,
    session: Session,
}

impl Generator {
    /// Calls whose files are accepted.
    pub fn new(seed: u64) -> Self {
        Self::with(Opcodes::Accepted, seed)
    }

    /// Calls with stored files, which are converted first.
    pub fn of_stored(seed: u64) -> Self {
        Self::with(Opcodes::Stored, seed)
    }

    /// The same for the comparison with the Rust: it draws no opcode that the Rust lacks.
    pub fn of_the_rust(seed: u64) -> Self {
        Self::with(Opcodes::OfTheRust, seed)
    }

    fn with(opcodes: Opcodes, seed: u64) -> Self {
        let mut random = Random::new(seed);
        let session = Session::new(&mut random, opcodes);
        Self {
            opcodes,
            random,
            limits: Random::new(!seed),
            session,
        }
    }

    /// The next call, under two limits: the smaller is the one that it has from [`Self::next`].
    pub fn next_under_two(&mut self) -> Case {
        let mut case = self.next();
        let limits = two_limits(&mut self.limits, case.call.step_limit);
        case.call.set_limits(limits);
        case
    }

    /// The next call, over the stores that [`Self::carry_on`] left. It has no house limit.
    pub fn next(&mut self) -> Case {
        if self.session.calls_left == 0 {
            self.session = Session::new(&mut self.random, self.opcodes);
        }
        self.session.calls_left -= 1;
        let random = &mut self.random;
        let Session { names, deep, .. } = self.session;
        if !random.once_in(4) {
            self.session.program = program(random, self.opcodes, names, deep);
        }
        let program = self.session.program.clone();
        let mut call = Call {
            file: program.encode(),
            context: cells(random, self.opcodes, names),
            this: number_for(random, self.opcodes),
            step_limit: None,
            loop_limit: loop_limit(random, deep),
            house_limit: None,
        };
        call.step_limit = step_limit(random, &call, &self.session);
        Case {
            program,
            call,
            lent: self.session.lent.clone(),
        }
    }

    /// Takes the stores as the last call left them into the next one.
    pub fn carry_on(&mut self, lent: Lent) {
        self.session.lent = lent;
    }
}

impl Session {
    fn new(random: &mut Random, opcodes: Opcodes) -> Self {
        let deep = random.once_in(500);
        let names = match random.weighted(&[2, 60, 1]) {
            0 => 0,
            1 => random.between(1, 5),
            _ => 256,
        };
        let stack_room = match random.weighted(&[50, 30, 20]) {
            _ if deep => random.pick(&[MOST_STACK, MOST_STACK, 65_538, 65_537, 65_536, 60_000]),
            0 => 64,
            1 => random.between(5, 200),
            _ => random.between(0, 8),
        };
        let small_room = |random: &mut Random| match random.weighted(&[50, 20, 15]) {
            0 => 64,
            1 => random.between(4, 64),
            _ => random.between(0, 3),
        };
        let loop_room = small_room(random);
        let handler_room = small_room(random);
        Self {
            names,
            deep,
            lent: Lent {
                cells: cells(random, opcodes, names),
                stack: vec![random.next() as u32; stack_room],
                loops: vec![random.next() as u32; loop_room],
                handlers: vec![random.next(); handler_room],
            },
            program: program(random, opcodes, names, deep),
            calls_left: random.between(1, if deep { 3 } else { 12 }),
        }
    }
}

fn program(random: &mut Random, opcodes: Opcodes, names: usize, deep: bool) -> Program {
    let large = random.once_in(100);
    let size = |random: &mut Random, few: usize, most: usize| match large {
        true => random.between(few, most),
        false => random.below(few),
    };
    let constants = 1 + size(random, 10, 4095);
    let posts = size(random, 6, 1023);
    let hashes = size(random, 5, 256);
    let constants: Vec<u32> = (0..constants)
        .map(|_| number_for(random, opcodes))
        .collect();
    let mut program = Program {
        names: names as u16,
        temps: random.between(0, 8) as u16,
        posts: vec![Post::IDENTITY],
        hashes: (0..hashes).map(|_| hash(random, &constants)).collect(),
        constants,
        records: Vec::new(),
    };
    program.posts.extend((0..posts).map(|_| post(random)));
    if deep {
        deep_code(random, &mut program);
    } else {
        Writer::new(random, opcodes, &mut program).write();
    }
    program
}

fn loop_limit(random: &mut Random, deep: bool) -> Option<u32> {
    match random.weighted(&[8, 2, 2, 5, 3, 1]) {
        3..=5 if deep => Some(random.between(65_530, 65_537) as u32),
        0 => None,
        1 => Some(0),
        2 => Some(1),
        3 => Some(random.between(2, 4) as u32),
        4 => Some(random.between(5, 60) as u32),
        _ => Some(u32::MAX),
    }
}

/// A limit near the run's own charges, or none where the run ends by itself.
fn step_limit(random: &mut Random, call: &Call, session: &Session) -> Option<u64> {
    let enough = match session.deep {
        true => DEEP_RUN,
        false if random.once_in(64) => LONG_RUN,
        false => SHORT_RUN,
    };
    let charges = charges_within(call, &session.lent, enough);
    let below = |random: &mut Random, bound: u64| random.next() % bound;
    match (charges, random.weighted(&[10, 2, 4, 3, 3, 3])) {
        (None, 0..=2) => Some(enough),
        (None, _) => Some(below(random, enough)),
        (Some(_), 0) => None,
        (Some(_), 1) => Some(u64::MAX),
        (Some(charges), 2) => Some(charges),
        (Some(charges), 3) => Some(charges.saturating_sub(1)),
        (Some(charges), 4) => Some(charges + below(random, 4)),
        (Some(charges), _) => Some(below(random, charges + 1)),
    }
}

/// Two limits whose smaller one is the given one.
pub fn two_limits(random: &mut Random, limit: Option<u64>) -> Limits {
    let above = |more: u64| limit.map(|limit| limit.saturating_add(more));
    let other = match random.weighted(&[3, 2, 2, 3, 2]) {
        0 => None,
        1 => Some(u64::MAX),
        2 => limit,
        3 => above(random.between(1, 20) as u64),
        _ => above(random.next() >> random.below(64)),
    };
    match random.once_in(2) {
        true => [limit, other],
        false => [other, limit],
    }
}

/// The charges that a call makes without a limit on the machine as it was, if they are no more than
/// `enough`.
pub fn charges_within(call: &Call, lent: &Lent, enough: u64) -> Option<u64> {
    let call = Call {
        step_limit: Some(enough),
        house_limit: None,
        ..call.clone()
    };
    let reply = plain::run_as_it_was(&call, &mut lent.clone(), &mut Unwatched);
    let end = reply.account.end;
    let ended = reply.refusal == 0 && end.outcome != STEPS;
    ended.then_some(end.charges)
}
