//! A plain reading of document 01, the reader and the machine, in the document's words and order,
//! with document 02's house limit, empty pops, one NaN, withdrawal of HostMath and whole numbers. A
//! number is its bit pattern.

use calls::{
    Account, Call, Cells, Conversion, Depths, End, LAST_OPCODE, Lent, MADE_NAN, MOST_HANDLERS,
    MOST_LOOPS, MOST_STACK, Notices, Post, Program, Record, Remainders, Reply, is_nan, most_choice,
    op, pack_handler, uses,
};

/// Looks on while a run is made.
pub trait Watch {
    /// The fetch at a position falls due.
    fn fetch_due(&mut self, _position: u64) {}
    /// A charge falls due.
    fn due(&mut self, _machine: &Machine) {}
    /// A record has been fetched and is about to act.
    fn acts(&mut self, _machine: &Machine, _record: Record) {}
}

/// Looks away.
pub struct Unwatched;

impl Watch for Unwatched {}

// The file.

/// For whom a file is read: HostMath is withdrawn, and the converter alone still meets it.
#[derive(Copy, Clone, PartialEq)]
enum Reader {
    Machine,
    Converter,
}

/// 0 for an accepted file, otherwise its refusal, 1 to 9 or 14.
pub fn check(file: &[u8]) -> u32 {
    read(file).err().unwrap_or(0)
}

/// The program in a file, or the file's refusal.
pub fn read(file: &[u8]) -> Result<Program, u32> {
    read_for(Reader::Machine, file)
}

/// The program in a stored file, or what the converter sends the file back for: 1 to 9 or 15.
pub fn read_stored(file: &[u8]) -> Result<Program, u32> {
    read_for(Reader::Converter, file)
}

fn read_for(reader: Reader, file: &[u8]) -> Result<Program, u32> {
    let program = fields(file)?;
    let mut records = program.records.iter();
    records.try_for_each(|r| check_record(reader, &program, *r))?;
    Ok(program)
}

/// Converts a stored file in its own bytes; one that is sent back keeps them.
pub fn convert(file: &mut [u8]) -> Conversion {
    let mut program = match read_stored(file) {
        Ok(program) => program,
        Err(refusal) => {
            return Conversion {
                refusal,
                records: 0,
            };
        }
    };
    let mut records = 0;
    for (at, record) in program.records.iter_mut().enumerate() {
        if record.opcode == op::HOST_MATH {
            *record = pointer_enter(at as u32 + 1);
            records += 1;
        }
    }
    file.copy_from_slice(&program.encode());
    Conversion {
        refusal: 0,
        records,
    }
}

/// PointerEnter under post 0.
fn pointer_enter(target: u32) -> Record {
    Record {
        opcode: op::POINTER_ENTER,
        choice: 0,
        post: 0,
        argument: target,
    }
}

/// The fields of a file, its records unchecked.
fn fields(file: &[u8]) -> Result<Program, u32> {
    let mut rest = file;
    let counts = field(&mut rest, 1, 4, 1..=1)?;
    let (names, temps) = (u16_at(counts, 0), u16_at(counts, 2));
    if names > 256 || temps > 8 {
        return Err(5);
    }
    let constants = field(&mut rest, 2, 4, 0..=4096)?;
    let posts = field(&mut rest, 3, 8, 0..=1024)?;
    let posts: Vec<Post> = posts.chunks(8).map(post_in).collect();
    if posts.first() != Some(&Post::IDENTITY) {
        return Err(6);
    }
    let hashes = field(&mut rest, 4, 8, 0..=256)?;
    let records = field(&mut rest, 5, 8, 0..=4096)?;
    if !rest.is_empty() {
        return Err(4);
    }
    Ok(Program {
        names,
        temps,
        constants: constants.chunks(4).map(|c| u32_at(c, 0)).collect(),
        posts,
        hashes: hashes.chunks(8).map(u64_in).collect(),
        records: records.chunks(8).map(record_in).collect(),
    })
}

/// The body of the next field: a tag, a length of a legal count of entries, and that many bytes.
fn field<'a>(
    rest: &mut &'a [u8],
    tag: u8,
    size: usize,
    counts: std::ops::RangeInclusive<usize>,
) -> Result<&'a [u8], u32> {
    let (&[found], after) = rest.split_first_chunk().ok_or(1u32)?;
    if found != tag {
        return Err(2);
    }
    let (&length, after) = after.split_first_chunk().ok_or(1u32)?;
    let length = usize::from(u16::from_le_bytes(length));
    if length % size != 0 || !counts.contains(&(length / size)) {
        return Err(3);
    }
    let (body, after) = after.split_at_checked(length).ok_or(1u32)?;
    *rest = after;
    Ok(body)
}

fn check_record(reader: Reader, program: &Program, record: Record) -> Result<(), u32> {
    let Record {
        opcode,
        choice,
        post,
        argument,
    } = record;
    if opcode == 0 || opcode > LAST_OPCODE {
        return Err(7);
    }
    if opcode == op::HOST_MATH && reader == Reader::Machine {
        return Err(14);
    }
    let uses_any = |parts: &str| parts.chars().any(|part| uses(opcode, part));
    let stray_post = post != 0 && !uses_any("pNT");
    let stray_argument = argument != 0 && !uses_any("chntjq");
    if choice > most_choice(opcode) || stray_post || stray_argument {
        return Err(8);
    }
    let (post, argument) = (usize::from(post), argument as usize);
    let (names, temps) = (usize::from(program.names), usize::from(program.temps));
    let indices = [
        ('c', argument, program.constants.len()),
        ('h', argument, program.hashes.len()),
        ('n', argument, names),
        ('t', argument, temps),
        ('p', post, program.posts.len()),
        ('N', post, names),
        ('T', post, temps),
    ];
    let outside = |&(part, index, count)| index >= count && uses(opcode, part);
    if indices.iter().any(outside) {
        return Err(9);
    }
    if opcode == op::HOST_MATH && choice > 1 {
        return Err(15);
    }
    Ok(())
}

fn u16_at(bytes: &[u8], at: usize) -> u16 {
    u16::from_le_bytes([bytes[at], bytes[at + 1]])
}

fn u32_at(bytes: &[u8], at: usize) -> u32 {
    u32::from(u16_at(bytes, at)) | u32::from(u16_at(bytes, at + 2)) << 16
}

fn u64_in(bytes: &[u8]) -> u64 {
    u64::from(u32_at(bytes, 0)) | u64::from(u32_at(bytes, 4)) << 32
}

fn post_in(bytes: &[u8]) -> Post {
    Post {
        scale: u32_at(bytes, 0),
        offset: u32_at(bytes, 4),
    }
}

fn record_in(bytes: &[u8]) -> Record {
    Record {
        opcode: bytes[0],
        choice: bytes[1],
        post: u16_at(bytes, 2),
        argument: u32_at(bytes, 4),
    }
}

/// Refusal 10, for a call whose file is accepted.
fn refuses_call(program: &Program, call: &Call, lent: &Lent) -> bool {
    let names = usize::from(program.names);
    refuses_cells(&lent.cells, names)
        || refuses_cells(&call.context, names)
        || lent.stack.len() > MOST_STACK
        || lent.loops.len() > MOST_LOOPS
        || lent.handlers.len() > MOST_HANDLERS
}

fn refuses_cells(cells: &Cells, names: usize) -> bool {
    let illegal = |(&kind, &value): (&u8, &u64)| {
        kind > Cells::OTHER || kind == Cells::FLOAT && value > u64::from(u32::MAX)
    };
    cells.kinds.len() != names
        || cells.values.len() != names
        || cells.kinds.iter().zip(&cells.values).any(illegal)
}

// Arithmetic.

fn number(bits: u32) -> f32 {
    f32::from_bits(bits)
}

/// The bits of a number that an operation made.
fn made(x: f32) -> u32 {
    if x.is_nan() { MADE_NAN } else { x.to_bits() }
}

/// A number that enters: every NaN is the one that operations make.
fn entered(bits: u32) -> u32 {
    if is_nan(bits) { MADE_NAN } else { bits }
}

fn add(a: u32, b: u32) -> u32 {
    made(number(a) + number(b))
}

fn subtract(a: u32, b: u32) -> u32 {
    made(number(a) - number(b))
}

fn multiply(a: u32, b: u32) -> u32 {
    made(number(a) * number(b))
}

fn divide(a: u32, b: u32) -> u32 {
    made(number(a) / number(b))
}

fn remainder(a: u32, b: u32) -> u32 {
    made(number(a) % number(b))
}

fn truth(bits: u32) -> bool {
    number(bits) != 0.0
}

fn magnitude(bits: u32) -> u32 {
    bits & 0x7FFF_FFFF
}

fn is_identity(post: Post) -> bool {
    number(post.scale) == 1.0 && number(post.offset) == 0.0
}

fn posted(post: Post, bits: u32) -> u32 {
    if is_identity(post) {
        bits
    } else {
        scaled(post, bits)
    }
}

/// Product, then sum, whatever the post.
fn scaled(post: Post, bits: u32) -> u32 {
    add(multiply(bits, post.scale), post.offset)
}

fn negated(post: Post, bits: u32) -> u32 {
    if is_identity(post) {
        entered(bits ^ 0x8000_0000)
    } else {
        subtract(post.offset, multiply(bits, post.scale))
    }
}

fn picked(post: Post, condition: bool) -> u32 {
    if condition {
        add(post.scale, post.offset)
    } else {
        false_value(post)
    }
}

/// The offset, which enters.
fn false_value(post: Post) -> u32 {
    entered(post.offset)
}

fn compares(choice: u8, a: u32, b: u32) -> bool {
    let (a, b) = (number(a), number(b));
    match choice {
        0 => a < b,
        1 => a <= b,
        2 => a >= b,
        _ => a > b,
    }
}

/// Eq is choice 0, Ne choice 1.
fn equates(choice: u8, equal: bool) -> bool {
    equal == (choice == 0)
}

// Whole numbers.

const SIGN: u32 = 0x8000_0000;
/// From 2^23 on every number is whole.
const ALL_WHOLE: u32 = 0x4B00_0000;
const TWO_TO_23: i32 = 8_388_608;

/// What Floor, Ceil, Trunc or Abs gives of a number, before its post. NaN gives 7FC00000 in all four.
pub fn whole(opcode: u8, bits: u32) -> u32 {
    if is_nan(bits) {
        return MADE_NAN;
    }
    match opcode {
        op::FLOOR => made_whole(bits, greatest_not_above),
        op::CEIL => made_whole(bits, least_not_below),
        op::TRUNC => made_whole(bits, one_towards_zero),
        // Abs.
        _ => magnitude(bits),
    }
}

/// Infinities pass, and whatever else is whole by its size; a zero has the sign of the input.
fn made_whole(bits: u32, whole: impl Fn(f32) -> i32) -> u32 {
    if magnitude(bits) >= ALL_WHOLE {
        return bits;
    }
    match whole(number(bits)) {
        0 => bits & SIGN,
        whole => (whole as f32).to_bits(),
    }
}

/// The greatest whole number not above `x`, by halves of what lies between -2^23 and 2^23.
fn greatest_not_above(x: f32) -> i32 {
    let (mut greatest, mut above) = (-TWO_TO_23, TWO_TO_23);
    while greatest + 1 < above {
        let middle = (greatest + above) / 2;
        if middle as f32 <= x {
            greatest = middle;
        } else {
            above = middle;
        }
    }
    greatest
}

/// The least whole number not below `x`.
fn least_not_below(x: f32) -> i32 {
    let (mut below, mut least) = (-TWO_TO_23, TWO_TO_23);
    while below + 1 < least {
        let middle = (below + least) / 2;
        if middle as f32 >= x {
            least = middle;
        } else {
            below = middle;
        }
    }
    least
}

fn one_towards_zero(x: f32) -> i32 {
    if x < 0.0 {
        least_not_below(x)
    } else {
        greatest_not_above(x)
    }
}

// The run.

const ONE: u32 = 0x3F80_0000;
const TWO_TO_MINUS_23: f32 = 1.0 / 8_388_608.0;
const CAP: usize = 65_536;

/// How a run ends: its outcome, and the position that is handed over.
type Stop = (u32, u64);

const fn stop(outcome: u32) -> Stop {
    (outcome, 0)
}

pub struct Handler {
    target: u32,
    stack_mark: usize,
    loop_mark: usize,
}

/// The state of a run. The working stores are lists, with the rooms that were lent beside them.
pub struct Machine<'a> {
    program: &'a Program,
    call: &'a Call,
    stack_room: usize,
    loop_room: usize,
    handler_room: usize,
    pub accumulator: u32,
    pub stack: Vec<u32>,
    pub loops: Vec<u32>,
    pub handlers: Vec<Handler>,
    temps: [Option<u32>; 8],
    cells: Cells,
    /// What is left of both limits.
    left: Remainders,
    pub charges: u64,
    notices: Notices,
    empty_pops: u64,
}

/// Both limits as a call brings them: none counts as 2^64 - 1.
fn limits(call: &Call) -> Remainders {
    Remainders {
        guest: call.step_limit.unwrap_or(u64::MAX),
        house: call.house_limit.unwrap_or(u64::MAX),
    }
}

/// The answer to a call that is sent back: nothing is taken from either limit.
fn refused(refusal: u32, call: &Call) -> Reply {
    Reply {
        refusal,
        account: Account {
            remainders: limits(call),
            ..Account::default()
        },
    }
}

/// A whole call.
pub fn run(call: &Call, lent: &mut Lent, watch: &mut dyn Watch) -> Reply {
    run_for(Reader::Machine, call, lent, watch)
}

/// A whole call of the machine as it was, with a file of the converter's: HostMath has its own clause.
pub fn run_as_it_was(call: &Call, lent: &mut Lent, watch: &mut dyn Watch) -> Reply {
    run_for(Reader::Converter, call, lent, watch)
}

fn run_for(reader: Reader, call: &Call, lent: &mut Lent, watch: &mut dyn Watch) -> Reply {
    match read_for(reader, &call.file) {
        Err(refusal) => refused(refusal, call),
        Ok(program) if refuses_call(&program, call, lent) => refused(10, call),
        Ok(program) => {
            let mut machine = Machine::new(&program, call, lent);
            let stop = machine.run(watch);
            *lent = machine.stores();
            machine.account(stop)
        }
    }
}

impl<'a> Machine<'a> {
    fn new(program: &'a Program, call: &'a Call, lent: &Lent) -> Self {
        Self {
            program,
            call,
            stack_room: lent.stack.len(),
            loop_room: lent.loops.len(),
            handler_room: lent.handlers.len(),
            accumulator: 0,
            stack: Vec::new(),
            loops: Vec::new(),
            handlers: Vec::new(),
            temps: [None; 8],
            cells: lent.cells.clone(),
            left: limits(call),
            charges: 0,
            notices: Notices::default(),
            empty_pops: 0,
        }
    }

    fn run(&mut self, watch: &mut dyn Watch) -> Stop {
        let mut position = 0;
        loop {
            match self.fetch_and_act(position, watch) {
                Ok(next) => position = next,
                Err(stop) => return stop,
            }
        }
    }

    fn fetch_and_act(&mut self, position: u64, watch: &mut dyn Watch) -> Result<u64, Stop> {
        watch.fetch_due(position);
        self.charge(watch)?;
        let record = self.record(position).ok_or(stop(calls::DONE))?;
        watch.acts(self, record);
        match record.opcode {
            op::CONST..=op::STORE_TEMP => self.load_or_store(record, position),
            op::PUSH..=op::HOST_MATH => self.compute(record, position, watch),
            op::CMP..=op::OR_LAST => Ok(self.judge(record, position)),
            op::JUMP..=op::CALL => self.go(record, position),
            op::LOOP_BEGIN..=op::END => self.loop_or_end(record, position),
            // Floor, Ceil, Trunc and Abs.
            _ => Ok(self.make_whole(record, position)),
        }
    }

    fn record(&self, position: u64) -> Option<Record> {
        let index = usize::try_from(position).ok()?;
        self.program.records.get(index).copied()
    }

    /// A charge succeeds only if both are above zero, and takes one from each.
    fn charge(&mut self, watch: &mut dyn Watch) -> Result<(), Stop> {
        watch.due(self);
        let Remainders { guest, house } = &mut self.left;
        if *guest == 0 || *house == 0 {
            return Err(stop(calls::STEPS));
        }
        *guest -= 1;
        *house -= 1;
        self.charges += 1;
        Ok(())
    }

    fn push(&mut self, bits: u32) -> Result<(), Stop> {
        if self.stack.len() >= self.stack_room {
            return Err(stop(calls::FULL_STORE));
        }
        self.stack.push(bits);
        Ok(())
    }

    /// Takes an operand: +0.0 where none is there, which is counted.
    fn pop(&mut self) -> u32 {
        if self.stack.is_empty() {
            self.empty_pops = self.empty_pops.saturating_add(1);
        }
        self.stack.pop().unwrap_or(0)
    }

    fn constant(&self, record: Record) -> u32 {
        entered(self.program.constants[record.argument as usize])
    }

    fn post(&self, record: Record) -> Post {
        self.program.posts[usize::from(record.post)]
    }

    fn load_or_store(&mut self, record: Record, position: u64) -> Result<u64, Stop> {
        let post = self.post(record);
        let index = record.argument as usize;
        match record.opcode {
            op::CONST => self.accumulator = self.constant(record),
            op::THIS => self.accumulator = posted(post, entered(self.call.this)),
            op::LOAD_VAR => {
                let cell = (self.cells.kinds[index], self.cells.values[index]);
                return self.load(record, position, cell);
            }
            op::LOAD_TEMP => match self.temps[index] {
                Some(bits) => self.accumulator = posted(post, bits),
                None => return self.missing_value(),
            },
            op::LOAD_CTX => {
                let context = &self.call.context;
                let cell = (context.kinds[index], context.values[index]);
                return self.load(record, position, cell);
            }
            op::MEMBER => {
                self.notices.missing_member += 1;
                return self.missing_value();
            }
            op::STORE_VAR => {
                self.cells.kinds[index] = Cells::FLOAT;
                self.cells.values[index] = u64::from(self.accumulator);
                self.accumulator = posted(post, self.accumulator);
            }
            op::STORE_TEMP => {
                self.temps[index] = Some(self.accumulator);
                self.accumulator = posted(post, self.accumulator);
            }
            // Hash and Resource.
            _ => return Err((calls::HANDED_OVER, position)),
        }
        Ok(position + 1)
    }

    /// A cell's number goes to the accumulator, posted; a hash and other have one only under
    /// another post than post 0.
    fn load(&mut self, record: Record, position: u64, cell: (u8, u64)) -> Result<u64, Stop> {
        let bits = match cell {
            (Cells::MISSING, _) => return self.missing_value(),
            (Cells::FLOAT, value) => entered(value as u32),
            _ if record.post == 0 => return Err((calls::HANDED_OVER, position)),
            (Cells::HASH, value) => entered(value as u32),
            _ => 0,
        };
        self.accumulator = posted(self.post(record), bits);
        Ok(position + 1)
    }

    fn missing_value(&mut self) -> Result<u64, Stop> {
        let handler = self.handlers.pop().ok_or(stop(calls::MISSING_VALUE))?;
        self.stack.truncate(handler.stack_mark);
        self.loops.truncate(handler.loop_mark);
        self.accumulator = 0;
        Ok(u64::from(handler.target))
    }

    fn compute(
        &mut self,
        record: Record,
        position: u64,
        watch: &mut dyn Watch,
    ) -> Result<u64, Stop> {
        match record.opcode {
            op::PUSH => self.push(self.accumulator)?,
            op::PUSH_CONST => {
                self.push(self.accumulator)?;
                self.charge(watch)?;
                self.accumulator = self.constant(record);
            }
            op::ADD_ACC => {
                if let Some(top) = self.stack.last_mut() {
                    *top = add(*top, self.accumulator);
                }
            }
            op::DIV_GUARD => return self.guard_division(record, position),
            op::HOST_MATH => {
                let arguments = record.choice.min(8);
                for _ in 1..arguments {
                    self.pop();
                }
                self.accumulator = 0;
            }
            _ => self.accumulator = self.result(record),
        }
        Ok(position + 1)
    }

    /// The arithmetic that ends in the accumulator, posted.
    fn result(&mut self, record: Record) -> u32 {
        let post = self.post(record);
        let accumulator = self.accumulator;
        match record.opcode {
            op::NEGATE => negated(post, accumulator),
            op::NOT => picked(post, !truth(accumulator)),
            op::ADD_LAST => posted(post, add(self.pop(), accumulator)),
            op::MUL => posted(post, multiply(self.pop(), accumulator)),
            op::DIV => posted(post, divide(accumulator, self.pop())),
            op::MOD => match self.pop() {
                _ if !truth(accumulator) => false_value(post),
                popped => scaled(post, remainder(popped, accumulator)),
            },
            // ModConst.
            _ => scaled(post, remainder(accumulator, self.constant(record))),
        }
    }

    fn guard_division(&mut self, record: Record, position: u64) -> Result<u64, Stop> {
        let absolute = magnitude(self.accumulator);
        if number(absolute) < TWO_TO_MINUS_23 {
            self.accumulator = 0;
            return Ok(u64::from(record.argument));
        }
        let signed = record.choice == 0;
        let divisor = if signed { self.accumulator } else { absolute };
        self.push(entered(divisor))?;
        Ok(position + 1)
    }

    /// The records that pick true or false.
    fn judge(&mut self, record: Record, position: u64) -> u64 {
        let post = self.post(record);
        let accumulator = self.accumulator;
        let choice = record.choice;
        let condition = match record.opcode {
            op::CMP => compares(choice, self.pop(), accumulator),
            op::CMP_CONST => compares(choice, accumulator, self.constant(record)),
            op::EQ => equates(choice, number(self.pop()) == number(accumulator)),
            op::EQ_CONST => equates(choice, number(accumulator) == number(self.constant(record))),
            op::EQ_HASH => {
                let hash = self.program.hashes[record.argument as usize];
                equates(choice, u64::from(accumulator) == hash)
            }
            // AndStep goes on with a true accumulator, OrStep with a false one.
            op::AND_STEP if truth(accumulator) => return position + 1,
            op::OR_STEP if !truth(accumulator) => return position + 1,
            // AndLast and OrLast too.
            _ => truth(accumulator),
        };
        self.accumulator = picked(post, condition);
        match record.opcode {
            op::AND_STEP | op::OR_STEP => u64::from(record.argument),
            _ => position + 1,
        }
    }

    fn go(&mut self, record: Record, position: u64) -> Result<u64, Stop> {
        let post = self.post(record);
        let target = u64::from(record.argument);
        match record.opcode {
            op::JUMP => return Ok(target),
            op::JUMP_IF_FALSY if !truth(self.accumulator) => return Ok(target),
            op::JUMP_IF_FALSY => {}
            op::POST => self.accumulator = posted(post, self.accumulator),
            op::HANDLER_PUSH => self.push_handler(record.argument)?,
            op::HANDLER_POP => {
                self.handlers.pop();
                return Ok(target);
            }
            op::POINTER_ENTER => {
                self.accumulator = posted(post, 0);
                return Ok(target);
            }
            op::POINTER_LEAVE => {
                self.notices.access_underflow += 1;
                self.accumulator = posted(post, self.accumulator);
            }
            // Call.
            _ => return Err((calls::HANDED_OVER, position)),
        }
        Ok(position + 1)
    }

    fn push_handler(&mut self, target: u32) -> Result<(), Stop> {
        if self.handlers.len() >= self.handler_room {
            return Err(stop(calls::FULL_STORE));
        }
        self.handlers.push(Handler {
            target,
            stack_mark: self.stack.len(),
            loop_mark: self.loops.len(),
        });
        Ok(())
    }

    fn loop_or_end(&mut self, record: Record, position: u64) -> Result<u64, Stop> {
        match record.opcode {
            op::LOOP_BEGIN => self.begin_loop(record, position),
            op::LOOP_CHECK => self.check_loop(record, position),
            op::LOOP_END => {
                if self.loops.pop().is_some() {
                    self.pop();
                }
                Ok(position + 1)
            }
            op::EACH_BEGIN => Ok(self.begin_each(record)),
            op::RETURN => {
                self.accumulator = posted(self.post(record), self.accumulator);
                Err(stop(calls::DONE))
            }
            op::HALT => {
                self.accumulator = 0;
                Err(stop(calls::DONE))
            }
            op::END => Err(stop(calls::DONE)),
            // EachNextVar and EachNextTemp.
            _ => Err((calls::HANDED_OVER, position)),
        }
    }

    fn begin_loop(&mut self, record: Record, position: u64) -> Result<u64, Stop> {
        let count = self.accumulator;
        if number(count) <= 0.0 {
            return Ok(u64::from(record.argument));
        }
        let full = self.stack.len() >= self.stack_room || self.loops.len() >= self.loop_room;
        if full {
            return Err(stop(calls::FULL_STORE));
        }
        self.stack.push(subtract(count, ONE));
        self.loops.push(1);
        Ok(position + 1)
    }

    fn check_loop(&mut self, record: Record, position: u64) -> Result<u64, Stop> {
        if self.stack.len() > CAP {
            return Err(stop(calls::STACK_CAP));
        }
        let (Some(top), Some(passes)) = (self.stack.last_mut(), self.loops.last_mut()) else {
            return Ok(position + 1);
        };
        if number(*top) <= 0.0 {
            return Ok(position + 1);
        }
        if let Some(limit) = self.call.loop_limit {
            if limit <= *passes {
                self.notices.loop_limit = 1;
                return Ok(position + 1);
            }
            *passes += 1;
        }
        *top = subtract(*top, ONE);
        Ok(u64::from(record.argument))
    }

    fn begin_each(&mut self, record: Record) -> u64 {
        let target = u64::from(record.argument);
        let opcode = |position| self.record(position).map(|r| r.opcode);
        let next = match (opcode(target + 1), opcode(target + 2)) {
            (None | Some(op::HALT | op::END), _) => target + 1,
            (Some(op::CONST), Some(op::STORE_VAR | op::STORE_TEMP)) => target + 3,
            _ => target + 2,
        };
        if let Some(constant) = self.record(target).filter(|r| r.opcode == op::CONST) {
            self.accumulator = self.constant(constant);
        }
        next
    }

    /// The accumulator's whole number or magnitude, and then the post.
    fn make_whole(&mut self, record: Record, position: u64) -> u64 {
        let whole = whole(record.opcode, self.accumulator);
        self.accumulator = posted(self.post(record), whole);
        position + 1
    }

    /// The lent stores as they stand: the lists, and zeros above them.
    pub fn stores(&self) -> Lent {
        let packed = |h: &Handler| pack_handler(h.target, h.stack_mark, h.loop_mark);
        Lent {
            cells: self.cells.clone(),
            stack: stored(self.stack.iter().copied(), self.stack_room),
            loops: stored(self.loops.iter().copied(), self.loop_room),
            handlers: stored(self.handlers.iter().map(packed), self.handler_room),
        }
    }

    /// The account of a run that ends so.
    pub fn account(&self, (outcome, position): Stop) -> Reply {
        let done = outcome == calls::DONE;
        let end = End {
            outcome,
            value: if done { self.accumulator } else { 0 },
            position,
            charges: self.charges,
            accumulator: self.accumulator,
            depths: Depths {
                stack: self.stack.len() as u64,
                loops: self.loops.len() as u64,
                handlers: self.handlers.len() as u64,
            },
            notices: self.notices,
            empty_pops: self.empty_pops,
            temps: self.temps.into(),
        };
        Reply {
            refusal: 0,
            account: Account {
                end,
                remainders: self.left,
            },
        }
    }
}

fn stored<T: Copy + Default>(entries: impl Iterator<Item = T>, room: usize) -> Vec<T> {
    let mut store = Vec::with_capacity(room);
    store.extend(entries);
    store.resize(room, T::default());
    store
}
