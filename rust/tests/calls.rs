//! Calls through the safe types, each held to documents 01 and 02.

mod files;

use std::thread;

use files::{e, op, program};
use nimbohaza::{
    Account, Cell, Cells, Depths, Float, House, Limits, Notices, Outcome, Program, Remainders,
    Stores, Studio,
};

const CONST: u8 = 1;
const HASH: u8 = 2;
const THIS: u8 = 4;
const LOAD_VAR: u8 = 5;
const LOAD_CTX: u8 = 7;
const MEMBER: u8 = 8;
const STORE_VAR: u8 = 9;
const STORE_TEMP: u8 = 10;
const PUSH: u8 = 11;
const PUSH_CONST: u8 = 12;
const ADD_LAST: u8 = 16;
const MUL: u8 = 17;
const MOD_CONST: u8 = 21;
const JUMP: u8 = 32;
const POST: u8 = 34;
const HANDLER_PUSH: u8 = 35;
const POINTER_LEAVE: u8 = 38;
const LOOP_BEGIN: u8 = 40;
const LOOP_CHECK: u8 = 41;
const LOOP_END: u8 = 42;
const END: u8 = 48;
const FLOOR: u8 = 49;
const CEIL: u8 = 50;
const TRUNC: u8 = 51;
const ABS: u8 = 52;

const SUM: [[u8; 8]; 3] = [op(PUSH_CONST, 0, 0), op(ADD_LAST, 0, 0), op(END, 0, 0)];

const LOOP: [[u8; 8]; 6] = [
    op(CONST, 0, 0),
    op(LOOP_BEGIN, 0, 5),
    op(POST, 0, 0),
    op(LOOP_CHECK, 0, 2),
    op(LOOP_END, 0, 0),
    op(END, 0, 0),
];

/// The account of a run without limits that leaves no depths, temps, notices or empty pops, and +0.0.
fn plain(outcome: Outcome, charges: u64) -> Account {
    Account {
        outcome,
        value: Float::from_bits(0),
        charges,
        accumulator: Float::from_bits(0),
        depths: Depths::default(),
        temps: [None; 8],
        notices: Notices::default(),
        empty_pops: 0,
        remainders: Remainders {
            guest: u64::MAX - charges,
            house: u64::MAX - charges,
        },
    }
}

fn done(bits: u32, charges: u64, loop_limit: u64) -> Account {
    Account {
        value: Float::from_bits(bits),
        accumulator: Float::from_bits(bits),
        notices: Notices {
            loop_limit,
            ..Notices::default()
        },
        ..plain(Outcome::Done, charges)
    }
}

fn steps(n: u64) -> Limits {
    Limits {
        steps: Some(n),
        loops: None,
    }
}

fn loops(n: u32) -> Limits {
    Limits {
        steps: None,
        loops: Some(n),
    }
}

/// A run with missing cells in Studio's stores, which it leaves cleared.
#[track_caller]
fn expect(constants: &[u32], records: &[[u8; 8]], limits: Limits, mut wanted: Account) {
    wanted.remainders.guest = limits.steps.unwrap_or(u64::MAX) - wanted.charges;
    let file = program(constants, records);
    let (mut cells, mut stores) = (Cells::new(), Studio::new());
    let account = Program::check(&file).expect("a legal file").run(
        &mut cells,
        &Cells::new(),
        Float::from(0.0),
        limits,
        &mut stores,
    );
    assert_eq!(account, wanted);
    assert_eq!(cells, Cells::new());
    assert_eq!(stores, Studio::new());
}

/// One run without limits, for its account.
fn run<const S: usize, const L: usize, const H: usize>(
    file: &[u8],
    cells: &mut Cells,
    stores: &mut Stores<S, L, H>,
) -> Account {
    let program = Program::check(file).expect("a legal file");
    program.run(cells, &Cells::new(), Float::from(0.0), Limits::NONE, stores)
}

#[test]
fn refused_files() {
    for (number, file) in files::refused() {
        let refusal = Program::check(&file).unwrap_err();
        assert_eq!(refusal.number(), number);
        assert!(refusal
            .to_string()
            .starts_with(&format!("refused {number}: ")));
    }
}

#[test]
fn accepted_files() {
    assert_eq!(Program::check(&e(&[])).unwrap().names(), 0);
    let file = program(&[], &LOOP[1..]);
    let checked = Program::check(&file).unwrap();
    assert_eq!(
        (checked.names(), checked.temps(), checked.file()),
        (1, 3, &file[..])
    );
}

#[test]
fn runs_1_to_4() {
    expect(&[], &[], steps(0), plain(Outcome::Steps, 0));
    expect(&[], &[], steps(1), plain(Outcome::Done, 1));
    expect(&[0x4000_0000], &SUM, Limits::NONE, done(0x4000_0000, 4, 0));
    let mut stopped = plain(Outcome::Steps, 1);
    stopped.depths.stack = 1;
    expect(&[0x4000_0000], &SUM, steps(1), stopped);
}

#[test]
fn runs_5_to_8() {
    expect(
        &[0x4040_0000],
        &LOOP,
        Limits::NONE,
        done(0x4040_0000, 10, 0),
    );
    expect(&[0x4040_0000], &LOOP, loops(0), done(0x4040_0000, 6, 1));
    expect(&[0], &LOOP, Limits::NONE, done(0, 3, 0));
    expect(&[0x7FC0_0000], &LOOP, loops(2), done(0x7FC0_0000, 8, 1));
}

#[test]
fn runs_9_to_12() {
    let handled = [
        op(HANDLER_PUSH, 0, 3),
        op(PUSH, 0, 0),
        op(LOAD_VAR, 0, 0),
        op(END, 0, 0),
    ];
    expect(&[], &handled, Limits::NONE, done(0, 4, 0));
    let missing = plain(Outcome::MissingValue, 1);
    expect(&[], &[op(LOAD_VAR, 0, 0)], Limits::NONE, missing);
    let remainder = [op(CONST, 0, 0), op(MOD_CONST, 0, 1), op(END, 0, 0)];
    let numbers = [0xC080_0000, 0x4000_0000];
    expect(&numbers, &remainder, Limits::NONE, done(0, 3, 0));
    let handed_over = plain(Outcome::HandedOver { position: 0 }, 1);
    expect(&[], &[op(HASH, 0, 0)], Limits::NONE, handed_over);
}

#[test]
fn working_stores_as_left() {
    let code = [
        op(CONST, 0, 0),
        op(PUSH, 0, 0),
        op(LOOP_BEGIN, 0, 9),
        op(HANDLER_PUSH, 0, 7),
        op(END, 0, 0),
    ];
    let mut stores = Stores::<3, 2, 1>::new();
    let account = run(
        &program(&[0x4040_0000], &code),
        &mut Cells::new(),
        &mut stores,
    );
    let mut wanted = done(0x4040_0000, 5, 0);
    wanted.depths = Depths {
        stack: 2,
        loops: 1,
        handlers: 1,
    };
    assert_eq!(account, wanted);
    assert_eq!(stores.stack(), [3.0, 2.0, 0.0].map(Float::from));
    assert_eq!(stores.loops(), [1, 0]);
    let handler = stores.handlers()[0];
    assert_eq!(handler.entry(), 0x7_0000_2001);
    assert_eq!(
        (handler.target(), handler.stack_mark(), handler.loop_mark()),
        (7, 2, 1)
    );
}

#[test]
fn temps_and_notices() {
    let code = [
        op(CONST, 0, 0),
        op(STORE_TEMP, 0, 2),
        op(POINTER_LEAVE, 0, 0),
        op(MEMBER, 0, 0),
    ];
    let mut wanted = plain(Outcome::MissingValue, 4);
    wanted.accumulator = Float::from(1.5);
    wanted.temps[2] = Some(Float::from(1.5));
    wanted.notices.missing_member = 1;
    wanted.notices.access_underflow = 1;
    expect(&[0x3FC0_0000], &code, Limits::NONE, wanted);
}

/// AddLast and Mul take one operand, which is there once; LoopEnd with no loop open takes none, and a
/// +0.0 that was pushed is there.
#[test]
fn empty_pops() {
    let code = [
        op(ADD_LAST, 0, 0),
        op(PUSH, 0, 0),
        op(MUL, 0, 0),
        op(MUL, 0, 0),
        op(LOOP_END, 0, 0),
        op(END, 0, 0),
    ];
    let mut wanted = plain(Outcome::Done, 6);
    wanted.empty_pops = 2;
    expect(&[], &code, Limits::NONE, wanted);
    let code = [op(PUSH, 0, 0), op(ADD_LAST, 0, 0), op(END, 0, 0)];
    expect(&[], &code, Limits::NONE, plain(Outcome::Done, 3));
}

/// A number, its Floor, Ceil and Trunc in the temps, and its Abs times 2, plus 0.5: twice 2^23 - 0.5,
/// plus 0.5, lies half way between 2^24 - 1 and 2^24, which is even.
#[test]
fn whole_numbers() {
    let code = [
        op(CONST, 0, 0),
        op(FLOOR, 0, 0),
        op(STORE_TEMP, 0, 0),
        op(CONST, 0, 0),
        op(CEIL, 0, 0),
        op(STORE_TEMP, 0, 1),
        op(CONST, 0, 0),
        op(TRUNC, 0, 0),
        op(STORE_TEMP, 0, 2),
        op(CONST, 0, 0),
        op(ABS, 1, 0),
        op(END, 0, 0),
    ];
    let numbers = [
        (-2.5, [-3.0, -2.0, -2.0], 5.5),
        (-0.5, [-1.0, -0.0, -0.0], 1.5),
        (0.5, [0.0, 1.0, 0.0], 1.5),
        (
            8_388_607.5,
            [8_388_607.0, 8_388_608.0, 8_388_607.0],
            16_777_216.0,
        ),
        (f32::NEG_INFINITY, [f32::NEG_INFINITY; 3], f32::INFINITY),
    ];
    for (number, made, posted) in numbers {
        let mut wanted = done(posted.to_bits(), 12, 0);
        for (temp, number) in wanted.temps.iter_mut().zip(made) {
            *temp = Some(Float::from(number));
        }
        expect(&[number.to_bits()], &code, Limits::NONE, wanted);
    }
    let one = Float::from_bits(0x7FC0_0000);
    let mut wanted = done(0x7FC0_0000, 12, 0);
    wanted.temps[..3].fill(Some(one));
    expect(&[0xFF80_0001], &code, Limits::NONE, wanted);
}

#[test]
fn cells_meet_the_next_run() {
    let file = program(
        &[],
        &[op(LOAD_VAR, 1, 0), op(STORE_VAR, 0, 0), op(END, 0, 0)],
    );
    let (mut cells, mut stores) = (Cells::new(), Studio::new());
    cells.set(0, Cell::from(1.5));
    cells.set(1, Cell::Hash(9));
    for number in [3.5, 7.5, 15.5] {
        let account = run(&file, &mut cells, &mut stores);
        assert_eq!(account.value, Float::from(number));
        assert_eq!(cells.get(0), Cell::from(number));
        assert_eq!(cells.get(1), Cell::Hash(9));
    }
}

#[test]
fn every_kind_of_cell() {
    let under_post_0 = program(&[], &[op(LOAD_VAR, 0, 0)]);
    let under_post_1 = program(&[], &[op(LOAD_VAR, 1, 0)]);
    let handed_over = Outcome::HandedOver { position: 0 };
    let nan = Float::from_bits(0xFF80_0001);
    let all = [
        (Cell::Missing, Outcome::MissingValue, 0.0),
        (Cell::Float(nan), Outcome::Done, f32::from_bits(0x7FC0_0000)),
        (Cell::Hash(0x1_0000_0000), handed_over, 0.5),
        (Cell::Other(u64::MAX), handed_over, 0.5),
    ];
    for (cell, outcome, posted) in all {
        let mut cells = Cells::new();
        cells.set(0, cell);
        let account = run(&under_post_0, &mut cells, &mut Studio::new());
        assert_eq!(account.outcome, outcome);
        let account = run(&under_post_1, &mut cells, &mut Studio::new());
        assert_eq!(account.value, Float::from(posted));
        assert_eq!(cells.get(0), cell);
    }
}

#[test]
fn every_nan_enters_as_one() {
    let file = program(&[], &[op(LOAD_CTX, 0, 0), op(STORE_VAR, 0, 0), op(THIS, 0, 0)]);
    let program = Program::check(&file).unwrap();
    for bits in [0x7FC0_0001, 0xFFC0_0000, 0x7F80_0001, 0xFF80_0001] {
        let nan = Float::from_bits(bits);
        let (mut cells, mut context) = (Cells::new(), Cells::new());
        context.set(0, Cell::Float(nan));
        cells.set(1, Cell::Float(nan));
        let account = program.run(&mut cells, &context, nan, Limits::NONE, &mut Studio::new());
        let one = Float::from_bits(0x7FC0_0000);
        assert_eq!(account.value, one);
        assert_eq!(cells.get(0), Cell::Float(one));
        assert_eq!(cells.get(1), Cell::Float(nan));
    }
}

#[test]
fn this_is_read() {
    let file = program(&[], &[op(THIS, 1, 0)]);
    let program = Program::check(&file).unwrap();
    let (mut cells, this) = (Cells::new(), Float::from(-3.0));
    let account = program.run(
        &mut cells,
        &Cells::new(),
        this,
        Limits::NONE,
        &mut Studio::new(),
    );
    assert_eq!(account.value.number(), -5.5);
}

#[test]
fn empty_stores() {
    let mut stores = Stores::<0, 0, 0>::new();
    let account = run(&e(&[]), &mut Cells::new(), &mut stores);
    assert_eq!(account, plain(Outcome::Done, 1));
    let account = run(&e(&op(PUSH, 0, 0)), &mut Cells::new(), &mut stores);
    assert_eq!(account, plain(Outcome::FullStore, 1));
}

#[test]
fn the_stack_cap() {
    let file = e(&[op(PUSH, 0, 0), op(LOOP_CHECK, 0, 0), op(JUMP, 0, 0)].concat());
    let account = run(&file, &mut Cells::new(), &mut Box::new(House::new()));
    let mut wanted = plain(Outcome::StackCap, 196_610);
    wanted.depths.stack = 65_537;
    assert_eq!(account, wanted);
}

#[test]
fn two_threads_at_once() {
    let file = program(&[0x4040_0000], &LOOP);
    let program = Program::check(&file).unwrap();
    let many = || {
        let (mut cells, mut stores) = (Cells::new(), Studio::new());
        let context = Cells::new();
        (0..10_000).all(|_| {
            let account = program.run(&mut cells, &context, 0.0.into(), Limits::NONE, &mut stores);
            account == done(0x4040_0000, 10, 0)
        })
    };
    thread::scope(|scope| {
        let both = [scope.spawn(many), scope.spawn(many)];
        assert!(both.into_iter().all(|thread| thread.join().unwrap()));
    });
}
