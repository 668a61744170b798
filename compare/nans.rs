//! The bits of the NaNs that the Rust's operations make on this processor, and of those that enter
//! it, beside the subject's.

use calls::{Call, Cells, Lent, MADE_NAN, Post, Program, Record, op};
use molang::reference::Reference;

use crate::subject::Subject;

const INFINITY: u32 = 0x7F80_0000;
const MINUS_INFINITY: u32 = 0xFF80_0000;
const ONE: u32 = 0x3F80_0000;
const TWO: u32 = 0x4000_0000;

/// An operation's name, its opcode, and its operands: left, right.
const OPERATIONS: [(&str, u8, u32, u32); 13] = [
    ("+", op::ADD_LAST, INFINITY, MINUS_INFINITY),
    ("*", op::MUL, 0, INFINITY),
    ("/", op::DIV, 0, 0),
    ("/", op::DIV, INFINITY, INFINITY),
    ("%", op::MOD, INFINITY, TWO),
    ("+", op::ADD_LAST, 0x7F80_0001, ONE),
    ("+", op::ADD_LAST, ONE, 0x7F80_0001),
    ("*", op::MUL, 0xFFC0_0001, TWO),
    ("/", op::DIV, TWO, 0xFF80_0001),
    ("%", op::MOD, 0x7FC0_0001, TWO),
    ("%", op::MOD, 0x7F80_0001, TWO),
    ("+", op::ADD_LAST, 0x7FC0_0001, 0xFFC0_0002),
    ("+", op::ADD_LAST, 0xFFC0_0002, 0x7FC0_0001),
];

/// A record: opcode, post, argument.
type Short = (u8, u16, u32);
type Called = (Program, Call, Lent);

// Beside post 0 a program has the posts (1.0, 0.0) and (1.0, bits).
const SAME: u16 = 1;
const ADDED: u16 = 2;

// The cells and the context are a float, and a hash with the same bits as its low half.
const FLOAT: u32 = 0;
const HASH: u32 = 1;

/// A quiet NaN and a signalling one.
const NANS: &[u32] = &[0xFFC0_0001, 0xFF80_0001];

/// An entrance's name, the records that bring the bits to the accumulator, and the bits.
const ENTRANCES: [(&str, &[Short], &[u32]); 9] = [
    ("Const", &[(op::CONST, 0, 0)], NANS),
    ("AndLast of 0", &[(op::AND_LAST, ADDED, 0)], NANS),
    ("Mod by 0", &[(op::MOD, ADDED, 0)], NANS),
    ("This", &[(op::THIS, 0, 0)], NANS),
    ("LoadVar of a float", &[(op::LOAD_VAR, 0, FLOAT)], NANS),
    ("LoadCtx of a float", &[(op::LOAD_CTX, 0, FLOAT)], NANS),
    ("LoadVar of a hash", &[(op::LOAD_VAR, SAME, HASH)], NANS),
    (
        "Const and Negate",
        &[(op::CONST, 0, 0), (op::NEGATE, 0, 0)],
        &[MADE_NAN, 0xFFC0_0001, 0xFF80_0001],
    ),
    (
        "Const and EqHash",
        &[(op::CONST, 0, 0), (op::EQ_HASH, 0, 0)],
        &[MADE_NAN, 0xFFC0_0001],
    ),
];

/// Writes a line for each operation and each entrance; it holds neither side to anything.
pub fn show(subject: &dyn Subject) -> bool {
    for (name, opcode, left, right) in OPERATIONS {
        let what = format!("{left:08X} {name} {right:08X}");
        show_one(subject, &what, operation(opcode, left, right));
    }
    for (name, records, all) in ENTRANCES {
        for &bits in all {
            let what = format!("{bits:08X} by {name}");
            show_one(subject, &what, called(records, &[bits], bits));
        }
    }
    true
}

/// The accumulators that a call ends with.
fn show_one(subject: &dyn Subject, what: &str, (program, call, lent): Called) {
    let (rust, _) = Reference::default().run(&program, &call, &lent);
    let found = subject.run(&call, &mut lent.clone()).account.end;
    let [rust, found] = [rust, found].map(|end| end.accumulator);
    println!("{what}: the Rust {rust:08X}, the subject {found:08X}");
}

/// [Const, Push, Const, the operation]: of a division the divisor is pushed, of the others the left operand.
fn operation(opcode: u8, left: u32, right: u32) -> Called {
    let constants = if opcode == op::DIV {
        [right, left]
    } else {
        [left, right]
    };
    let records = [
        (op::CONST, 0, 0),
        (op::PUSH, 0, 0),
        (op::CONST, 0, 1),
        (opcode, 0, 0),
    ];
    called(&records, &constants, 0)
}

/// A call of these records; its post, hash, cells, context and `this` have the bits.
fn called(records: &[Short], constants: &[u32], bits: u32) -> Called {
    let program = program(records, constants, bits);
    let cells = Cells {
        kinds: vec![Cells::FLOAT, Cells::HASH],
        values: vec![u64::from(bits), u64::from(bits) | 1 << 32],
    };
    let call = Call {
        file: program.encode(),
        context: cells.clone(),
        this: bits,
        step_limit: None,
        loop_limit: None,
        house_limit: None,
    };
    let lent = Lent {
        cells,
        stack: vec![0; 1],
        ..Lent::default()
    };
    (program, call, lent)
}

fn program(records: &[Short], constants: &[u32], bits: u32) -> Program {
    let record = |&(opcode, post, argument): &Short| Record {
        opcode,
        choice: 0,
        post,
        argument,
    };
    let added = Post {
        offset: bits,
        ..Post::IDENTITY
    };
    Program {
        names: 2,
        temps: 0,
        constants: constants.to_vec(),
        posts: vec![Post::IDENTITY, Post::IDENTITY, added],
        hashes: vec![u64::from(bits)],
        records: records.iter().map(record).collect(),
    }
}
