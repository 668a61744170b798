//! The programs that are timed.

use calls::{LAST_OPCODE, Program, op};

use crate::writer::{HALVING, WIDENING, Writer};

/// How often a unit of records stands in a loop's body: the loop itself costs little beside it.
const UNITS: usize = 12;

/// The shapes whose steps are timed, each of about `charges` charges.
pub fn shapes(charges: u32) -> Vec<(&'static str, Program)> {
    vec![
        ("straight arithmetic", unrolled(charges, 17, straight)),
        ("tight counted loop", tight_loop(charges)),
        ("variables and handlers", unrolled(charges, 19, variables)),
        ("Mod", unrolled(charges, 5, remainders)),
        ("Div", unrolled(charges, 5, divisions)),
        ("mixed program", mixed_program(charges)),
    ]
}

/// A program of ours with records that the Rust lacks, and the Rust's with a Negate in the place of
/// each: of as many charges, and of the same value.
pub struct Pair {
    pub ours: Program,
    pub rust: Program,
}

/// A number, and what a record that the Rust lacks makes of it.
type Made = (f32, u8, f32);

const FLOORS: [Made; 2] = [(2.75, op::FLOOR, 2.0), (-2.75, op::FLOOR, -3.0)];

const FRACTIONS: [Made; 8] = [
    (2.75, op::FLOOR, 2.0),
    (-2.75, op::FLOOR, -3.0),
    (0.3, op::FLOOR, 0.0),
    (-0.3, op::FLOOR, -1.0),
    (1234.5, op::FLOOR, 1234.0),
    (-1234.5, op::FLOOR, -1235.0),
    (100_000.125, op::FLOOR, 100_000.0),
    (-7.5, op::FLOOR, -8.0),
];

const FOUR: [Made; 8] = [
    (2.75, op::FLOOR, 2.0),
    (2.25, op::CEIL, 3.0),
    (-2.75, op::TRUNC, -2.0),
    (-2.75, op::ABS, 2.75),
    (-0.5, op::FLOOR, -1.0),
    (-0.5, op::CEIL, -0.0),
    (1234.5, op::TRUNC, 1234.0),
    (0.5, op::ABS, 0.5),
];

/// The shapes whose steps the Rust lacks, each of about `charges` charges.
pub fn pairs(charges: u32) -> Vec<(&'static str, Pair)> {
    vec![
        ("Floor", paired(charges, &FLOORS, 7)),
        ("Floor of fractions", paired(charges, &FRACTIONS, 1)),
        ("Floor, Ceil, Trunc, Abs", paired(charges, &FOUR, 1)),
    ]
}

/// Each number, and then its record so many times: an odd count, after which the Rust's Negates have
/// turned their number once.
fn paired(charges: u32, unit: &[Made], times: usize) -> Pair {
    let each = (unit.len() * (1 + times)) as u32;
    let program = |record: fn(Made) -> (f32, u8)| {
        unrolled(charges, each, |writer| {
            for (number, opcode) in unit.iter().copied().map(record) {
                writer.put_constant(op::CONST, number, 0);
                (0..times).for_each(|_| writer.put(opcode));
            }
        })
    };
    Pair {
        ours: program(|(number, opcode, _)| (number, opcode)),
        rust: program(|(_, _, made)| (-made, op::NEGATE)),
    }
}

/// A loop over many copies of a unit that makes `each` charges.
fn unrolled(charges: u32, each: u32, unit: impl Fn(&mut Writer)) -> Program {
    let mut writer = Writer::new();
    writer.repeated(charges / (each * UNITS as u32), |writer| {
        (0..UNITS).for_each(|_| unit(writer));
    });
    writer.ended()
}

fn straight(writer: &mut Writer) {
    writer.put_constant(op::CONST, 1.5, 0);
    writer.put_constant(op::PUSH_CONST, 2.25, 0);
    writer.put_with(op::ADD_LAST, 0, 0);
    writer.put(op::PUSH);
    writer.put_constant(op::PUSH_CONST, 0.75, 0);
    writer.put_with(op::MUL, 0, 0);
    writer.put_with(op::ADD_LAST, 0, HALVING);
    writer.put_with(op::NEGATE, 0, 0);
    writer.put_constant(op::PUSH_CONST, 3.0, 0);
    writer.put(op::ADD_ACC);
    writer.put_with(op::MUL, 0, 0);
    writer.put_with(op::POST, 0, HALVING);
    writer.put(op::PUSH);
    writer.put_with(op::ADD_LAST, 0, 0);
}

/// Two records and the check a pass.
pub fn tight_loop(charges: u32) -> Program {
    let mut writer = Writer::new();
    writer.repeated(charges / 4, |writer| {
        writer.put_constant(op::PUSH_CONST, 0.5, 0);
        writer.put_with(op::ADD_LAST, 0, 0);
    });
    writer.ended()
}

fn variables(writer: &mut Writer) {
    writer.handled(
        |writer| writer.put_with(op::LOAD_VAR, 0, 0),
        |writer| writer.put_constant(op::CONST, 1.0, 0),
    );
    writer.put_with(op::STORE_VAR, 2, HALVING);
    writer.put_with(op::LOAD_VAR, 2, 0);
    writer.put_with(op::STORE_TEMP, 1, 0);
    writer.put_with(op::LOAD_CTX, 4, 0);
    writer.put_with(op::STORE_VAR, 6, 0);
    writer.put_with(op::LOAD_TEMP, 1, HALVING);
    writer.handled(
        |writer| writer.put_with(op::LOAD_VAR, 1, 0),
        |writer| writer.put_constant(op::CONST, 2.0, 0),
    );
    writer.put_with(op::STORE_TEMP, 2, 0);
    writer.put_with(op::LOAD_VAR, 6, 0);
    writer.put_with(op::LOAD_TEMP, 2, 0);
    writer.handled(
        |writer| writer.put_with(op::LOAD_CTX, 0, 0),
        |writer| writer.put_constant(op::CONST, 3.0, 0),
    );
}

/// Three remainders in five charges.
fn remainders(writer: &mut Writer) {
    writer.put_constant(op::MOD_CONST, 360.0, WIDENING);
    writer.put_constant(op::MOD_CONST, 7.3, WIDENING);
    writer.put_constant(op::PUSH_CONST, 180.0, 0);
    writer.put_with(op::MOD, 0, WIDENING);
}

/// Two divisions in five charges, each with its guard.
fn divisions(writer: &mut Writer) {
    writer.past(op::DIV_GUARD, |writer| {
        writer.put_constant(op::CONST, 3.7, 0);
        writer.put_with(op::DIV, 0, HALVING);
    });
    writer.past(op::DIV_GUARD, |writer| {
        writer.put_with(op::DIV, 0, HALVING);
    });
}

/// A loop inside a loop, over all that the other shapes have and what chooses and jumps.
fn mixed_program(charges: u32) -> Program {
    let mut writer = Writer::new();
    writer.repeated(charges / 155, |writer| {
        mixed_head(writer);
        writer.repeated(8, mixed_body);
        mixed_tail(writer);
    });
    writer.ended()
}

fn mixed_head(writer: &mut Writer) {
    writer.put_with(op::LOAD_VAR, 0, 0);
    writer.put_constant(op::PUSH_CONST, 0.25, 0);
    writer.put_with(op::ADD_LAST, 0, 0);
    writer.put_constant(op::MOD_CONST, 360.0, 0);
    writer.put_with(op::STORE_VAR, 0, 0);
    writer.handled(
        |writer| writer.put_with(op::LOAD_CTX, 1, 0),
        |writer| writer.put_with(op::THIS, 0, 0),
    );
    writer.put_with(op::STORE_TEMP, 0, 0);
}

fn mixed_body(writer: &mut Writer) {
    writer.put_with(op::LOAD_TEMP, 0, 0);
    writer.put(op::PUSH);
    writer.put_with(op::LOAD_CTX, 2, 0);
    writer.put_with(op::MUL, 0, HALVING);
    writer.put_constant(op::CMP_CONST, 40.0, 0);
    writer.past(op::JUMP_IF_FALSY, |writer| {
        writer.put_with(op::LOAD_TEMP, 0, 0);
        writer.put_constant(op::PUSH_CONST, 1.25, 0);
        writer.put_with(op::ADD_LAST, 0, 0);
        writer.put_with(op::STORE_TEMP, 0, 0);
    });
    writer.past(op::AND_STEP, |writer| {
        writer.put_with(op::LOAD_VAR, 2, 0);
        writer.put_constant(op::EQ_CONST, 3.0, 0);
        writer.put_with(op::AND_LAST, 0, 0);
    });
}

fn mixed_tail(writer: &mut Writer) {
    writer.put_with(op::LOAD_TEMP, 0, 0);
    writer.past(op::DIV_GUARD, |writer| {
        writer.put_with(op::LOAD_VAR, 0, 0);
        writer.put_with(op::DIV, 0, 0);
    });
    writer.put_with(op::STORE_VAR, 4, HALVING);
    writer.put_with(op::NOT, 0, 0);
    writer.past(op::JUMP, |writer| writer.put(op::HALT));
}

pub fn empty() -> Program {
    Writer::new().open()
}

/// `v.2 = v.0 * c.2 + 0.5 < 40`, and what a short script has besides.
pub fn ten_records() -> Program {
    let mut writer = Writer::new();
    writer.put_with(op::LOAD_VAR, 0, 0);
    writer.put(op::PUSH);
    writer.put_with(op::LOAD_CTX, 2, 0);
    writer.put_with(op::MUL, 0, 0);
    writer.put_constant(op::PUSH_CONST, 0.5, 0);
    writer.put_with(op::ADD_LAST, 0, HALVING);
    writer.put_constant(op::CMP_CONST, 40.0, 0);
    writer.put_with(op::STORE_VAR, 2, 0);
    writer.put_with(op::NEGATE, 0, 0);
    writer.ended()
}

/// A file of this many records, of which a run makes one charge.
pub fn long_file(records: usize) -> Program {
    let mut writer = Writer::new();
    writer.put(op::END);
    while writer.position() < records {
        mixed_head(&mut writer);
        mixed_tail(&mut writer);
        straight(&mut writer);
    }
    let mut program = writer.open();
    program.records.truncate(records);
    program
}

/// A file of this many records, every opcode that is accepted among them and in no order that a processor could foresee.
pub fn shuffled_file(records: usize) -> Program {
    let mut writer = Writer::new();
    let mut state = 1u32;
    while writer.position() < records {
        state = state.wrapping_mul(1_664_525).wrapping_add(1_013_904_223);
        let opcode = (state >> 16) as u8 % LAST_OPCODE + 1;
        if opcode != op::HOST_MATH {
            writer.put(opcode);
        }
    }
    let mut program = writer.open();
    program.constants.push(0);
    program.hashes.push(0);
    program
}

/// A stored file of this many records, all of them to convert.
pub fn host_maths(records: usize) -> Program {
    let mut writer = Writer::new();
    (0..records).for_each(|_| writer.put(op::HOST_MATH));
    writer.open()
}
