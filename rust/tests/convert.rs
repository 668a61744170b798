//! Stored files that are converted, each held to document 02's request Nine.

#[allow(dead_code)] // some files are for other tests
mod files;

use files::{e, host_math, op, program};
use nimbohaza::{Cell, Cells, Converted, Float, Limits, Outcome, Program, Refusal, Studio};

const CONST: u8 = 1;
const STORE_VAR: u8 = 9;
const HOST_MATH: u8 = 22;
const POINTER_ENTER: u8 = 37;
const END: u8 = 48;

/// A file with these records, and how many of them are converted into which others.
#[track_caller]
fn expect(before: &[[u8; 8]], records: u32, after: &[[u8; 8]]) {
    let (mut file, after) = (
        program(&[0x4040_0000], before),
        program(&[0x4040_0000], after),
    );
    let converted = Program::convert(&mut file).expect("a stored file");
    assert_eq!(converted.records, records);
    assert_eq!(converted.program, Program::check(&after).unwrap());
    assert_eq!(file, after);
}

/// A file that is sent back, and keeps its bytes.
#[track_caller]
fn expect_refused(mut file: Vec<u8>, number: u32) {
    let before = file.clone();
    assert_eq!(Program::convert(&mut file).unwrap_err().number(), number);
    assert_eq!(file, before);
}

#[test]
fn counts_of_0_and_1_are_converted() {
    let enter = op(POINTER_ENTER, 0, 1);
    expect(&[host_math(0)], 1, &[enter]);
    expect(&[host_math(1)], 1, &[enter]);
    expect(&[op(HOST_MATH, 1, 0)], 1, &[enter]);
}

#[test]
fn counts_above_1_are_refused() {
    for count in [2, 8, 255] {
        expect_refused(e(&host_math(count)), 15);
        expect_refused(e(&[host_math(1), host_math(count)].concat()), 15);
        expect_refused(e(&[host_math(count), op(0, 0, 0)].concat()), 15);
    }
    expect_refused(e(&[HOST_MATH, 2, 0, 0, 1, 0, 0, 0]), 8);
    expect_refused(e(&[HOST_MATH, 2, 1, 0, 0, 0, 0, 0]), 9);
    expect_refused(e(&[op(0, 0, 0), host_math(2)].concat()), 7);
}

#[test]
fn wherever_the_record_stands() {
    let (load, end) = (op(CONST, 0, 0), op(END, 0, 0));
    let enter = |target| op(POINTER_ENTER, 0, target);
    expect(&[host_math(1), load, end], 1, &[enter(1), load, end]);
    expect(&[load, end, host_math(1)], 1, &[load, end, enter(3)]);
    expect(
        &[host_math(0), load, host_math(1), host_math(1)],
        3,
        &[enter(1), load, enter(3), enter(4)],
    );
    expect(&[load, end], 0, &[load, end]);
    expect(&[], 0, &[]);
}

/// Targets of two bytes too.
#[test]
fn many_records() {
    let mut file = e(&host_math(1).repeat(300));
    let after: Vec<u8> = (1..=300_u16)
        .flat_map(|target| {
            let [low, high] = target.to_le_bytes();
            [POINTER_ENTER, 0, 0, 0, low, high, 0, 0]
        })
        .collect();
    assert_eq!(Program::convert(&mut file).unwrap().records, 300);
    assert_eq!(file, e(&after));
}

#[test]
fn refused_files_keep_their_bytes() {
    for (number, file) in files::refused() {
        if number != Refusal::Withdrawn.number() {
            expect_refused(file, number);
        }
    }
}

#[test]
fn converting_twice_is_converting_once() {
    let mut file = program(&[], &[host_math(0), op(END, 0, 0), host_math(1)]);
    assert_eq!(Program::convert(&mut file).unwrap().records, 2);
    let once = file.clone();
    assert_eq!(Program::convert(&mut file).unwrap().records, 0);
    assert_eq!(file, once);
}

/// 3.0 is loaded, the record gives +0.0 without its post, and that is stored.
#[test]
fn the_account_after_converting() {
    let records = [
        op(CONST, 0, 0),
        op(HOST_MATH, 1, 0),
        op(STORE_VAR, 0, 0),
        op(END, 0, 0),
    ];
    let mut file = program(&[0x4040_0000], &records);
    let Converted { program, .. } = Program::convert(&mut file).unwrap();
    let (mut cells, zero) = (Cells::new(), Float::from(0.0));
    let account = program.run(
        &mut cells,
        &Cells::new(),
        zero,
        Limits::NONE,
        &mut Studio::new(),
    );
    assert_eq!(account.outcome, Outcome::Done);
    assert_eq!((account.value, account.charges), (zero, 4));
    assert_eq!((account.accumulator, account.empty_pops), (zero, 0));
    assert_eq!(cells.get(0), Cell::Float(zero));
}
