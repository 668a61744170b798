//! Runs under two step limits, the run's own and the house limit of a day.

#[allow(dead_code)] // refused files: the types don't let them run
mod files;

use files::{e, op, program};
use nimbohaza::{Account, Cell, Cells, Float, Limits, Outcome, Program, Purse, Remainders, Studio};

const LOAD_VAR: u8 = 5;
const STORE_VAR: u8 = 9;
const PUSH_CONST: u8 = 12;
const ADD_LAST: u8 = 16;
const JUMP: u8 = 32;
const END: u8 = 48;

/// Two charges for PushConst, one for AddLast and one for End.
fn sum() -> Vec<u8> {
    let records = [op(PUSH_CONST, 0, 0), op(ADD_LAST, 0, 0), op(END, 0, 0)];
    program(&[0x4000_0000], &records)
}

/// v = 2 v + 0.5, in three charges.
fn doubled() -> Vec<u8> {
    let records = [op(LOAD_VAR, 1, 0), op(STORE_VAR, 0, 0), op(END, 0, 0)];
    program(&[], &records)
}

fn limits(steps: Option<u64>) -> Limits {
    Limits { steps, loops: None }
}

/// One run over these cells.
fn run(file: &[u8], steps: Option<u64>, purse: Purse, cells: &mut Cells) -> (Account, Purse) {
    let (context, this) = (Cells::new(), Float::from(0.0));
    let program = Program::check(file).expect("a legal file");
    program.run_from(
        purse,
        cells,
        &context,
        this,
        limits(steps),
        &mut Studio::new(),
    )
}

/// Of a run of `sum`: outcome, charges, what remains of both, and the operands left.
fn sums(guest: Option<u64>, house: Purse) -> (Outcome, u64, [u64; 2], u64) {
    let (account, purse) = run(&sum(), guest, house, &mut Cells::new());
    let Remainders { guest, house } = account.remainders;
    assert_eq!(purse, Purse::new(house));
    let depth = account.depths.stack;
    (account.outcome, account.charges, [guest, house], depth)
}

#[test]
fn the_guest_holds_less() {
    use Outcome::{Done, Steps};
    assert_eq!(sums(Some(0), Purse::new(9)), (Steps, 0, [0, 9], 0));
    assert_eq!(sums(Some(3), Purse::new(9)), (Steps, 3, [0, 6], 0));
    assert_eq!(sums(Some(4), Purse::new(9)), (Done, 4, [0, 5], 0));
    assert_eq!(sums(Some(8), Purse::new(9)), (Done, 4, [4, 5], 0));
    let wanted = (Steps, 3, [0, u64::MAX - 3], 0);
    assert_eq!(sums(Some(3), Purse::unlimited()), wanted);
}

#[test]
fn the_house_holds_less() {
    use Outcome::{Done, Steps};
    assert_eq!(sums(Some(9), Purse::new(0)), (Steps, 0, [9, 0], 0));
    assert_eq!(sums(Some(9), Purse::new(3)), (Steps, 3, [6, 0], 0));
    assert_eq!(sums(Some(9), Purse::new(4)), (Done, 4, [5, 0], 0));
    assert_eq!(sums(Some(9), Purse::new(8)), (Done, 4, [5, 4], 0));
    let wanted = (Steps, 3, [u64::MAX - 3, 0], 0);
    assert_eq!(sums(None, Purse::new(3)), wanted);
}

#[test]
fn both_hold_as_much() {
    use Outcome::{Done, Steps};
    assert_eq!(sums(Some(0), Purse::new(0)), (Steps, 0, [0, 0], 0));
    assert_eq!(sums(Some(3), Purse::new(3)), (Steps, 3, [0, 0], 0));
    assert_eq!(sums(Some(4), Purse::new(4)), (Done, 4, [0, 0], 0));
    let wanted = (Done, 4, [u64::MAX - 4; 2], 0);
    assert_eq!(sums(Some(u64::MAX), Purse::new(u64::MAX)), wanted);
    assert_eq!(sums(None, Purse::unlimited()), wanted);
}

/// PushConst pays once for its fetch and once for its constant: with one step left of either limit
/// the accumulator is pushed and the constant not loaded.
#[test]
fn either_limit_may_end_between_two_charges() {
    let stopped = Outcome::Steps;
    assert_eq!(sums(Some(1), Purse::new(9)), (stopped, 1, [0, 8], 1));
    assert_eq!(sums(Some(9), Purse::new(1)), (stopped, 1, [8, 0], 1));
    assert_eq!(sums(Some(1), Purse::new(1)), (stopped, 1, [0, 0], 1));
    assert_eq!(sums(Some(2), Purse::new(9)), (stopped, 2, [0, 7], 1));
    assert_eq!(sums(Some(9), Purse::new(2)), (stopped, 2, [7, 0], 1));
    for (steps, bits) in [(1, 0), (2, 0x4000_0000)] {
        let (account, _) = run(&sum(), Some(9), Purse::new(steps), &mut Cells::new());
        assert_eq!(account.accumulator.bits(), bits);
    }
}

#[test]
fn the_house_limit_alone_stops_an_endless_loop() {
    let file = e(&op(JUMP, 0, 0));
    let (account, purse) = run(&file, None, Purse::new(100_000), &mut Cells::new());
    assert_eq!(account.outcome, Outcome::Steps);
    assert_eq!((account.charges, purse.remaining()), (100_000, 0));
}

#[test]
fn no_purse_is_an_unlimited_one() {
    let file = sum();
    let program = Program::check(&file).unwrap();
    for steps in [None, Some(0), Some(3), Some(4), Some(u64::MAX)] {
        let (mut cells, mut stores) = (Cells::new(), Studio::new());
        let (context, this) = (Cells::new(), Float::from(0.0));
        let account = program.run(&mut cells, &context, this, limits(steps), &mut stores);
        let (from_purse, _) = run(&file, steps, Purse::unlimited(), &mut cells);
        assert_eq!(account, from_purse);
    }
}

/// With the host started anew after each.
#[test]
fn a_day_of_calls() {
    let mut cells = Cells::new();
    cells.set(0, Cell::from(1.5));
    let (mut kept, mut spent) = (20, 0);
    let calls = [
        (doubled(), None, 3),
        (sum(), Some(1), 1),
        (doubled(), Some(3), 3),
        (sum(), None, 4),
        (e(&op(JUMP, 0, 0)), Some(8), 8),
        (doubled(), Some(3), 1), // LoadVar, and the day is used up
        (sum(), None, 0),
    ];
    for (file, steps, charges) in calls {
        let (account, purse) = run(&file, steps, Purse::new(kept), &mut cells);
        assert_eq!(account.charges, charges);
        kept = purse.remaining();
        spent += charges;
        assert_eq!(kept + spent, 20);
    }
    assert_eq!(kept, 0);
    assert_eq!(cells.get(0), Cell::from(7.5));
}

#[test]
fn a_day_without_a_limit_counts_down() {
    let mut purse = Purse::unlimited();
    for n in 1..=3 {
        purse = run(&sum(), None, purse, &mut Cells::new()).1;
        assert_eq!(purse.remaining(), u64::MAX - 4 * n);
    }
}
