//! Makes a call that differs smaller while it still differs.

use calls::{Cells, uses};

use crate::generate::{Case, charges_within};

/// A shrunk call without a step limit this low has to end by itself within this many charges.
const ENOUGH: u64 = 300_000;

/// A change at an index.
type Change = fn(&mut Case, usize);
/// How many indices a change has.
type Count = fn(&Case) -> usize;

const CHANGES: [(Change, Count); 10] = [
    (drop_record, |case| case.program.records.len()),
    (clear_post, |case| case.program.records.len()),
    (|case, _| case.call.step_limit = None, |_| 1),
    (|case, _| case.call.house_limit = None, |_| 1),
    (|case, _| case.call.loop_limit = None, |_| 1),
    (|case, _| case.call.this = 0, |_| 1),
    (clear_rooms, |_| 1),
    (
        |case, at| case.lent.cells.kinds[at] = Cells::MISSING,
        |case| case.lent.cells.len(),
    ),
    (
        |case, at| case.call.context.kinds[at] = Cells::MISSING,
        |case| case.call.context.len(),
    ),
    (
        |case, at| case.program.constants[at] = 0x3F80_0000,
        |case| case.program.constants.len(),
    ),
];

/// The smallest call that the changes reach and that still `differs`.
pub fn shrunk(mut case: Case, mut differs: impl FnMut(&Case) -> bool) -> Case {
    loop {
        let mut smaller = false;
        for (change, count) in CHANGES {
            for at in (0..count(&case)).rev() {
                let candidate = changed(&case, change, at);
                if differs_from(&case, &candidate) && ends(&candidate) && differs(&candidate) {
                    case = candidate;
                    smaller = true;
                }
            }
        }
        if !smaller {
            return case;
        }
    }
}

fn changed(case: &Case, change: Change, at: usize) -> Case {
    let mut case = case.clone();
    change(&mut case, at);
    case.call.file = case.program.encode();
    case
}

fn differs_from(case: &Case, candidate: &Case) -> bool {
    case.call != candidate.call || case.lent != candidate.lent
}

fn ends(case: &Case) -> bool {
    let limit = case.call.smaller_limit();
    limit.is_some_and(|limit| limit <= ENOUGH)
        || charges_within(&case.call, &case.lent, ENOUGH).is_some()
}

/// Takes a record out; targets behind it move with the code.
fn drop_record(case: &mut Case, at: usize) {
    let records = &mut case.program.records;
    let behind = at as u32 + 1..=records.len() as u32;
    records.remove(at);
    for record in records.iter_mut().filter(|r| uses(r.opcode, 'j')) {
        if behind.contains(&record.argument) {
            record.argument -= 1;
        }
    }
}

fn clear_post(case: &mut Case, at: usize) {
    let record = &mut case.program.records[at];
    if uses(record.opcode, 'p') {
        record.post = 0;
    }
}

fn clear_rooms(case: &mut Case, _at: usize) {
    case.lent.stack.fill(0);
    case.lent.loops.fill(0);
    case.lent.handlers.fill(0);
}
