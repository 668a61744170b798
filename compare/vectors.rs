//! A fixed list of calls with the Rust's answers, for a program that replays them without any Rust.
//! None has a house limit, and the file of each is converted. docs/COMPARISON.md tells the format.

use std::collections::HashSet;
use std::fmt::{LowerHex, Write};
use std::fs;

use calls::{Cells, End, FULL_STORE, Record, is_nan, op};
use molang::reference::Reference;

use crate::account::{Account, Compared};
use crate::compare::reference_account;
use crate::generate::{Case, Generator};
use crate::plain::{self, Machine, Watch};

const SEED: u64 = 7;
const CALLS: u64 = 1_000_000;
const MOST_BYTES: usize = 1_900_000;
/// The longest line, and the most runs of equal operands, as tools/vectors.py has them; a call that
/// needs more is not listed.
const MOST_LINE: usize = 700;
const MOST_RUNS: usize = 15;

/// Writes the list; a call is listed if it shows something that no earlier line shows.
pub fn write(path: &str) -> bool {
    let reference = Reference::default();
    let mut generator = Generator::of_the_rust(SEED);
    let mut shown: HashSet<Feature> = HashSet::new();
    let mut text = String::new();
    for _ in 0..CALLS {
        let case = generator.next();
        let mut features = Features::default();
        let plain = Account::of(&case.lent, |lent| {
            plain::run_as_it_was(&case.call, lent, &mut features)
        });
        features.end(&case, plain.end());
        let lacked = !Reference::has(&case.program);
        let left_out = lacked || plain.end().outcome == FULL_STORE || features.hash_met_nan;
        generator.carry_on(plain.compared.lent);
        if left_out || features.list.iter().all(|f| shown.contains(f)) {
            continue;
        }
        let rust = reference_account(&reference, &case, &case.call);
        let converted = case.with_file(converted(&case.call.file));
        let rust = rust.normalised();
        let line = line(&converted, &rust) + "\n";
        let runs = operands(&rust).chunk_by(|a, b| a == b).count();
        let long = line.len() > MOST_LINE || runs > MOST_RUNS;
        if long || text.len() + line.len() > MOST_BYTES {
            continue;
        }
        text += &line;
        shown.extend(features.list);
    }
    let (calls, bytes, features) = (text.lines().count(), text.len(), shown.len());
    println!("{calls} calls, {bytes} bytes, {features} features");
    fs::write(path, text).is_ok()
}

/// The stored file as the converter leaves it.
fn converted(file: &[u8]) -> Vec<u8> {
    let mut file = file.to_vec();
    plain::convert(&mut file);
    file
}

/// Something that a run shows: its sort, and up to four small numbers.
type Feature = [u8; 5];

#[derive(Default)]
struct Features {
    list: Vec<Feature>,
    last: u8,
    hash_met_nan: bool,
}

impl Watch for Features {
    fn acts(&mut self, machine: &Machine, record: Record) {
        let opcode = record.opcode;
        let accumulator = class(Some(&machine.accumulator));
        let top = class(machine.stack.last());
        let depths = [
            machine.stack.len(),
            machine.loops.len(),
            machine.handlers.len(),
        ];
        let [stack, loops, handlers] = depths.map(|depth| depth.min(2) as u8);
        self.list.push([0, self.last, opcode, 0, 0]);
        self.list
            .push([1, opcode, accumulator, record.post.min(2) as u8, 0]);
        self.list.push([2, opcode, accumulator, top, 0]);
        self.list.push([3, opcode, stack, loops, handlers]);
        self.list
            .push([4, opcode, record.choice.min(10), accumulator, 0]);
        self.hash_met_nan |= opcode == op::EQ_HASH && is_nan(machine.accumulator);
        self.last = opcode;
    }
}

impl Features {
    /// Adds how the run ended, and under which limits.
    fn end(&mut self, case: &Case, end: &End) {
        let outcome = end.outcome as u8;
        let step_limit = match case.call.step_limit {
            None => 0,
            Some(u64::MAX) => 1,
            Some(limit) => 2 + u8::from(limit > end.charges),
        };
        let loop_limit = case.call.loop_limit.map_or(9, |limit| limit.min(5) as u8);
        self.list.push([5, self.last, outcome, 0, 0]);
        let notice = end.notices.loop_limit as u8;
        self.list.push([6, outcome, step_limit, loop_limit, notice]);
    }
}

/// The sorts of numbers that arithmetic tells apart; 0 where there is none.
fn class(bits: Option<&u32>) -> u8 {
    let Some(&bits) = bits else {
        return 0;
    };
    let negative = u8::from(bits >> 31 == 1);
    match bits & 0x7FFF_FFFF {
        0 => 1 + negative,
        1..=0x007F_FFFF => 3 + negative,
        0x0080_0000..=0x33FF_FFFF => 5 + negative,
        0x3400_0000..=0x3F7F_FFFF => 7 + negative,
        0x3F80_0000..=0x7F7F_FFFF => 9 + negative,
        0x7F80_0000 => 11 + negative,
        _ => 13,
    }
}

/// One call and its account, the fields in the order that docs/COMPARISON.md gives.
pub fn line(case: &Case, answer: &Compared) -> String {
    let Compared { end, lent, .. } = answer;
    let [_, loops, handlers] = answer.depths();
    let temps = end.temps.given.iter().zip(end.temps.numbers);
    let temps = temps.take(case.program.temps.into());
    let fields = [
        entries(case.call.file.iter(), 2),
        cells(&case.lent.cells),
        cells(&case.call.context),
        hex(case.call.this),
        case.call.step_limit.map_or_else(none, hex),
        case.call.loop_limit.map_or_else(none, hex),
        hex(case.lent.stack.len()),
        hex(case.lent.loops.len()),
        hex(case.lent.handlers.len()),
        hex(end.outcome),
        hex(end.position),
        hex(end.value),
        hex(end.charges),
        hex(end.accumulator),
        hex(end.notices.missing_member),
        hex(end.notices.access_underflow),
        hex(end.notices.loop_limit),
        or_none(
            temps
                .map(|(given, temp)| format!("{given}{temp:08x}"))
                .collect(),
        ),
        stack_runs(operands(answer)),
        entries(lent.loops[..loops].iter(), 8),
        entries(lent.handlers[..handlers].iter(), 16),
        cells(&lent.cells),
    ];
    fields.join(" ")
}

fn hex(number: impl LowerHex) -> String {
    format!("{number:x}")
}

fn none() -> String {
    "-".to_string()
}

fn or_none(text: String) -> String {
    if text.is_empty() { none() } else { text }
}

/// Entries of a fixed number of digits each.
fn entries(entries: impl Iterator<Item: LowerHex>, digits: usize) -> String {
    let mut text = String::new();
    for entry in entries {
        let _ = write!(text, "{entry:0digits$x}");
    }
    or_none(text)
}

fn cells(cells: &Cells) -> String {
    let each = cells.kinds.iter().zip(&cells.values);
    or_none(
        each.map(|(kind, value)| format!("{kind}{value:016x}"))
            .collect(),
    )
}

/// The operands that are left.
fn operands(answer: &Compared) -> &[u32] {
    let [stack, ..] = answer.depths();
    &answer.lent.stack[..stack]
}

/// The operand stack as runs of equal entries: how many, then the entry.
fn stack_runs(stack: &[u32]) -> String {
    let runs = stack.chunk_by(|a, b| a == b);
    or_none(
        runs.map(|run| format!("{:05x}{:08x}", run.len(), run[0]))
            .collect(),
    )
}
