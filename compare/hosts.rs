//! Two hosts, document 02's sixth request: a call, and its twin with other NaNs in the cells, the
//! context and `this`. The subject answers both alike, as the plain reading answers the first, and
//! leaves both alike but for the cells that no record stored to: these keep each host's own bits.

use calls::{Cells, Record, is_nan, op};

use crate::account::{Account, differences};
use crate::generate::{Case, Generator};
use crate::plain::{Machine, Watch};
use crate::random::Random;
use crate::reading::{plain_account, print_lines, subject_account};
use crate::show;
use crate::shrink::shrunk;
use crate::subject::Subject;

/// The most charges of a run: a NaN that is put into a call can make a loop endless.
const MOST_CHARGES: u64 = 10_000;

/// What the calls were whose hosts have different NaNs.
#[derive(Default)]
pub struct Counts {
    differing: u64,
    /// Runs that read such a NaN.
    read: u64,
    /// Runs that stored to such a cell.
    stored: u64,
    hash_met_nan: u64,
}

impl Counts {
    fn count(&mut self, pair: &Pair) {
        if pair.case.call == pair.twin.call && pair.case.lent == pair.twin.lent {
            return;
        }
        let stored = |at: usize| pair.run.stored[at] && pair.run.differing.cells[at];
        self.differing += 1;
        self.read += u64::from(pair.run.read);
        self.stored += u64::from((0..pair.run.stored.len()).any(stored));
        self.hash_met_nan += u64::from(pair.run.hash_met_nan);
    }
}

/// The same calls on two hosts: the same answers, and the first as the plain reading has them.
pub fn check_hosts(subject: &dyn Subject, calls: u64, seed: u64) -> bool {
    let mut counts = Counts::default();
    let differences = |pair: &Pair| [pair.wrong(subject), pair.differences(subject)].concat();
    if let Some((number, pair)) = first_pair(calls, seed, &mut counts, differences) {
        print_pair(pair, &format!("call {number} on two hosts"), differences);
        return false;
    }
    let Counts {
        differing,
        read,
        stored,
        hash_met_nan,
    } = counts;
    println!(
        "two hosts: calls whose NaNs differ {differing}; of these, runs that read one {read}, \
         stored over one {stored}, had EqHash meet a NaN {hash_met_nan}"
    );
    true
}

/// The first pair that has differences; counts the pairs up to it.
pub fn first_pair(
    calls: u64,
    seed: u64,
    counts: &mut Counts,
    differences: impl Fn(&Pair) -> Vec<String>,
) -> Option<(u64, Pair)> {
    let mut random = Random::new(seed);
    let mut generator = Generator::new(seed);
    for number in 0..calls {
        let mut case = generator.next_under_two();
        put_nans(&mut random, &mut case);
        let pair = Pair::new(case, random.next());
        counts.count(&pair);
        if !differences(&pair).is_empty() {
            return Some((number, pair));
        }
        generator.carry_on(pair.expected.compared.lent);
    }
    None
}

/// A call on two hosts.
pub struct Pair {
    case: Case,
    twin: Case,
    /// The seed of the twin's NaNs.
    lot: u64,
    /// The plain reading's run of the first, and its account.
    run: Run,
    expected: Account,
}

impl Pair {
    fn new(case: Case, lot: u64) -> Self {
        let twin = twin(&case, lot);
        let mut run = Run::new(Differing::new(&case, &twin));
        let expected = plain_account(&case, &mut run);
        Self {
            case,
            twin,
            lot,
            run,
            expected,
        }
    }

    /// How the subject's account on the first host differs from the plain reading's.
    fn wrong(&self, subject: &dyn Subject) -> Vec<String> {
        differences(&self.expected, &subject_account(subject, &self.case))
    }

    /// How the subject's accounts break the request.
    pub fn differences(&self, subject: &dyn Subject) -> Vec<String> {
        let [first, second] = [&self.case, &self.twin].map(|case| subject_account(subject, case));
        let on = |host: &Case| {
            let mut account = first.clone();
            self.keep_bits(&mut account.compared.lent.cells, &host.lent.cells);
            account
        };
        let mut lines = differences(&on(&self.case), &first);
        lines.extend(differences(&on(&self.twin), &second));
        lines
    }

    /// Puts the bits that stood on a host before into the cells that no record stored to.
    fn keep_bits(&self, cells: &mut Cells, before: &Cells) {
        for (at, stored) in self.run.stored.iter().enumerate() {
            if !stored {
                cells.values[at] = before.values[at];
            }
        }
    }
}

/// Where two hosts have different NaNs.
struct Differing {
    this: bool,
    cells: Vec<bool>,
    context: Vec<bool>,
}

impl Differing {
    fn new(case: &Case, twin: &Case) -> Self {
        let cells = |a: &Cells, b: &Cells| {
            let pairs = a.values.iter().zip(&b.values);
            pairs.map(|(a, b)| a != b).collect()
        };
        Self {
            this: case.call.this != twin.call.this,
            cells: cells(&case.lent.cells, &twin.lent.cells),
            context: cells(&case.call.context, &twin.call.context),
        }
    }
}

/// What a run does with the NaNs that differ.
struct Run {
    differing: Differing,
    /// The cells that a record stored to.
    stored: Vec<bool>,
    read: bool,
    hash_met_nan: bool,
}

impl Run {
    fn new(differing: Differing) -> Self {
        Self {
            stored: vec![false; differing.cells.len()],
            differing,
            read: false,
            hash_met_nan: false,
        }
    }
}

impl Watch for Run {
    fn acts(&mut self, machine: &Machine, record: Record) {
        let at = record.argument as usize;
        match record.opcode {
            op::THIS => self.read |= self.differing.this,
            op::LOAD_VAR => self.read |= self.differing.cells[at] && !self.stored[at],
            op::LOAD_CTX => self.read |= self.differing.context[at],
            op::STORE_VAR => self.stored[at] = true,
            op::EQ_HASH => self.hash_met_nan |= is_nan(machine.accumulator),
            _ => {}
        }
    }
}

/// The same call on another host: each NaN that it brings has bits drawn anew.
fn twin(case: &Case, lot: u64) -> Case {
    let mut random = Random::new(lot);
    let mut twin = case.clone();
    change_numbers(&mut twin, |bits| match is_nan(bits) {
        true => nan(&mut random),
        false => bits,
    });
    twin
}

/// Makes one in four of the numbers that a call brings a NaN, and bounds its charges.
fn put_nans(random: &mut Random, case: &mut Case) {
    change_numbers(case, |bits| match random.once_in(4) {
        true => nan(random),
        false => bits,
    });
    let limit = case.call.step_limit.unwrap_or(MOST_CHARGES);
    case.call.step_limit = Some(limit.min(MOST_CHARGES));
}

/// Changes `this`, and the number in each float cell and float context cell.
pub fn change_numbers(case: &mut Case, mut change: impl FnMut(u32) -> u32) {
    case.call.this = change(case.call.this);
    for cells in [&mut case.lent.cells, &mut case.call.context] {
        for (kind, value) in cells.kinds.iter().zip(&mut cells.values) {
            if *kind == Cells::FLOAT {
                *value = u64::from(change(*value as u32));
            }
        }
    }
}

/// A NaN of either sign, quiet or signalling; one in four has the payload of a made one.
fn nan(random: &mut Random) -> u32 {
    let sign = random.pick(&[0, 0x8000_0000]);
    let payload = match random.once_in(4) {
        true => 0x0040_0000,
        false => random.between(1, 0x007F_FFFF) as u32,
    };
    sign | 0x7F80_0000 | payload
}

/// Shows a pair that has differences, shrunk.
fn print_pair(pair: Pair, what: &str, differences: impl Fn(&Pair) -> Vec<String>) {
    let again = |case: &Case| Pair::new(case.clone(), pair.lot);
    let differs = |case: &Case| !differences(&again(case)).is_empty();
    let pair = again(&shrunk(pair.case.clone(), differs));
    println!("{what} differs; shrunk:");
    print!("{}", show::case(&pair.case));
    println!("and on the other host:");
    print!("{}", show::case(&pair.twin));
    print_lines(&differences(&pair));
}
