//! Evidence that the comparison would notice: the plain reading with one slip at a time in it.

use calls::{Call, Conversion, LAST_REFUSAL, Lent, Reply};

use crate::compare::Comparison;
use crate::hosts::{self, Pair, first_pair};
use crate::passes;
use crate::patterns::{self, Whole};
use crate::plain;
use crate::purses;
use crate::reading::wrong_refusal;
use crate::remainders::{Counts, wrong_remainders};
use crate::stored::{self, wrong_stored};
use crate::subject::Subject;
use crate::whole::{self, wrong_whole};

/// More charges than any unslipped run makes: a slip can turn a run into an endless one.
const ENOUGH: u64 = 1_000_000;

/// A copy of the plain reading.
#[derive(Copy, Clone)]
struct Slipped {
    run: Run,
    /// The machine as it was.
    run_as_it_was: Run,
    convert: fn(&mut [u8]) -> Conversion,
    whole: Whole,
}

/// A whole call.
type Run = fn(&Call, &mut Lent) -> Reply;

/// The copy in a module.
macro_rules! copy {
    ($module:ident) => {
        Slipped {
            run: |call, lent| $module::run(call, lent, &mut $module::Unwatched),
            run_as_it_was: |call, lent| $module::run_as_it_was(call, lent, &mut $module::Unwatched),
            convert: $module::convert,
            whole: $module::whole,
        }
    };
}

// The copies of the plain reading that mkslips wrote.
include!(concat!(env!("SLIPS"), "/list.rs"));

/// The plain reading as it is.
const WITHOUT_SLIP: Slipped = copy!(plain);

impl Subject for Slipped {
    fn check(&self, file: &[u8]) -> u32 {
        plain::check(file)
    }

    fn convert(&self, file: &mut [u8]) -> Conversion {
        (self.convert)(file)
    }

    fn run(&self, call: &Call, lent: &mut Lent) -> Reply {
        (self.run)(&within_enough(call), lent)
    }
}

/// The call under limits that end every run.
fn within_enough(call: &Call) -> Call {
    let within = |limit: Option<u64>| limit.map_or(ENOUGH, |limit| limit.min(ENOUGH));
    let mut call = call.clone();
    call.set_limits(call.limits().map(within).map(Some));
    call
}

/// A slipped machine as it was: it takes the old file, which no converter has changed.
struct AsItWas<'a>(&'a Slipped);

impl Subject for AsItWas<'_> {
    fn check(&self, file: &[u8]) -> u32 {
        plain::check(file)
    }

    fn convert(&self, file: &mut [u8]) -> Conversion {
        plain::convert(&mut file.to_vec())
    }

    fn run(&self, call: &Call, lent: &mut Lent) -> Reply {
        (self.0.run_as_it_was)(&within_enough(call), lent)
    }
}

/// A slipped machine under the limits as they came, where it ends under them: the remainders count.
struct AsTheyCame<'a>(&'a Slipped);

impl Subject for AsTheyCame<'_> {
    fn check(&self, file: &[u8]) -> u32 {
        self.0.check(file)
    }

    fn convert(&self, file: &mut [u8]) -> Conversion {
        self.0.convert(file)
    }

    fn run(&self, call: &Call, lent: &mut Lent) -> Reply {
        let mut left = lent.clone();
        let reply = self.0.run(call, &mut left);
        if reply.account.end.charges < ENOUGH {
            return (self.0.run)(call, lent);
        }
        *lent = left;
        reply
    }
}

/// In so many calls nothing is found without a slip.
const CONTROL: u64 = 20_000;

/// The slips of the limits are looked for in so many calls compared with the Rust, and those of the
/// NaN in so many on two hosts: some are seen there too.
const MORE_CALLS: u64 = 10_000;

/// Looks for each slip in at most `calls` calls; whether all were found, and none where none is.
pub fn find(calls: u64, seed: u64) -> bool {
    if let Some(place) = find_without_slip(seed) {
        println!("{place}  found without a slip");
        return false;
    }
    let mut found = 0;
    for (name, slipped) in SLIPS {
        let place = match name.split_once(": ") {
            Some(("reader", _)) => find_in_reader(slipped, calls, seed),
            Some(("converter", _)) => find_in_converter(slipped, calls, seed),
            Some(("as it was", _)) => find_in_machine(&AsItWas(slipped), calls, seed),
            Some(("limits", _)) => find_in_limits(slipped, calls, seed),
            Some(("nan", _)) => find_in_nans(slipped, calls, seed),
            Some(("whole", _)) => find_in_whole(slipped, calls, seed),
            Some(("patterns", _)) => find_in_patterns(slipped.whole),
            _ => find_in_machine(slipped, calls, seed),
        };
        found += usize::from(place.is_some());
        println!("{}  {name}", place.unwrap_or("NOT FOUND".to_string()));
    }
    println!("{found} of {} slips found", SLIPS.len());
    found == SLIPS.len()
}

fn find_without_slip(seed: u64) -> Option<String> {
    let plain = &WITHOUT_SLIP;
    find_in_machine(plain, CONTROL, seed)
        .or_else(|| find_in_machine(&AsItWas(plain), CONTROL, seed))
        .or_else(|| find_in_reader(plain, CONTROL, seed))
        .or_else(|| find_in_converter(plain, CONTROL, seed))
        .or_else(|| find_in_random(plain, CONTROL, seed))
        .or_else(|| purses::first_difference(&AsTheyCame(plain)))
        .or_else(|| find_by_hosts(plain, CONTROL, seed))
        .or_else(|| find_in_whole(plain, CONTROL, seed))
        .or_else(|| find_in_patterns(plain.whole))
}

/// Against the Rust, with the plain reading's empty pops in its account: the call that differs, and
/// the records left of it.
fn find_in_machine(slipped: &dyn Subject, calls: u64, seed: u64) -> Option<String> {
    let mut comparison = Comparison::new(slipped);
    let (number, case) = comparison.first_difference(calls, seed)?;
    let records = comparison.shrunk(case).program.records.len();
    Some(format!("call {number:>6}, {records} records"))
}

/// Against the plain reading without a slip: the Rust reads no files.
fn find_in_reader(slipped: &Slipped, calls: u64, seed: u64) -> Option<String> {
    let subject = AsTheyCame(slipped);
    let (number, _) = wrong_refusal(&subject, calls, seed, &mut [0; LAST_REFUSAL + 1])?;
    Some(format!("damaged {number:>6}"))
}

/// Against the plain reading without a slip, in random stored files.
fn find_in_converter(slipped: &Slipped, calls: u64, seed: u64) -> Option<String> {
    let subject = AsTheyCame(slipped);
    let (number, _) = wrong_stored(&subject, calls, seed, &mut stored::Counts::default())?;
    Some(format!("stored {number:>6}"))
}

/// Against the plain reading without a slip, in random calls, and against what is claimed of the
/// listed ones; and whether the Rust sees it too.
fn find_in_limits(slipped: &Slipped, calls: u64, seed: u64) -> Option<String> {
    let random = find_in_random(slipped, calls, seed)?;
    let listed = purses::first_difference(&AsTheyCame(slipped))?;
    let rust = match find_in_machine(slipped, MORE_CALLS, seed) {
        Some(place) => format!(", the Rust at {place}"),
        None => String::new(),
    };
    Some(format!("{random}, {listed}{rust}"))
}

/// Against the plain reading without a slip, in random calls: with the Rust every NaN is normalised.
/// And whether two hosts are told apart by it.
fn find_in_nans(slipped: &Slipped, calls: u64, seed: u64) -> Option<String> {
    let random = find_in_random(slipped, calls, seed)?;
    let hosts = match find_by_hosts(slipped, MORE_CALLS, seed) {
        Some(place) => format!(", {place}"),
        None => String::new(),
    };
    Some(format!("{random}{hosts}"))
}

fn find_in_random(slipped: &Slipped, calls: u64, seed: u64) -> Option<String> {
    let subject = AsTheyCame(slipped);
    let (number, _) = wrong_remainders(&subject, calls, seed, &mut Counts::default())?;
    Some(format!("random {number:>6}"))
}

fn find_by_hosts(slipped: &Slipped, calls: u64, seed: u64) -> Option<String> {
    let subject = AsTheyCame(slipped);
    let differences = |pair: &Pair| pair.differences(&subject);
    let (number, _) = first_pair(calls, seed, &mut hosts::Counts::default(), differences)?;
    Some(format!("two hosts at call {number:>6}"))
}

/// Against the plain reading without a slip, in random calls with whole numbers; and the pattern by
/// which C's functions show it.
fn find_in_whole(slipped: &Slipped, calls: u64, seed: u64) -> Option<String> {
    let subject = AsTheyCame(slipped);
    let (number, _) = wrong_whole(&subject, calls, seed, &mut whole::Counts::default())?;
    let patterns = match find_in_patterns(slipped.whole) {
        Some(place) => format!(", {place}"),
        None => String::new(),
    };
    Some(format!("whole numbers {number:>6}{patterns}"))
}

/// Against C's functions alone: no call shows it.
fn find_in_patterns(whole: Whole) -> Option<String> {
    let place = patterns::first_wrong(whole)?;
    Some(format!("C by {place}"))
}

/// The slips that break what is claimed of counted loops by the loop's own three records.
const IN_COUNTED_LOOPS: [&str; 11] = [
    "loop limit 0 running no pass",
    "NaN leaving a loop",
    "NaN not entering a loop",
    "the loop notice each time",
    "the loop limit one pass late",
    "the loop limit tested before the count",
    "a loop count of 0 at the start",
    "a loop count that rises without a limit",
    "LoopBegin pushing the count itself",
    "LoopEnd leaving the count",
    "the stack cap at 65,536",
];

/// Looks for each slip in counted loops, by the claim alone; whether those of the loop's own records were found.
pub fn find_by_passes() -> bool {
    if let Some(place) = passes::first_difference(&WITHOUT_SLIP) {
        println!("{place}  found without a slip");
        return false;
    }
    let mut found = Vec::new();
    for (name, slipped) in SLIPS {
        if let Some(place) = passes::first_difference(slipped) {
            println!("{place}  {name}");
            found.push(*name);
        }
    }
    let own = IN_COUNTED_LOOPS.iter().filter(|name| found.contains(name));
    let (own, of) = (own.count(), IN_COUNTED_LOOPS.len());
    println!(
        "{} of {} slips found, {own} of the {of} in a loop's own records",
        found.len(),
        SLIPS.len()
    );
    own == of
}
