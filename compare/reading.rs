//! The subject against the plain reading of document 01, bit for bit, where the Rust has nothing to
//! hold it to: the refusals, the full stores, demand 3, what remains of both limits, one NaN, whole
//! numbers, and the converter of stored files.

use calls::{FULL_STORE, LAST_REFUSAL, Limits, STEPS};

use crate::account::{Account, Compared, differences};
use crate::damage::damage;
use crate::generate::{Case, Generator, two_limits};
use crate::hosts::check_hosts;
use crate::plain::{self, Machine, Unwatched, Watch};
use crate::random::Random;
use crate::remainders::{check_days, check_remainders};
use crate::show;
use crate::shrink::shrunk;
use crate::stored::check_stored;
use crate::subject::Subject;
use crate::whole::check_whole;

/// Makes so many calls of a seed; whether nothing differed.
type Part = fn(&dyn Subject, u64, u64) -> bool;

const PARTS: [Part; 8] = [
    check_refusals,
    check_full_stores,
    check_two_limits,
    check_remainders,
    check_days,
    check_hosts,
    check_whole,
    check_stored,
];

/// A limit for damaged calls: some are accepted, and might not end.
pub const SOON: Option<u64> = Some(100);

/// Makes `calls` calls of each part; whether nothing differed.
pub fn check(subject: &dyn Subject, calls: u64, seed: u64) -> bool {
    println!("{calls} calls of seed {seed} for each part");
    let passed = PARTS.iter().all(|part| part(subject, calls, seed));
    if passed {
        println!("{} checks, 0 differ", PARTS.len() as u64 * calls);
    }
    passed
}

/// Damaged files and calls: the same refusal, and nothing lent is touched.
fn check_refusals(subject: &dyn Subject, calls: u64, seed: u64) -> bool {
    let mut met = [0; LAST_REFUSAL + 1];
    let found = wrong_refusal(subject, calls, seed, &mut met);
    match &found {
        Some((number, case)) => {
            print_file(
                case,
                &format!("damaged call {number}"),
                &wrong(subject, case),
            );
        }
        None => println!("refusals 0 to {LAST_REFUSAL} met: {met:?}"),
    }
    found.is_none()
}

/// The first damaged call that the subject answers wrongly; counts the refusals up to it.
pub fn wrong_refusal(
    subject: &dyn Subject,
    calls: u64,
    seed: u64,
    met: &mut [u64; LAST_REFUSAL + 1],
) -> Option<(u64, Case)> {
    let mut random = Random::new(seed);
    let mut generator = Generator::new(seed);
    for number in 0..calls {
        let mut case = generator.next_under_two();
        damage_soon(&mut random, &mut case);
        let expected = plain_account(&case, &mut Unwatched);
        met[expected.compared.refusal as usize] += 1;
        let checked = subject.check(&case.call.file) == plain::check(&case.call.file);
        if !checked || subject_account(subject, &case) != expected {
            return Some((number, case));
        }
    }
    None
}

/// Runs in small rooms: the same account, full store or not.
fn check_full_stores(subject: &dyn Subject, calls: u64, seed: u64) -> bool {
    let mut random = Random::new(seed);
    let mut generator = Generator::new(seed);
    let mut full = 0u64;
    for _ in 0..calls {
        let mut case = generator.next_under_two();
        case.call.step_limit.get_or_insert(10_000);
        case.lent.stack.truncate(random.below(6));
        case.lent.loops.truncate(random.below(4));
        case.lent.handlers.truncate(random.below(4));
        let expected = plain_account(&case, &mut Unwatched);
        full += u64::from(expected.end().outcome == FULL_STORE);
        let found = subject_account(subject, &case);
        if found != expected {
            print_wrong(subject, case, "a run in small rooms");
            return false;
        }
        generator.carry_on(found.compared.lent);
    }
    println!("runs that ended at a full store: {full}");
    true
}

/// Demand 3 at random M < N, each the smaller of two limits: the subject under those of M against
/// the state that the plain reading under those of N had when charge M + 1 fell due.
fn check_two_limits(subject: &dyn Subject, calls: u64, seed: u64) -> bool {
    let mut random = Random::new(seed);
    let mut generator = Generator::new(seed);
    let mut stopped = 0u64;
    for _ in 0..calls {
        let mut case = generator.next_under_two();
        let above_zero = |limit: Option<u64>| limit.map(|limit| limit.max(1));
        case.call.set_limits(case.call.limits().map(above_zero));
        let larger = plain_account(&case, &mut Unwatched);
        let most = case.call.smaller_limit().unwrap_or(u64::MAX) - 1;
        let smaller = (random.next() % (larger.end().charges + 2)).min(most);
        stopped += u64::from(smaller < larger.end().charges);
        let limits = two_limits(&mut random, Some(smaller));
        let differs = |case: &Case| two_limits_differ(subject, case, smaller, limits);
        if !differs(&case).is_empty() {
            print_shrunk(case, &format!("the run under {limits:?}"), differs);
            return false;
        }
        generator.carry_on(larger.compared.lent);
    }
    println!("pairs of limits whose smaller one stops the run: {stopped}");
    true
}

/// How the subject's accounts under the case's limits and under `limits`, with this smaller one,
/// break demand 3.
fn two_limits_differ(
    subject: &dyn Subject,
    case: &Case,
    smaller: u64,
    limits: Limits,
) -> Vec<String> {
    let mut due = Due {
        charges: smaller,
        standing: None,
    };
    let plain = plain_account(case, &mut due);
    let larger = subject_account(subject, case);
    let mut call = case.call.clone();
    call.set_limits(limits);
    let found = Account::of(&case.lent, |lent| subject.run(&call, lent));
    let expected = match due.standing {
        Some(standing) if plain.end().charges > smaller => standing,
        _ => larger.compared.clone(),
    };
    let mut lines = differences(&plain, &larger);
    lines.extend(differences(&expected, &found.compared));
    lines
}

/// Keeps what stands when the charge after the first `charges` falls due, as the account of a run
/// that stops there has it.
struct Due {
    charges: u64,
    standing: Option<Compared>,
}

impl Watch for Due {
    fn due(&mut self, machine: &Machine) {
        if machine.charges == self.charges && self.standing.is_none() {
            self.standing = Some(Compared {
                refusal: 0,
                end: machine.account((STEPS, 0)).account.end,
                lent: machine.stores(),
            });
        }
    }
}

pub fn plain_account(case: &Case, watch: &mut dyn Watch) -> Account {
    Account::of(&case.lent, |lent| plain::run(&case.call, lent, watch))
}

pub fn subject_account(subject: &dyn Subject, case: &Case) -> Account {
    Account::of(&case.lent, |lent| subject.run(&case.call, lent))
}

/// How the subject's account differs from the plain reading's.
pub fn wrong(subject: &dyn Subject, case: &Case) -> Vec<String> {
    let expected = plain_account(case, &mut Unwatched);
    differences(&expected, &subject_account(subject, case))
}

/// Damages a call, and gives it a limit that stops it soon.
pub fn damage_soon(random: &mut Random, case: &mut Case) {
    damage(random, case);
    match random.once_in(2) {
        true => case.call.step_limit = SOON,
        false => case.call.house_limit = SOON,
    }
}

/// Shows a call that the subject answers wrongly, shrunk where it is accepted.
pub fn print_wrong(subject: &dyn Subject, case: Case, what: &str) {
    let accepted = plain_account(&case, &mut Unwatched).compared.refusal == 0;
    match plain::read(&case.call.file) {
        Ok(program) if accepted => {
            print_shrunk(Case { program, ..case }, what, |case| wrong(subject, case));
        }
        _ => print_file(&case, what, &wrong(subject, &case)),
    }
}

/// Shows the file of a call, and how its answers differ.
pub fn print_file(case: &Case, what: &str, differences: &[String]) {
    let file: String = case.call.file.iter().map(|b| format!("{b:02x}")).collect();
    let limits = case.call.limits();
    println!("{what} differs: limits {limits:?}, file {file}");
    print_lines(differences);
}

pub fn print_shrunk(case: Case, what: &str, differences: impl Fn(&Case) -> Vec<String>) {
    println!("{what} differs; shrunk:");
    let case = shrunk(case, |case| !differences(case).is_empty());
    print!("{}", show::case(&case));
    print_lines(&differences(&case));
}

pub fn print_lines(lines: &[String]) {
    lines.iter().for_each(|line| println!("  {line}"));
}
