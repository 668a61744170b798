//! Random calls under two limits, the guest's and the house's: the subject's account against the
//! plain reading's, with what remains of both; and days, in which each call goes on with what the
//! one before left of the house limit.

use std::cmp::Ordering;

use calls::{Call, STEPS};

use crate::account::Account;
use crate::damage::damage;
use crate::generate::{Case, Generator};
use crate::plain::Unwatched;
use crate::random::Random;
use crate::reading::{SOON, damage_soon, plain_account, print_wrong, subject_account};
use crate::subject::Subject;

/// What the calls were. No limit counts as 2^64 - 1.
#[derive(Default)]
pub struct Counts {
    guest_smaller: u64,
    house_smaller: u64,
    equal: u64,
    /// Calls that leave a limit out.
    with_none: u64,
    stopped: u64,
    refused: u64,
}

impl Counts {
    fn count(&mut self, call: &Call, account: &Account) {
        let limits = call.limits();
        let [guest, house] = limits.map(|limit| limit.unwrap_or(u64::MAX));
        match guest.cmp(&house) {
            Ordering::Less => self.guest_smaller += 1,
            Ordering::Greater => self.house_smaller += 1,
            Ordering::Equal => self.equal += 1,
        }
        self.with_none += u64::from(limits.contains(&None));
        self.stopped += u64::from(account.end().outcome == STEPS);
        self.refused += u64::from(account.compared.refusal != 0);
    }
}

/// Calls under random limits, some of them refused: the same account.
pub fn check_remainders(subject: &dyn Subject, calls: u64, seed: u64) -> bool {
    let mut counts = Counts::default();
    let wrong = wrong_remainders(subject, calls, seed, &mut counts);
    if let Some((number, case)) = wrong {
        print_wrong(subject, case, &format!("call {number} under two limits"));
        return false;
    }
    let Counts {
        guest_smaller,
        house_smaller,
        equal,
        with_none,
        stopped,
        refused,
    } = counts;
    println!(
        "two limits: guest's smaller {guest_smaller}, house's smaller {house_smaller}, \
         equal {equal}, without one {with_none}; stopped for steps {stopped}, refused {refused}"
    );
    true
}

/// The first call under random limits that the subject answers wrongly; counts the calls up to it.
pub fn wrong_remainders(
    subject: &dyn Subject,
    calls: u64,
    seed: u64,
    counts: &mut Counts,
) -> Option<(u64, Case)> {
    let mut random = Random::new(seed);
    let mut generator = Generator::new(seed);
    for number in 0..calls {
        let mut case = generator.next_under_two();
        let sort = random.below(16);
        match sort {
            0 => damage_soon(&mut random, &mut case),
            1 => case.call.step_limit = Some(0),
            2 => case.call.house_limit = Some(0),
            _ => {}
        }
        let expected = plain_account(&case, &mut Unwatched);
        counts.count(&case.call, &expected);
        if subject_account(subject, &case) != expected {
            return Some((number, case));
        }
        if sort != 0 {
            generator.carry_on(expected.compared.lent);
        }
    }
    None
}

/// Days of a partner, some calls of them refused: the charges of a day and what remains make its
/// first house limit.
pub fn check_days(subject: &dyn Subject, calls: u64, seed: u64) -> bool {
    let mut days = Days {
        random: Random::new(seed),
        generator: Generator::new(seed),
        refused: 0,
    };
    let (mut made, mut count, mut spent) = (0, 0u64, 0u64);
    while made < calls {
        let length = (days.random.between(1, 20) as u64).min(calls - made);
        let Some(left) = days.next(subject, length) else {
            return false;
        };
        made += length;
        count += 1;
        spent += u64::from(left == 0);
    }
    let refused = days.refused;
    println!("days: {count}, with nothing left in the end {spent}; refused calls {refused}");
    true
}

struct Days {
    random: Random,
    generator: Generator,
    refused: u64,
}

impl Days {
    /// A day of so many calls: what is left of the house limit, where nothing differs.
    fn next(&mut self, subject: &dyn Subject, length: u64) -> Option<u64> {
        let first = self.first_limit();
        let (mut left, mut charges) = (first, 0u64);
        for _ in 0..length {
            let found = self.call(subject, left)?;
            charges += found.end().charges;
            left = Some(found.remainders.house);
        }
        let (first, left) = (first.unwrap_or(u64::MAX), left?);
        if charges.checked_add(left) != Some(first) {
            println!("a day from {first} made {charges} charges, and {left} remain");
            return None;
        }
        Some(left)
    }

    fn first_limit(&mut self) -> Option<u64> {
        let random = &mut self.random;
        match random.weighted(&[1, 1, 1, 4, 4]) {
            0 => None,
            1 => Some(u64::MAX),
            2 => Some(random.below(3) as u64),
            3 => Some(random.below(100) as u64),
            _ => Some(random.below(5_000) as u64),
        }
    }

    /// The subject's account of a call under this house limit, if it is the plain reading's.
    fn call(&mut self, subject: &dyn Subject, house_limit: Option<u64>) -> Option<Account> {
        let mut case = self.generator.next();
        let damaged = self.random.once_in(5);
        if damaged {
            damage(&mut self.random, &mut case);
            case.call.step_limit = SOON;
        }
        case.call.house_limit = house_limit;
        let found = subject_account(subject, &case);
        if found != plain_account(&case, &mut Unwatched) {
            print_wrong(subject, case, "a call of a day");
            return None;
        }
        self.refused += u64::from(found.compared.refusal != 0);
        if !damaged {
            self.generator.carry_on(found.compared.lent.clone());
        }
        Some(found)
    }
}
