//! The comparison of the subject with the Rust, call by call. The Rust runs the stored file, the
//! subject the file that its converter makes of it.

use calls::{Call, FULL_STORE};
use molang::reference::Reference;

use crate::account::{Account, Compared, differences};
use crate::coverage::Coverage;
use crate::generate::{Case, Generator};
use crate::places::Places;
use crate::plain;
use crate::show;
use crate::shrink;
use crate::stored::converted_call;
use crate::subject::Subject;

/// What came of one call.
enum Verdict {
    Same,
    FullStore,
    HashMetNan,
    /// An opcode of document 02 that the Rust lacks.
    Lacked,
    Differs(Vec<String>),
}

pub struct Comparison<'a> {
    subject: &'a dyn Subject,
    reference: Reference,
    coverage: Coverage,
    places: Places,
    compared: u64,
    full_store: u64,
    hash_met_nan: u64,
    lacked: u64,
    /// The calls that bring a house limit, and those where it is the smaller.
    house_limits: u64,
    house_smaller: u64,
}

impl<'a> Comparison<'a> {
    pub fn new(subject: &'a dyn Subject) -> Self {
        Self {
            subject,
            reference: Reference::default(),
            coverage: Coverage::new(),
            places: Places::default(),
            compared: 0,
            full_store: 0,
            hash_met_nan: 0,
            lacked: 0,
            house_limits: 0,
            house_smaller: 0,
        }
    }

    /// Makes `calls` calls, or fewer where one differs: then its number and the call.
    pub fn first_difference(&mut self, calls: u64, seed: u64) -> Option<(u64, Case)> {
        let mut generator = Generator::of_the_rust(seed);
        for number in 0..calls {
            let case = generator.next_under_two();
            self.places.count(&case.program);
            self.count_limits(&case.call);
            let Ok(found) = self.subject_account(&case) else {
                return Some((number, case));
            };
            match self.judge(&case, &found) {
                Verdict::Same => self.compared += 1,
                Verdict::FullStore => self.full_store += 1,
                Verdict::HashMetNan => self.hash_met_nan += 1,
                Verdict::Lacked => self.lacked += 1,
                Verdict::Differs(_) => return Some((number, case)),
            }
            generator.carry_on(found.lent);
        }
        None
    }

    /// A small call that differs, made from one that does.
    pub fn shrunk(&mut self, case: Case) -> Case {
        shrink::shrunk(case, |case| !self.differences(case).is_empty())
    }

    fn differences(&mut self, case: &Case) -> Vec<String> {
        let found = match self.subject_account(case) {
            Ok(found) => found,
            Err(lines) => return lines,
        };
        match self.judge(case, &found) {
            Verdict::Differs(lines) => lines,
            _ => Vec::new(),
        }
    }

    /// The subject's account of the converted file, or how the conversion is wrong.
    fn subject_account(&self, case: &Case) -> Result<Compared, Vec<String>> {
        let call = converted_call(self.subject, case)?;
        Ok(Account::of(&case.lent, |lent| self.subject.run(&call, lent)).compared)
    }

    /// Compares one call with the Rust. The plain machine as it was says whether it is left out.
    fn judge(&mut self, case: &Case, found: &Compared) -> Verdict {
        self.coverage.hash_met_nan = false;
        let reply = plain::run_as_it_was(&case.call, &mut case.lent.clone(), &mut self.coverage);
        assert_eq!(reply.refusal, 0, "only accepted calls are compared");
        let end = reply.account.end;
        self.coverage.count_end(&end);
        if !Reference::has(&case.program) {
            return Verdict::Lacked;
        }
        if self.coverage.hash_met_nan {
            return Verdict::HashMetNan;
        }
        let (same, expected) = if end.outcome == FULL_STORE {
            (
                Verdict::FullStore,
                self.before_full_store(case, end.charges),
            )
        } else {
            (
                Verdict::Same,
                reference_account(&self.reference, case, &case.call),
            )
        };
        let expected = expected.with_empty_pops(&end).normalised();
        let found = found.clone().normalised();
        if expected == found {
            same
        } else {
            Verdict::Differs(differences(&expected, &found))
        }
    }

    /// The Rust has no full store, but before the charge of the record that finds its store full
    /// it stands as document 01 leaves the run.
    fn before_full_store(&self, case: &Case, charges: u64) -> Compared {
        let call = Call {
            step_limit: Some(charges - 1),
            ..case.call.clone()
        };
        let mut account = reference_account(&self.reference, case, &call);
        account.end.outcome = FULL_STORE;
        account.end.charges = charges;
        account
    }

    fn print_difference(&mut self, number: u64, case: Case) {
        println!("call {number} differs; shrunk:");
        let case = self.shrunk(case);
        print!("{}", show::case(&case));
        for line in self.differences(&case) {
            println!("  {line}");
        }
    }

    fn count_limits(&mut self, call: &Call) {
        if let Some(house) = call.house_limit {
            self.house_limits += 1;
            self.house_smaller += u64::from(house < call.step_limit.unwrap_or(u64::MAX));
        }
    }

    fn print_counts(&self) {
        let (limits, smaller) = (self.house_limits, self.house_smaller);
        println!("house limits {limits}, of them the smaller {smaller}");
        println!("stored files: {}", self.places.text());
        let (full, nan, lacked) = (self.full_store, self.hash_met_nan, self.lacked);
        println!(
            "left out: {full} full store, {nan} EqHash met a NaN, \
             {lacked} an opcode of document 02 that the Rust lacks"
        );
        let (compared, left_out) = (self.compared, full + nan + lacked);
        println!("{compared} calls compared, {left_out} left out, 0 differ");
    }
}

/// The Rust's account of a case's program and stores under this call. It has no remainders.
pub fn reference_account(reference: &Reference, case: &Case, call: &Call) -> Compared {
    let (end, lent) = reference.run(&case.program, call, &case.lent);
    Compared {
        refusal: 0,
        end,
        lent,
    }
}

/// The whole comparison; whether nothing differed.
pub fn compare(subject: &dyn Subject, calls: u64, seed: u64) -> bool {
    println!("{calls} calls of seed {seed}");
    let mut comparison = Comparison::new(subject);
    match comparison.first_difference(calls, seed) {
        Some((number, case)) => {
            comparison.print_difference(number, case);
            println!("a call differs");
            false
        }
        None => {
            comparison.coverage.print();
            comparison.print_counts();
            true
        }
    }
}
