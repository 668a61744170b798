//! Stored files, document 02's ninth request: the subject's converter against the plain reading's,
//! and its account of the converted file against that of the plain machine as it was, which takes
//! the old one.

use std::collections::BTreeMap;

use calls::{Call, Conversion};

use crate::account::{Account, differences};
use crate::damage::damage_stored;
use crate::generate::{Case, Generator};
use crate::places::{Places, host_maths};
use crate::plain::{self, Unwatched};
use crate::random::Random;
use crate::reading::{SOON, print_file, print_shrunk, subject_account, wrong};
use crate::subject::Subject;

/// What came of the files.
#[derive(Default)]
pub struct Counts {
    /// The files by what the converter answers: what sends one back, or 0.
    met: BTreeMap<u32, u64>,
    /// Of those that pass.
    places: Places,
    /// Files that pass and have no HostMath.
    without: u64,
}

impl Counts {
    fn count(&mut self, file: &[u8]) {
        let read = plain::read_stored(file);
        *self
            .met
            .entry(*read.as_ref().err().unwrap_or(&0))
            .or_default() += 1;
        if let Ok(program) = read {
            self.places.count(&program);
            self.without += u64::from(host_maths(&program) == 0);
        }
    }
}

/// Random stored files, good and damaged: the same conversions, and the same accounts.
pub fn check_stored(subject: &dyn Subject, calls: u64, seed: u64) -> bool {
    let mut counts = Counts::default();
    let wrong = wrong_stored(subject, calls, seed, &mut counts);
    if let Some((number, case)) = wrong {
        print_stored(subject, case, &format!("stored file {number}"));
        return false;
    }
    let (places, without) = (counts.places.text(), counts.without);
    println!("stored files: {places}; without a HostMath {without}");
    println!("stored files by the converter's answer: {:?}", counts.met);
    true
}

/// The first stored file that the subject's converter answers wrongly, or the subject the converted
/// one; counts the files up to it.
pub fn wrong_stored(
    subject: &dyn Subject,
    calls: u64,
    seed: u64,
    counts: &mut Counts,
) -> Option<(u64, Case)> {
    let mut random = Random::new(seed);
    let mut generator = Generator::of_stored(seed);
    for number in 0..calls {
        let mut case = generator.next_under_two();
        let damaged = random.once_in(2);
        if damaged {
            damage_stored(&mut random, &mut case);
            case.call.step_limit = SOON;
        }
        counts.count(&case.call.file);
        if !wrong_conversion(subject, &case).is_empty() {
            return Some((number, case));
        }
        if !damaged {
            generator.carry_on(account_as_it_was(&case).compared.lent);
        }
    }
    None
}

/// How the subject's conversion of a case's file is wrong, or its account of the converted file, or
/// of the old one, which a call refuses where it has a HostMath.
fn wrong_conversion(subject: &dyn Subject, case: &Case) -> Vec<String> {
    let old = &case.call.file;
    let convert = |file: &mut [u8]| subject.convert(file);
    let found = Converted::of(old, convert);
    let mut lines = differences(&Converted::of(old, plain::convert), &found);
    if subject.check(old) != plain::check(old) {
        lines.push("the check of the old file".to_string());
    }
    lines.extend(wrong(subject, case));
    if found.refusal != 0 {
        if found.file != *old {
            lines.push("a file that is sent back is changed".to_string());
        }
        return lines;
    }
    if subject.check(&found.file) != 0 {
        lines.push("the converted file is sent back".to_string());
    }
    lines.extend(differences(
        &found.again(),
        &Converted::of(&found.file, convert),
    ));
    if !lines.is_empty() {
        // A file that is converted wrongly might not end.
        return lines;
    }
    let converted = case.with_file(found.file);
    lines.extend(differences(
        &account_as_it_was(case),
        &subject_account(subject, &converted),
    ));
    lines
}

/// What a converter answers, and the file as it leaves it.
#[derive(Debug, PartialEq, Eq)]
struct Converted {
    refusal: u32,
    records: u32,
    file: Vec<u8>,
}

impl Converted {
    fn of(file: &[u8], convert: impl Fn(&mut [u8]) -> Conversion) -> Self {
        let mut file = file.to_vec();
        let Conversion { refusal, records } = convert(&mut file);
        Self {
            refusal,
            records,
            file,
        }
    }

    /// What a converter makes of the converted file: the same, and no record to convert.
    fn again(&self) -> Self {
        Self {
            refusal: 0,
            records: 0,
            file: self.file.clone(),
        }
    }
}

/// The account of the plain machine as it was, over the old file.
fn account_as_it_was(case: &Case) -> Account {
    let run = |lent: &mut _| plain::run_as_it_was(&case.call, lent, &mut Unwatched);
    Account::of(&case.lent, run)
}

/// The case's call with its file as the subject's converter leaves it, or how the conversion is
/// wrong where the file passes: its answer, or a file that has no HostMath and is changed.
pub fn converted_call(subject: &dyn Subject, case: &Case) -> Result<Call, Vec<String>> {
    let old = &case.call.file;
    let found = Converted::of(old, |file| subject.convert(file));
    let records = host_maths(&case.program) as u32;
    let unchanged = found.file == *old;
    if (found.refusal, found.records) != (0, records) || records == 0 && !unchanged {
        let Converted {
            refusal, records, ..
        } = found;
        return Err(vec![format!(
            "the converter: refusal {refusal}, records {records}, unchanged {unchanged}"
        )]);
    }
    Ok(case.with_file(found.file).call)
}

fn print_stored(subject: &dyn Subject, case: Case, what: &str) {
    let differences = |case: &Case| wrong_conversion(subject, case);
    match plain::read_stored(&case.call.file) {
        Ok(program) => print_shrunk(Case { program, ..case }, what, differences),
        Err(_) => print_file(&case, what, &differences(&case)),
    }
}
