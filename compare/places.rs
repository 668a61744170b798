//! Where the HostMaths of stored files stand.

use calls::{Program, op, uses};

const PLACES: [&str; 6] = [
    "alone",
    "first",
    "last",
    "at a target",
    "one behind EachBegin's target",
    "two behind it",
];

/// The files with a HostMath, its records, and the files that have one in each of the places.
#[derive(Default)]
pub struct Places {
    files: u64,
    records: u64,
    places: [u64; PLACES.len()],
}

impl Places {
    pub fn count(&mut self, program: &Program) {
        let records = host_maths(program);
        if records == 0 {
            return;
        }
        self.files += 1;
        self.records += records;
        for (count, met) in self.places.iter_mut().zip(places(program)) {
            *count += u64::from(met);
        }
    }

    pub fn text(&self) -> String {
        let places = PLACES.iter().zip(self.places);
        let places: Vec<String> = places.map(|(name, n)| format!("{name} {n}")).collect();
        let (files, records) = (self.files, self.records);
        let places = places.join(", ");
        format!("{records} HostMaths in {files} files; files with one {places}")
    }
}

/// How many records of a program are HostMaths.
pub fn host_maths(program: &Program) -> u64 {
    let records = program.records.iter();
    records.filter(|r| r.opcode == op::HOST_MATH).count() as u64
}

fn places(program: &Program) -> [bool; PLACES.len()] {
    let records = &program.records;
    let stands = |at: usize| records.get(at).is_some_and(|r| r.opcode == op::HOST_MATH);
    let mut found = [false; PLACES.len()];
    found[0] = stands(0) && records.len() == 1;
    found[1] = stands(0);
    found[2] = stands(records.len() - 1);
    for record in records.iter().filter(|r| uses(r.opcode, 'j')) {
        let target = record.argument as usize;
        let looks = record.opcode == op::EACH_BEGIN;
        found[3] |= stands(target);
        found[4] |= looks && stands(target + 1);
        found[5] |= looks && stands(target + 2);
    }
    found
}
