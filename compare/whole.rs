//! Whole numbers, document 02's twelfth request: random calls with many Floor, Ceil, Trunc and Abs,
//! and with numbers at which it tells what they give. The subject's account against the plain
//! reading's, bit for bit; the Rust has no such opcode.

use calls::{Record, TABLE, is_nan, uses};

use crate::code::WHOLE;
use crate::generate::{Case, Generator, whole_edge};
use crate::hosts::change_numbers;
use crate::plain::{Machine, Watch};
use crate::random::Random;
use crate::reading::{plain_account, print_wrong, subject_account};
use crate::subject::Subject;

/// The most charges of a run: a record that is put into it can make a loop endless.
const MOST_CHARGES: u64 = 10_000;

const SORTS: [&str; 7] = [
    "NaN",
    "infinite",
    "zero",
    "below 1",
    "with a fraction",
    "whole below 2^23",
    "from 2^23 on",
];

/// The records taken, by opcode and by the sort of number that they met.
#[derive(Default)]
pub struct Counts {
    records: [u64; WHOLE.len()],
    met: [u64; SORTS.len()],
}

impl Watch for Counts {
    fn acts(&mut self, machine: &Machine, record: Record) {
        if let Some(at) = WHOLE.iter().position(|&opcode| opcode == record.opcode) {
            self.records[at] += 1;
            self.met[sort(machine.accumulator)] += 1;
        }
    }
}

/// The index in [`SORTS`].
fn sort(bits: u32) -> usize {
    let x = f32::from_bits(bits).abs();
    match bits & 0x7FFF_FFFF {
        _ if is_nan(bits) => 0,
        0x7F80_0000 => 1,
        0 => 2,
        _ if x < 1.0 => 3,
        _ if x % 1.0 != 0.0 => 4,
        _ if x < 8_388_608.0 => 5,
        _ => 6,
    }
}

/// Calls that make numbers whole: the same account.
pub fn check_whole(subject: &dyn Subject, calls: u64, seed: u64) -> bool {
    let mut counts = Counts::default();
    if let Some((number, case)) = wrong_whole(subject, calls, seed, &mut counts) {
        print_wrong(subject, case, &format!("call {number} with whole numbers"));
        return false;
    }
    let title = |opcode: u8| TABLE[usize::from(opcode)].title;
    let records = named(WHOLE.map(title).into_iter().zip(counts.records));
    let met = named(SORTS.into_iter().zip(counts.met));
    println!("whole numbers: {records}; of numbers {met}");
    true
}

fn named<'a>(counts: impl Iterator<Item = (&'a str, u64)>) -> String {
    let counts: Vec<String> = counts.map(|(name, n)| format!("{name} {n}")).collect();
    counts.join(", ")
}

/// The first call with whole numbers that the subject answers wrongly; counts the records up to it.
pub fn wrong_whole(
    subject: &dyn Subject,
    calls: u64,
    seed: u64,
    counts: &mut Counts,
) -> Option<(u64, Case)> {
    let mut random = Random::new(seed);
    let mut generator = Generator::new(seed);
    for number in 0..calls {
        let mut case = generator.next_under_two();
        put_whole(&mut random, &mut case);
        let expected = plain_account(&case, counts);
        if subject_account(subject, &case) != expected {
            return Some((number, case));
        }
        generator.carry_on(expected.compared.lent);
    }
    None
}

/// Makes one in six of the records that have no target one of the four, and half of the numbers
/// such that it tells.
fn put_whole(random: &mut Random, case: &mut Case) {
    let program = &mut case.program;
    let posts = program.posts.len();
    for record in &mut program.records {
        if !uses(record.opcode, 'j') && random.once_in(6) {
            let posts = random.pick(&[1, posts]);
            *record = Record {
                opcode: random.pick(&WHOLE),
                post: random.below(posts) as u16,
                ..Record::default()
            };
        }
    }
    for constant in &mut program.constants {
        *constant = changed(random, *constant);
    }
    case.call.file = program.encode();
    change_numbers(case, |bits| changed(random, bits));
    let limit = case.call.step_limit.unwrap_or(MOST_CHARGES);
    case.call.step_limit = Some(limit.min(MOST_CHARGES));
}

fn changed(random: &mut Random, bits: u32) -> u32 {
    match random.once_in(2) {
        true => whole_edge(random),
        false => bits,
    }
}
