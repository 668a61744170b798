//! Counted loops, document 02's first request: the subject, the plain reading and the Rust, where it is built in, are held
//! to the claim in claim.rs, and each wrong claim has to be found wrong.

use calls::{FULL_STORE, op};
#[cfg(reference)]
use molang::reference::Reference;

use crate::account::{Compared, differences};
use crate::claim::{BEHIND, CLAIMS, RIGHT, WRONG};
#[cfg(reference)]
use crate::compare::reference_account;
use crate::counted::{Builder, Count, Counted, Places, STRAIGHT};
use crate::generate::Case;
use crate::plain::Watch;
use crate::random::Random;
use crate::reading::{plain_account, print_lines, subject_account};
use crate::show;
use crate::subject::Subject;

/// The counts that document 02's request is tried with, and the numbers of body records.
const SMALL: [u64; 4] = [1, 2, 3, 1000];
const LARGE: [u64; 2] = [16_777_215, 16_777_216];
const BODIES: [usize; 3] = [0, 1, 7];

/// Numbers that are themselves again when one is taken away; the third becomes such a number.
const NEVER_END: [f32; 6] = [
    33_554_432.0,
    16_777_220.0,
    16_777_222.0,
    f32::MAX,
    f32::INFINITY,
    f32::NAN,
];

/// The calls of a part, made at random where the list leaves it open.
type Part = fn(&mut Random) -> Vec<Counted>;

const PARTS: [(&str, Part); 5] = [
    ("small counts, under step limits", small),
    ("no place, no count, stacks up to the cap", edges),
    ("counts that never end", endless),
    ("counts behind 16,777,216", behind),
    ("large counts", large),
];

/// The slips are looked for in so many calls of the random part.
#[cfg(slips)]
const SLIP_CASES: u64 = 3_000;

/// Makes the calls of every part, and `cases` at random; whether nothing differs and every wrong claim is found.
pub fn check(subject: &dyn Subject, cases: u64, seed: u64) -> bool {
    let mut random = Random::new(seed);
    let mut limits = Random::new(!seed);
    let mut trial = Trial::new(subject);
    println!("{RUST}; {cases} random loops of seed {seed}");
    let same = PARTS
        .iter()
        .all(|(name, part)| trial.hold_all(name, part(&mut random)));
    let loops = (0..cases).map(|_| any(&mut random).under_two(&mut limits));
    same && trial.hold_all("loops at random", loops) && trial.print_wrong_claims()
}

#[cfg(reference)]
const RUST: &str = "the plain reading and the Rust beside it";
#[cfg(not(reference))]
const RUST: &str = "the plain reading beside it, without the Rust";

/// The first loop, of those that are not long, whose account the subject has otherwise than claimed.
#[cfg(slips)]
pub fn first_difference(subject: &dyn Subject) -> Option<String> {
    let mut random = Random::new(1);
    let mut loops = small(&mut random);
    loops.extend(edges(&mut random));
    let mut limits = Random::new(!1);
    loops.extend((0..SLIP_CASES).map(|_| any(&mut random).under_two(&mut limits)));
    loops.extend(endless(&mut random));
    let differs = |counted: &&Counted| {
        let found = subject_account(subject, &counted.case);
        let found = found.compared.normalised();
        let mut claims = CLAIMS.iter().filter(|claim| claim.covers(counted));
        claims.any(|claim| claim.account(counted).normalised() != found)
    };
    loops.iter().find(differs).map(Counted::title)
}

struct Trial<'a> {
    subject: &'a dyn Subject,
    #[cfg(reference)]
    reference: Reference,
    cases: u64,
    charges: u64,
    /// Where each wrong claim was found, and how.
    found: [Option<String>; WRONG.len()],
}

impl<'a> Trial<'a> {
    fn new(subject: &'a dyn Subject) -> Self {
        Self {
            subject,
            #[cfg(reference)]
            reference: Reference::default(),
            cases: 0,
            charges: 0,
            found: [const { None }; WRONG.len()],
        }
    }

    /// Whether no loop differs; says which one does.
    fn hold_all(&mut self, name: &str, loops: impl IntoIterator<Item = Counted>) -> bool {
        let (cases, charges) = (self.cases, self.charges);
        for counted in loops {
            let lines = self.differences(&counted);
            if !lines.is_empty() {
                println!("{name}: {} differs", counted.title());
                print!("{}", show::case(&counted.case));
                print_lines(&lines);
                return false;
            }
        }
        let (cases, charges) = (self.cases - cases, self.charges - charges);
        println!("{name}: {cases} cases, {charges} charges");
        true
    }

    /// How the machines differ from each other and from what is claimed. Looks for the wrong claims too.
    fn differences(&mut self, counted: &Counted) -> Vec<String> {
        let mut fetches = Fetches::of(counted);
        let plain = plain_account(&counted.case, &mut fetches);
        let mut lines = differences(&plain, &subject_account(self.subject, &counted.case));
        self.cases += 1;
        self.charges += plain.end().charges;
        let plain = plain.compared.normalised();
        let rust = self.rust_account(&counted.case);
        // The Rust's stores are never full.
        if let Some(rust) = rust.filter(|_| plain.end.outcome != FULL_STORE) {
            let rust = rust.with_empty_pops(&plain.end).normalised();
            let found = differences(&rust, &plain);
            lines.extend(named("the Rust", &found));
        }
        for claim in CLAIMS.iter().filter(|claim| claim.covers(counted)) {
            let found = claim.differences(counted, &plain, &fetches.counts);
            lines.extend(named(claim.name, &found));
        }
        if BEHIND.covers(counted) && counted.loop_limit().is_none() {
            let passes = fetches.counts[counted.body + 1];
            println!("{}: {passes} passes", counted.title());
        }
        self.try_wrong_claims(counted, &plain, &fetches.counts);
        lines
    }

    #[cfg(reference)]
    fn rust_account(&self, case: &Case) -> Option<Compared> {
        Reference::has(&case.program).then(|| reference_account(&self.reference, case, &case.call))
    }

    #[cfg(not(reference))]
    fn rust_account(&self, _case: &Case) -> Option<Compared> {
        None
    }

    fn try_wrong_claims(&mut self, counted: &Counted, account: &Compared, fetches: &[u64]) {
        let sought = self.found.iter_mut().zip(&WRONG);
        for (place, claim) in sought.filter(|(place, _)| place.is_none()) {
            if claim.covers(counted) {
                let lines = claim.differences(counted, account, fetches);
                *place = lines
                    .first()
                    .map(|line| format!("{}: {line}", counted.title()));
            }
        }
    }

    /// Whether all of them were found, a line each, and then the counts.
    fn print_wrong_claims(&self) -> bool {
        for (claim, place) in WRONG.iter().zip(&self.found) {
            let name = claim.name;
            match place {
                Some(place) => println!("wrong claim \"{name}\": found at {place}"),
                None => println!("wrong claim \"{name}\": NOT FOUND"),
            }
        }
        let Self { cases, charges, .. } = self;
        println!("{charges} charges; {cases} cases, 0 differ");
        let all = self.found.iter().all(Option::is_some);
        if !all {
            println!("a wrong claim is not found");
        }
        all
    }
}

fn named(name: &str, lines: &[String]) -> impl Iterator<Item = String> {
    lines.iter().map(move |line| format!("{name}: {line}"))
}

/// Counts the fetches that fall due, from LoopBegin to the record behind LoopEnd.
struct Fetches {
    first: u64,
    counts: Vec<u64>,
}

impl Fetches {
    fn of(counted: &Counted) -> Self {
        Self {
            first: counted.at as u64,
            counts: vec![0; counted.body + 4],
        }
    }
}

impl Watch for Fetches {
    fn fetch_due(&mut self, position: u64) {
        let index = position.wrapping_sub(self.first) as usize;
        if let Some(count) = self.counts.get_mut(index) {
            *count += 1;
        }
    }
}

/// none, k, k - 1, 1 and 0.
fn limits(k: u64) -> [Option<u32>; 5] {
    let k = k as u32;
    [None, Some(k), Some(k - 1), Some(1), Some(0)]
}

/// A loop somewhere in a program. A body of one record counts the accumulator down, one of seven has each of the seven.
fn listed(random: &mut Random, count: Count, body: usize, limit: Option<u32>) -> Counted {
    let turn = random.below(STRAIGHT.len());
    let builder = Builder::new(random, limit).surround();
    match body {
        1 => builder.counted(count, &[op::POST], Places::ONE).less_one(),
        _ => {
            let opcodes = STRAIGHT.iter().cycle().skip(turn).take(body);
            let opcodes: Vec<u8> = opcodes.copied().collect();
            builder.counted(count, &opcodes, Places::ONE)
        }
    }
}

fn listed_whole(random: &mut Random, k: u64, body: usize, limit: Option<u32>) -> Counted {
    listed(random, Count::whole(k), body, limit)
}

/// Without a step limit and under those near the loop's charges: from 0 on where there are few.
fn small(random: &mut Random) -> Vec<Counted> {
    let mut loops = Vec::new();
    for k in SMALL {
        for body in BODIES {
            for limit in limits(k) {
                let whole = listed_whole(random, k, body, limit);
                let charges = RIGHT.charges_of(&whole);
                loops.push(whole);
                let first = if charges < 100 { 0 } else { charges - 10 };
                let under = (first..=charges + 2)
                    .map(|left| listed_whole(random, k, body, limit).under(left));
                loops.extend(under);
            }
        }
    }
    loops
}

/// All of the list; the longest loop under one charge too few and just enough; 33,554,432 for longer than it says.
fn large(random: &mut Random) -> Vec<Counted> {
    let mut loops = Vec::new();
    for k in LARGE {
        for body in BODIES {
            for limit in limits(k) {
                loops.push(listed_whole(random, k, body, limit));
            }
        }
    }
    let [.., k] = LARGE;
    for limit in [None, Some(k as u32 - 1)] {
        let charges = RIGHT.charges_of(&listed_whole(random, k, 0, limit));
        for left in [charges - 1, charges] {
            loops.push(listed_whole(random, k, 0, limit).under(left));
        }
    }
    loops.push(listed(random, Count::endless(NEVER_END[0]), 0, None).under(40_000_000));
    loops
}

/// The floats of 16,777,217 and 16,777,218.
fn behind(random: &mut Random) -> Vec<Counted> {
    let ends = [16_777_217, 16_777_218];
    let mut loops: Vec<Counted> = Vec::new();
    for k in ends {
        for limit in [None, Some(k as u32 - 1), Some(1), Some(0)] {
            loops.push(listed_whole(random, k, 0, limit));
        }
    }
    loops
}

/// Under step limits, and under loop limits.
fn endless(random: &mut Random) -> Vec<Counted> {
    let mut loops = Vec::new();
    for number in NEVER_END {
        let count = Count::endless(number);
        for body in BODIES {
            for left in (0..20).chain([999, 1000, 65_537]) {
                loops.push(listed(random, count, body, None).under(left));
            }
            for limit in [0, 1, 2, 1000] {
                loops.push(listed(random, count, body, Some(limit)));
            }
        }
    }
    loops
}

/// Stacks that are as deep as they may be with the count, or one deeper; a store without a place; no count.
fn edges(random: &mut Random) -> Vec<Counted> {
    let mut loops = Vec::new();
    for limit in [65_534, 65_535] {
        for k in [1, 3, 1000, u64::from(limit), u64::from(limit) + 1] {
            let builder = Builder::new(random, Some(limit)).deepen();
            loops.push(builder.counted(Count::whole(k), &[op::POST], Places::ONE));
        }
    }
    for k in [1, 3] {
        for places in [Places { stack: 0, loops: 1 }, Places { stack: 1, loops: 0 }] {
            let builder = Builder::new(random, None).surround();
            loops.push(builder.counted(Count::whole(k), &[op::NEGATE], places));
        }
    }
    for body in BODIES {
        loops.push(listed_whole(random, 0, body, None).under(5));
    }
    loops
}

/// A small count, and all else at random.
fn any(random: &mut Random) -> Counted {
    let k = match random.weighted(&[4, 4, 1]) {
        0 => random.between(1, 4),
        1 => random.between(5, 60),
        _ => random.between(61, 600),
    };
    let limit = match random.below(8) {
        0 | 1 => None,
        2 => Some(k),
        3 => Some(k - 1),
        4 => Some(k + 1),
        5 => Some(u32::MAX as usize),
        6 => Some(random.below(2)),
        _ => Some(random.below(k + 3)),
    };
    // Half of the bodies keep what is in the accumulator.
    let from = &STRAIGHT[2 * random.below(2)..];
    let body: Vec<u8> = (0..random.below(10)).map(|_| random.pick(from)).collect();
    let places = Places {
        stack: random.between(1, 3),
        loops: random.between(1, 3),
    };
    let builder = Builder::new(random, limit.map(|limit| limit as u32)).surround();
    let counted = builder.counted(Count::whole(k as u64), &body, places);
    let charges = RIGHT.charges_of(&counted);
    match random.below(6) {
        0 | 1 => counted,
        2 => counted.under(u64::MAX),
        3 => counted.under(charges - 1),
        4 => counted.under(charges),
        _ => counted.under(random.next() % (charges + 3)),
    }
}
