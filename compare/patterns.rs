//! Floor, Ceil, Trunc and Abs over patterns, beside C's floorf, ceilf, truncf and fabsf: the plain
//! reading's functions, and calls of the subject, which take 256 patterns each.

use std::hint::black_box;
use std::thread;

use calls::{Call, Cells, DONE, Lent, MADE_NAN, Post, Program, Record, TABLE, is_nan, op};

use crate::code::WHOLE;
use crate::plain;
use crate::subject::Subject;

#[link(name = "m")]
unsafe extern "C" {
    safe fn floorf(x: f32) -> f32;
    safe fn ceilf(x: f32) -> f32;
    safe fn truncf(x: f32) -> f32;
    safe fn fabsf(x: f32) -> f32;
}

type InC = extern "C" fn(f32) -> f32;

/// What the four give, by opcode and pattern.
#[cfg(slips)]
pub type Whole = fn(u8, u32) -> u32;

/// The patterns of a call: as many as it may have cells.
const A_CALL: usize = 256;
const ALL: u64 = 1 << 32;
const SIGN: u32 = 0x8000_0000;

/// C's function for an opcode, as the C library has it: the compiler may put none in its place.
fn in_c(opcode: u8) -> InC {
    black_box(match opcode {
        op::FLOOR => floorf,
        op::CEIL => ceilf,
        op::TRUNC => truncf,
        _ => fabsf,
    })
}

/// What C's function gives. What NaN gives is the request's, and so is the sign of a zero.
fn expected(opcode: u8, c: InC, bits: u32) -> u32 {
    let given = c(f32::from_bits(bits)).to_bits();
    match given & !SIGN {
        _ if is_nan(bits) => MADE_NAN,
        0 if opcode == op::ABS => 0,
        0 => bits & SIGN,
        _ => given,
    }
}

/// Every sign and exponent, with digits that are ones below a place, ones from a place on, a single
/// one or a single zero, and the neighbours of all these.
fn listed() -> Vec<u32> {
    let below = |place: u32| (1u32 << place) - 1;
    let runs = (0..=23).flat_map(|place| [below(place), below(23) - below(place)]);
    let single = (0..23).flat_map(|place| [1 << place, below(23) - (1 << place)]);
    let digits: Vec<u32> = runs.chain(single).collect();
    let exponents = (0..512).map(|exponent| exponent << 23);
    let exact = exponents.flat_map(|exponent| digits.iter().map(move |digits| exponent | digits));
    let neighbours = exact.flat_map(|bits| [bits.wrapping_sub(1), bits, bits.wrapping_add(1)]);
    let mut patterns: Vec<u32> = neighbours.collect();
    patterns.sort_unstable();
    patterns.dedup();
    patterns
}

/// The patterns of which a machine does not give what C does.
#[derive(Clone, Default)]
struct Wrong {
    count: u64,
    first: Option<String>,
}

impl Wrong {
    fn judge(&mut self, bits: u32, right: u32, found: u32) {
        if right != found {
            self.count += 1;
            self.first
                .get_or_insert_with(|| format!("of {bits:08X} not {right:08X} but {found:08X}"));
        }
    }

    fn add(&mut self, other: Self) {
        self.count += other.count;
        self.first = self.first.take().or(other.first);
    }
}

/// Of one of the four: the plain reading's function, and the subject's calls.
type Both = [Wrong; 2];

/// Holds the listed patterns; whether none differs.
pub fn check_listed(subject: &dyn Subject) -> bool {
    let patterns = listed();
    let hold = |opcode| {
        let mut trial = Trial::new(opcode, Some(subject));
        patterns.chunks(A_CALL).for_each(|some| trial.hold(some));
        trial.wrong
    };
    print(patterns.len() as u64, true, &WHOLE.map(hold))
}

/// Holds `count` patterns from `first` on, on so many threads; whether none differs. Of the plain
/// reading only the functions: its calls would take hours.
pub fn check_range(subject: &dyn Subject, first: u64, count: u64, threads: u64) -> bool {
    let end = (first + count).min(ALL);
    let share = (end - first).div_ceil(threads);
    let calls = cfg!(library);
    let mut wrong: [Both; 4] = Default::default();
    thread::scope(|scope| {
        let parts = (0..threads).map(|part| {
            let from = first + part * share;
            let to = (from + share).min(end);
            scope.spawn(move || hold_range(calls.then_some(subject), from, to))
        });
        for part in parts.collect::<Vec<_>>() {
            let found = part.join().expect("every call is done");
            for (all, found) in wrong.iter_mut().flatten().zip(found.into_iter().flatten()) {
                all.add(found);
            }
        }
    });
    println!("from {first:08X} on, {threads} threads");
    print(end - first, calls, &wrong)
}

fn hold_range(subject: Option<&dyn Subject>, from: u64, to: u64) -> [Both; 4] {
    WHOLE.map(|opcode| {
        let mut trial = Trial::new(opcode, subject);
        for start in (from..to).step_by(A_CALL) {
            let end = to.min(start + A_CALL as u64);
            let some: Vec<u32> = (start..end).map(|bits| bits as u32).collect();
            trial.hold(&some);
        }
        trial.wrong
    })
}

/// Writes a line for each of the four; whether none differs.
fn print(patterns: u64, calls: bool, wrong: &[Both; 4]) -> bool {
    let machines = ["the plain reading's function", "the subject's calls"];
    for (opcode, both) in WHOLE.into_iter().zip(wrong) {
        let title = TABLE[usize::from(opcode)].title;
        let machines = machines.into_iter().take(1 + usize::from(calls));
        for (machine, Wrong { count, first }) in machines.zip(both) {
            let first = first.as_ref().map(|first| format!(", first {first}"));
            let first = first.unwrap_or_default();
            println!("{title}, {machine}: {count} not as in C{first}");
        }
    }
    let differ: u64 = wrong.iter().flatten().map(|wrong| wrong.count).sum();
    println!("{patterns} patterns of four functions, {differ} differ");
    differ == 0
}

/// One of the four, with the subject's call that takes its patterns.
struct Trial<'a> {
    opcode: u8,
    c: InC,
    subject: Option<&'a dyn Subject>,
    call: Call,
    lent: Lent,
    wrong: Both,
}

impl<'a> Trial<'a> {
    fn new(opcode: u8, subject: Option<&'a dyn Subject>) -> Self {
        let cells = |kind| Cells {
            kinds: vec![kind; A_CALL],
            values: vec![0; A_CALL],
        };
        Self {
            opcode,
            c: in_c(opcode),
            subject,
            call: Call {
                file: program(opcode).encode(),
                context: cells(Cells::MISSING),
                this: 0,
                step_limit: None,
                loop_limit: None,
                house_limit: None,
            },
            lent: Lent {
                cells: cells(Cells::FLOAT),
                ..Lent::default()
            },
            wrong: Both::default(),
        }
    }

    /// Tries at most as many patterns as a call takes.
    fn hold(&mut self, patterns: &[u32]) {
        let Self { opcode, c, .. } = *self;
        if let Some(subject) = self.subject {
            self.run(subject, patterns);
        }
        let [plain, called] = &mut self.wrong;
        for (&bits, &left) in patterns.iter().zip(&self.lent.cells.values) {
            let right = expected(opcode, c, bits);
            plain.judge(bits, right, plain::whole(opcode, bits));
            if self.subject.is_some() {
                called.judge(bits, right, left as u32);
            }
        }
    }

    /// Has the subject make the patterns whole, in the cells.
    fn run(&mut self, subject: &dyn Subject, patterns: &[u32]) {
        for (value, bits) in self.lent.cells.values.iter_mut().zip(patterns) {
            *value = (*bits).into();
        }
        let reply = subject.run(&self.call, &mut self.lent);
        let outcome = reply.account.end.outcome;
        assert_eq!((reply.refusal, outcome), (0, DONE), "every call is done");
    }
}

/// Each cell is loaded, made whole and stored.
fn program(opcode: u8) -> Program {
    let record = |opcode, argument| Record {
        opcode,
        argument,
        ..Record::default()
    };
    let of_cell = |cell| {
        [
            record(op::LOAD_VAR, cell),
            record(opcode, 0),
            record(op::STORE_VAR, cell),
        ]
    };
    Program {
        names: A_CALL as u16,
        temps: 0,
        constants: Vec::new(),
        posts: vec![Post::IDENTITY],
        hashes: Vec::new(),
        records: (0..A_CALL as u32).flat_map(of_cell).collect(),
    }
}

/// The first of the listed patterns of which these functions do not give what C's do.
#[cfg(slips)]
pub fn first_wrong(whole: Whole) -> Option<String> {
    let four = WHOLE.map(|opcode| (opcode, in_c(opcode)));
    let wrong = |bits: u32| {
        let mut four = four.iter();
        four.find(|(opcode, c)| expected(*opcode, *c, bits) != whole(*opcode, bits))
    };
    let place = |bits: u32| {
        let (opcode, _) = wrong(bits)?;
        Some(format!(
            "{} of {bits:08X}",
            TABLE[usize::from(*opcode)].title
        ))
    };
    listed().into_iter().find_map(place)
}
