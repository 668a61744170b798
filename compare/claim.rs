//! What document 02's first request says of a counted loop, as a few functions, and the wrong answers to it. From them
//! comes the whole account of a call: the body is applied one record after another, by no machine.

use std::ops::RangeInclusive;

use calls::{Depths, End, Lent, Program, Record, op};

use crate::account::{Compared, differences};
use crate::counted::{Counted, ENDLESS, Places, Standing};

/// The largest whole number of which each smaller one is a float too.
const LAST: u64 = 16_777_216;
/// The deepest stack, with the count, that LoopCheck lets pass.
const DEEPEST: usize = 65_536;

pub struct Claim {
    pub name: &'static str,
    /// The counts that it is about.
    pub counts: RangeInclusive<u64>,
    /// The free places that stack and loops need.
    pub places: usize,
    /// The deepest stack with the count.
    pub deepest: usize,
    /// The passes for a count and a loop limit.
    pub passes: fn(u64, Option<u32>) -> u64,
    /// The charges from LoopBegin to LoopEnd, for passes and body records.
    pub charges: fn(u64, u64) -> u64,
    /// Whether the loop notice is given, for a count and a loop limit.
    pub noticed: fn(u64, Option<u32>) -> bool,
}

/// "LoopBegin on a whole count k from 1 to 16,777,216, with loop limit none or at least k and charges enough, runs its body
/// exactly k times." "With b body records, LoopBegin to LoopEnd charges k(b + 1) + 2. A limit below k gives limit passes, or
/// one for limit 0."
pub const RIGHT: Claim = Claim {
    name: "as document 02 has it",
    counts: 1..=LAST,
    places: 1,
    deepest: DEEPEST,
    passes,
    charges: |passes, body| passes.saturating_mul(body + 1).saturating_add(2),
    noticed: |k, limit| passes(k, limit) < k,
};

/// The two counts behind the last: their floats make one pass fewer.
pub const BEHIND: Claim = Claim {
    name: "one pass fewer behind 16,777,216",
    counts: LAST + 1..=LAST + 2,
    passes: |k, limit| passes(k - 1, limit),
    noticed: |k, limit| passes(k - 1, limit) < k - 1,
    ..RIGHT
};

/// "The count 33,554,432 less 1 rounds back to itself": only a limit ends it.
pub const NEVER: Claim = Claim {
    name: "a count that never ends",
    counts: ENDLESS..=ENDLESS,
    ..RIGHT
};

pub const CLAIMS: [Claim; 3] = [RIGHT, BEHIND, NEVER];

/// Each has to be found wrong by some call.
pub const WRONG: [Claim; 12] = [
    Claim {
        name: "one charge fewer",
        charges: |passes, body| (RIGHT.charges)(passes, body) - 1,
        ..RIGHT
    },
    Claim {
        name: "one charge more",
        charges: |passes, body| (RIGHT.charges)(passes, body) + 1,
        ..RIGHT
    },
    Claim {
        name: "k - 1 passes",
        passes: |k, limit| passes(k - 1, limit),
        ..RIGHT
    },
    Claim {
        name: "k + 1 passes",
        passes: |k, limit| passes(k + 1, limit),
        ..RIGHT
    },
    Claim {
        name: "k - 1 passes for the charges of k",
        passes: |k, limit| passes(k - 1, limit),
        charges: |passes, body| (RIGHT.charges)(passes + 1, body),
        ..RIGHT
    },
    Claim {
        name: "the range to 16,777,217",
        counts: 1..=LAST + 1,
        ..RIGHT
    },
    Claim {
        name: "the range from 0",
        counts: 0..=LAST,
        ..RIGHT
    },
    Claim {
        name: "a notice for count 1 under limit 0",
        noticed: |k, limit| limit.is_some_and(|limit| u64::from(limit) < k),
        ..RIGHT
    },
    Claim {
        name: "limit 0 running no pass",
        passes: |k, limit| limit.map_or(k, |limit| k.min(limit.into())),
        ..RIGHT
    },
    Claim {
        name: "no notice under a limit below k",
        noticed: |_, _| false,
        ..RIGHT
    },
    Claim {
        name: "no place for the count",
        places: 0,
        ..RIGHT
    },
    Claim {
        name: "a stack of 65,537 with the count",
        deepest: DEEPEST + 1,
        ..RIGHT
    },
];

fn passes(k: u64, limit: Option<u32>) -> u64 {
    match limit.map(u64::from) {
        Some(limit) if limit < k => limit.max(1),
        _ => k,
    }
}

impl Claim {
    /// Whether something is claimed of this loop.
    pub fn covers(&self, counted: &Counted) -> bool {
        let Places { stack, loops } = counted.places;
        self.counts.contains(&counted.count.whole)
            && stack.min(loops) >= self.places
            && counted.before.stack.len() < self.deepest
    }

    /// How the account of a call, and the fetches from its loop on, differ from what is claimed.
    pub fn differences(&self, counted: &Counted, found: &Compared, fetches: &[u64]) -> Vec<String> {
        let expected = self.fetches(counted);
        let mut lines = differences(&self.account(counted).normalised(), found);
        if expected != fetches {
            lines.push(format!("expected fetches {expected:?}, found {fetches:?}"));
        }
        lines
    }

    fn passes_of(&self, counted: &Counted) -> u64 {
        (self.passes)(counted.count.whole, counted.loop_limit())
    }

    /// The charges from LoopBegin to LoopEnd.
    pub fn charges_of(&self, counted: &Counted) -> u64 {
        (self.charges)(self.passes_of(counted), counted.body as u64)
    }

    /// How often the fetch falls due of LoopBegin, each body record, LoopCheck, LoopEnd and the record behind it.
    fn fetches(&self, counted: &Counted) -> Vec<u64> {
        let (passes, charges) = (self.passes_of(counted), self.charges_of(counted));
        let left = left(counted);
        let period = counted.body as u64 + 1;
        let within = (1..=period).map(|before| match left.checked_sub(before) {
            Some(after) => passes.min(after / period + 1),
            None => 0,
        });
        let mut fetches = vec![1];
        fetches.extend(within);
        fetches.push(u64::from(left >= charges - 1));
        fetches.push(u64::from(left >= charges));
        fetches
    }

    /// The account of a call, but for the remainders.
    pub fn account(&self, counted: &Counted) -> Compared {
        let charges = self.charges_of(counted);
        let left = left(counted);
        let mut standing = counted.before.clone();
        let _ = self.walk(counted, &mut standing, left.min(charges));
        if left <= charges {
            return ended(counted, standing, left, (calls::STEPS, 0));
        }
        let behind = counted.behind();
        let end = match counted.case.program.records.get(behind) {
            Some(record) if record.opcode == op::HASH => (calls::HANDED_OVER, behind as u64),
            _ => (calls::DONE, 0),
        };
        ended(counted, standing, charges + 1, end)
    }

    /// Takes the loop's records in a row, as far as the charges go: the body as often as there are passes.
    fn walk(&self, counted: &Counted, standing: &mut Standing, charges: u64) -> Option<()> {
        let (k, limit) = (counted.count.whole, counted.loop_limit());
        let (program, this) = (&counted.case.program, counted.case.call.this);
        let whole = (self.passes)(k, None);
        let left_after = |pass: u64| match k {
            // It falls once at the most.
            ENDLESS => counted.count.number - 1.0,
            _ => whole.saturating_sub(pass) as f32,
        };
        let mut left = charges;
        let mut charge = || left.checked_sub(1).map(|rest| left = rest);
        let passes = self.passes_of(counted);
        charge()?;
        let (depth, loops) = (standing.stack.len(), standing.loops.len());
        standing.stack.push(left_after(1));
        standing.loops.push(1);
        for pass in 1..=passes {
            for record in counted.body() {
                charge()?;
                standing.apply(program, this, *record);
            }
            charge()?;
            if pass < passes {
                standing.stack[depth] = left_after(pass + 1);
                standing.loops[loops] += u32::from(limit.is_some());
            }
        }
        if (self.noticed)(k, limit) {
            standing.notices.loop_limit = 1;
        }
        charge()?;
        standing.stack.truncate(depth);
        standing.loops.truncate(loops);
        Some(())
    }
}

/// The charges that the smaller limit leaves when the run comes to the loop.
fn left(counted: &Counted) -> u64 {
    counted.case.call.smaller_limit().unwrap_or(u64::MAX) - counted.before.charges
}

/// The account of a run that ends so, `charges` after it came to the loop.
fn ended(counted: &Counted, standing: Standing, charges: u64, end: (u32, u64)) -> Compared {
    let (outcome, position) = end;
    let accumulator = standing.accumulator.to_bits();
    let end = End {
        outcome,
        position,
        value: if outcome == calls::DONE {
            accumulator
        } else {
            0
        },
        charges: standing.charges + charges,
        accumulator,
        depths: Depths {
            stack: standing.stack.len() as u64,
            loops: standing.loops.len() as u64,
            handlers: standing.handlers.len() as u64,
        },
        notices: standing.notices,
        empty_pops: 0, // what is taken, in all these programs, is there
        temps: standing.temps.map(|temp| temp.map(f32::to_bits)).into(),
    };
    let rooms = &counted.case.lent;
    let mut lent = Lent {
        cells: standing.cells,
        stack: standing.stack.into_iter().map(f32::to_bits).collect(),
        loops: standing.loops,
        handlers: standing.handlers,
    };
    lent.stack.resize(rooms.stack.len(), 0);
    lent.loops.resize(rooms.loops.len(), 0);
    lent.handlers.resize(rooms.handlers.len(), 0);
    Compared {
        refusal: 0,
        end,
        lent,
    }
}

impl Standing {
    /// One of the seven records that a body may have.
    fn apply(&mut self, program: &Program, this: u32, record: Record) {
        let index = record.argument as usize;
        let post = program.posts[usize::from(record.post)];
        let (scale, offset) = (f32::from_bits(post.scale), f32::from_bits(post.offset));
        let same = scale == 1.0 && offset == 0.0;
        let posted = |x: f32| if same { x } else { x * scale + offset };
        let x = self.accumulator;
        match record.opcode {
            op::STORE_VAR => self.set_cell(index, x),
            op::STORE_TEMP => self.temps[index] = Some(x),
            _ => {}
        }
        self.accumulator = match record.opcode {
            op::CONST => f32::from_bits(program.constants[index]),
            op::THIS => posted(f32::from_bits(this)),
            op::NEGATE if same => -x,
            op::NEGATE => offset - x * scale,
            op::NOT if x == 0.0 => scale + offset,
            op::NOT => offset,
            op::POST | op::STORE_VAR | op::STORE_TEMP => posted(x),
            other => unreachable!("opcode {other} in a body"),
        };
    }
}
