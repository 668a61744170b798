//! Every pair of small limits, document 02's second request: the subject against the plain reading,
//! with what remains of both limits, and against what the request says of a run whose charges
//! without a limit are known.

use calls::{Call, Cells, Lent, Limits, Post, Program, Record, Remainders, STEPS, op};

use crate::account::{Account, Compared, differences};
use crate::generate::Case;
use crate::reading::{print_lines, subject_account, wrong};
use crate::show;
use crate::subject::Subject;

/// The limits on either side, beside none and 2^64 - 1.
const MOST: u64 = 12;

/// Indices of constants; a program has all of them.
const CONSTANTS: [f32; 5] = [2.0, 3.0, 0.0, f32::NAN, -4.0];
const TWO: u32 = 0;
const THREE: u32 = 1;
const ZERO: u32 = 2;
const NAN: u32 = 3;
const MINUS_FOUR: u32 = 4;

/// The length of a working store that is large enough.
const ROOM: usize = 8;

/// A call, and its charges without a limit.
struct Listed {
    name: &'static str,
    /// Opcodes and arguments.
    code: &'static [(u8, u32)],
    loop_limit: Option<u32>,
    stack_room: usize,
    context: usize,
    refusal: u32,
    charges: u64,
}

const PLAIN: Listed = Listed {
    name: "",
    code: &[],
    loop_limit: None,
    stack_room: ROOM,
    context: 1,
    refusal: 0,
    charges: 0,
};

const fn loop_of(count: u32) -> [(u8, u32); 6] {
    [
        (op::CONST, count),
        (op::LOOP_BEGIN, 5),
        (op::POST, 0),
        (op::LOOP_CHECK, 2),
        (op::LOOP_END, 0),
        (op::END, 0),
    ]
}

const PUSHED_AND_ADDED: &[(u8, u32)] = &[(op::PUSH_CONST, TWO), (op::ADD_LAST, 0), (op::END, 0)];
const TWO_PUSHED: &[(u8, u32)] = &[(op::PUSH_CONST, TWO), (op::PUSH_CONST, THREE), (op::END, 0)];

/// Document 01's 'Runs set out'. Those that it sets out under a step limit have all of them here.
const RUNS: [Listed; 12] = [
    Listed {
        name: "run 1",
        charges: 1,
        ..PLAIN
    },
    Listed {
        name: "run 2",
        charges: 1,
        ..PLAIN
    },
    Listed {
        name: "run 3",
        code: PUSHED_AND_ADDED,
        charges: 4,
        ..PLAIN
    },
    Listed {
        name: "run 4",
        code: PUSHED_AND_ADDED,
        charges: 4,
        ..PLAIN
    },
    Listed {
        name: "run 5",
        code: &loop_of(THREE),
        charges: 10,
        ..PLAIN
    },
    Listed {
        name: "run 6",
        code: &loop_of(THREE),
        loop_limit: Some(0),
        charges: 6,
        ..PLAIN
    },
    Listed {
        name: "run 7",
        code: &loop_of(ZERO),
        charges: 3,
        ..PLAIN
    },
    Listed {
        name: "run 8",
        code: &loop_of(NAN),
        loop_limit: Some(2),
        charges: 8,
        ..PLAIN
    },
    Listed {
        name: "run 9",
        code: &[
            (op::HANDLER_PUSH, 3),
            (op::PUSH, 0),
            (op::LOAD_VAR, 0),
            (op::END, 0),
        ],
        charges: 4,
        ..PLAIN
    },
    Listed {
        name: "run 10",
        code: &[(op::LOAD_VAR, 0)],
        charges: 1,
        ..PLAIN
    },
    Listed {
        name: "run 11",
        code: &[(op::CONST, MINUS_FOUR), (op::MOD_CONST, TWO), (op::END, 0)],
        charges: 3,
        ..PLAIN
    },
    Listed {
        name: "run 12",
        code: &[(op::HASH, 0)],
        charges: 1,
        ..PLAIN
    },
];

/// A limit may fall between the two charges of a PushConst.
const PUSH_CONSTS: [Listed; 8] = [
    Listed {
        name: "PushConst alone",
        code: &[(op::PUSH_CONST, TWO)],
        charges: 3,
        ..PLAIN
    },
    Listed {
        name: "PushConst last",
        code: &[(op::CONST, THREE), (op::PUSH, 0), (op::PUSH_CONST, TWO)],
        charges: 5,
        ..PLAIN
    },
    Listed {
        name: "two PushConst",
        code: TWO_PUSHED,
        charges: 5,
        ..PLAIN
    },
    Listed {
        name: "a jump to PushConst",
        code: &[
            (op::JUMP, 2),
            (op::HALT, 0),
            (op::PUSH_CONST, TWO),
            (op::END, 0),
        ],
        charges: 4,
        ..PLAIN
    },
    Listed {
        name: "a handler at PushConst",
        code: &[
            (op::HANDLER_PUSH, 2),
            (op::LOAD_VAR, 0),
            (op::PUSH_CONST, TWO),
            (op::END, 0),
        ],
        charges: 5,
        ..PLAIN
    },
    Listed {
        name: "PushConst in a loop",
        code: &[
            (op::CONST, TWO),
            (op::LOOP_BEGIN, 6),
            (op::PUSH_CONST, TWO),
            (op::ADD_LAST, 0),
            (op::LOOP_CHECK, 2),
            (op::LOOP_END, 0),
            (op::END, 0),
        ],
        charges: 12,
        ..PLAIN
    },
    Listed {
        name: "two PushConst with one place",
        code: TWO_PUSHED,
        stack_room: 1,
        charges: 3,
        ..PLAIN
    },
    Listed {
        name: "PushConst with no place",
        code: TWO_PUSHED,
        stack_room: 0,
        charges: 1,
        ..PLAIN
    },
];

/// By their files, and by a context of two cells.
const REFUSED: [Listed; 2] = [
    Listed {
        name: "a refused file",
        code: &[(op::END, 0), (0, 0)],
        refusal: 7,
        ..PLAIN
    },
    Listed {
        name: "a refused call",
        code: PUSHED_AND_ADDED,
        context: 2,
        refusal: 10,
        ..PLAIN
    },
];

const PARTS: [(&str, &[Listed]); 3] = [
    ("document 01's runs", &RUNS),
    ("PushConst", &PUSH_CONSTS),
    ("refused", &REFUSED),
];

impl Listed {
    fn case(&self, limits: Limits) -> Case {
        let record = |&(opcode, argument): &(u8, u32)| Record {
            opcode,
            argument,
            ..Record::default()
        };
        let program = Program {
            names: 1,
            temps: 0,
            constants: CONSTANTS.map(f32::to_bits).to_vec(),
            posts: vec![Post::IDENTITY],
            hashes: vec![1],
            records: self.code.iter().map(record).collect(),
        };
        let [step_limit, house_limit] = limits;
        let call = Call {
            file: program.encode(),
            context: missing(self.context),
            this: 0,
            step_limit,
            loop_limit: self.loop_limit,
            house_limit,
        };
        let lent = Lent {
            cells: missing(1),
            stack: vec![7; self.stack_room],
            loops: vec![7; ROOM],
            handlers: vec![7; ROOM],
        };
        Case {
            program,
            call,
            lent,
        }
    }

    fn title(&self, limits: Limits) -> String {
        let [guest, house] = limits.map(|limit| match limit {
            Some(limit) => limit.to_string(),
            None => "none".to_string(),
        });
        format!("{} under {guest} and {house}", self.name)
    }

    /// What is claimed of this call under these limits: it makes the charges that it makes without
    /// a limit, or as many as the smaller one lets it, and those are taken from both. Where it is
    /// stopped, nothing is claimed of what it leaves.
    fn claimed(&self, limits: Limits, unlimited: &Compared, found: &Compared) -> Account {
        let [guest, house] = limits.map(|limit| limit.unwrap_or(u64::MAX));
        let smaller = guest.min(house);
        let charges = self.charges.min(smaller);
        let mut compared = unlimited.clone();
        if smaller < self.charges {
            compared = found.clone();
            compared.end.outcome = STEPS;
            compared.end.value = 0;
            compared.end.position = 0;
        }
        compared.refusal = self.refusal;
        compared.end.charges = charges;
        Account {
            compared,
            remainders: Remainders {
                guest: guest - charges,
                house: house - charges,
            },
        }
    }
}

fn missing(count: usize) -> Cells {
    Cells {
        kinds: vec![Cells::MISSING; count],
        values: vec![0; count],
    }
}

/// Every pair of limits.
fn pairs() -> impl Iterator<Item = Limits> {
    let sides = || (0..=MOST).map(Some).chain([None, Some(u64::MAX)]);
    sides().flat_map(move |guest| sides().map(move |house| [guest, house]))
}

/// Which limit stopped the calls, where one did.
#[derive(Default)]
struct Counts {
    calls: u64,
    by_guest: u64,
    by_house: u64,
    by_both: u64,
}

impl Counts {
    fn count(&mut self, account: &Account) {
        self.calls += 1;
        if account.end().outcome == STEPS {
            match account.remainders {
                Remainders { guest: 0, house: 0 } => self.by_both += 1,
                Remainders { guest: 0, .. } => self.by_guest += 1,
                _ => self.by_house += 1,
            }
        }
    }
}

/// Makes every call of the list under every pair; whether nothing differs.
pub fn check(subject: &dyn Subject) -> bool {
    let mut counts = Counts::default();
    let passed = PARTS
        .iter()
        .all(|(name, list)| check_part(subject, name, list, &mut counts));
    if passed {
        let Counts {
            calls,
            by_guest,
            by_house,
            by_both,
        } = counts;
        println!(
            "stopped by the guest's limit {by_guest}, by the house's {by_house}, by both {by_both}"
        );
        println!("{calls} calls under pairs of limits, 0 differ");
    }
    passed
}

fn check_part(subject: &dyn Subject, name: &str, list: &[Listed], counts: &mut Counts) -> bool {
    let calls = counts.calls;
    for listed in list {
        let unlimited = unlimited(subject, listed);
        for limits in pairs() {
            let case = listed.case(limits);
            let found = subject_account(subject, &case);
            let mut lines = wrong(subject, &case);
            lines.extend(claim_differences(listed, limits, &unlimited, &found));
            if !lines.is_empty() {
                println!("{} differs", listed.title(limits));
                print!("{}", show::case(&case));
                print_lines(&lines);
                return false;
            }
            counts.count(&found);
        }
    }
    println!("{name}: {} calls", counts.calls - calls);
    true
}

fn unlimited(subject: &dyn Subject, listed: &Listed) -> Compared {
    subject_account(subject, &listed.case([None, None])).compared
}

fn claim_differences(
    listed: &Listed,
    limits: Limits,
    unlimited: &Compared,
    found: &Account,
) -> Vec<String> {
    let claimed = listed.claimed(limits, unlimited, &found.compared);
    let lines = differences(&claimed, found).into_iter();
    lines.map(|line| format!("the claim: {line}")).collect()
}

/// The first call whose account the subject has otherwise than claimed.
#[cfg(slips)]
pub fn first_difference(subject: &dyn Subject) -> Option<String> {
    let lists = PARTS.iter().flat_map(|(_, list)| *list);
    let mut pairs = lists.flat_map(|listed| pairs().map(move |limits| (listed, limits)));
    let (listed, limits) = pairs.find(|&(listed, limits)| {
        let found = subject_account(subject, &listed.case(limits));
        let unlimited = unlimited(subject, listed);
        !claim_differences(listed, limits, &unlimited, &found).is_empty()
    })?;
    Some(listed.title(limits))
}
