//! What the compared runs did, counted by the plain reading that runs beside the subject.

use calls::{End, OUTCOMES, Record, TABLE, is_nan, op};

use crate::plain::{Machine, Watch};

pub struct Coverage {
    executed: [u64; TABLE.len()],
    outcomes: [u64; OUTCOMES.len()],
    charges: u64,
    empty_pops: u64,
    /// The calls that have some.
    popped_empty: u64,
    /// The deepest operand stack, loops and handlers.
    deepest: [usize; 3],
    /// Whether the run being watched had EqHash meet a NaN.
    pub hash_met_nan: bool,
}

impl Watch for Coverage {
    fn acts(&mut self, machine: &Machine, record: Record) {
        self.executed[usize::from(record.opcode)] += 1;
        let depths = [
            machine.stack.len(),
            machine.loops.len(),
            machine.handlers.len(),
        ];
        for (deepest, depth) in self.deepest.iter_mut().zip(depths) {
            *deepest = depth.max(*deepest);
        }
        self.hash_met_nan |= record.opcode == op::EQ_HASH && is_nan(machine.accumulator);
    }
}

impl Coverage {
    pub fn new() -> Self {
        Self {
            executed: [0; TABLE.len()],
            outcomes: [0; OUTCOMES.len()],
            charges: 0,
            empty_pops: 0,
            popped_empty: 0,
            deepest: [0; 3],
            hash_met_nan: false,
        }
    }

    pub fn count_end(&mut self, end: &End) {
        self.outcomes[end.outcome as usize] += 1;
        self.charges += end.charges;
        self.empty_pops += end.empty_pops;
        self.popped_empty += u64::from(end.empty_pops != 0);
    }

    pub fn print(&self) {
        println!("executed:");
        for row in (1..TABLE.len()).collect::<Vec<_>>().chunks(6) {
            let cell = |&opcode: &usize| {
                format!("{:13}{:>11}", TABLE[opcode].title, self.executed[opcode])
            };
            let cells: Vec<String> = row.iter().map(cell).collect();
            println!("  {}", cells.join("   "));
        }
        println!("outcomes:");
        for (name, count) in OUTCOMES.iter().zip(self.outcomes) {
            println!("  {name:28}{count:>12}");
        }
        let [stack, loops, handlers] = self.deepest;
        println!("deepest: operand stack {stack}, loops {loops}, handlers {handlers}");
        println!("{} charges", self.charges);
        let (pops, calls) = (self.empty_pops, self.popped_empty);
        println!("{pops} empty pops, in {calls} calls");
    }
}
