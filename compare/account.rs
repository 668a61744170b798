//! Whole accounts, and how two of them differ.

use std::fmt::Debug;

use calls::{Cells, End, Lent, MADE_NAN, Remainders, Reply, is_nan};

/// The most lines that are shown of a difference.
const MOST_LINES: usize = 20;

/// What is compared in the rule about two limits, and but for the empty pops with the Rust: a reply
/// without its remainders, and the lent stores as left.
#[derive(Clone, Debug, PartialEq, Eq)]
pub struct Compared {
    pub refusal: u32,
    pub end: End,
    pub lent: Lent,
}

/// A whole account, as the machine under test and the plain reading give it.
#[derive(Clone, Debug, PartialEq, Eq)]
pub struct Account {
    pub compared: Compared,
    pub remainders: Remainders,
}

impl Account {
    /// The account of a run over a copy of what is lent. A temp that is not set has no number.
    pub fn of(lent: &Lent, run: impl FnOnce(&mut Lent) -> Reply) -> Self {
        let mut lent = lent.clone();
        let Reply { refusal, account } = run(&mut lent);
        let calls::Account {
            mut end,
            remainders,
        } = account;
        end.temps = end.temps.bits().into();
        Self {
            compared: Compared { refusal, end, lent },
            remainders,
        }
    }

    pub fn end(&self) -> &End {
        &self.compared.end
    }
}

impl Compared {
    /// The final depths of the operand stack, the loops and the handlers.
    pub fn depths(&self) -> [usize; 3] {
        let depths = self.end.depths;
        [depths.stack, depths.loops, depths.handlers].map(|depth| depth as usize)
    }

    /// The same with the empty pops of another end: the Rust counts none, so those of the plain
    /// reading stand in its account.
    pub fn with_empty_pops(mut self, of: &End) -> Self {
        self.end.empty_pops = of.empty_pops;
        self
    }

    /// The same with every NaN made one NaN.
    pub fn normalised(mut self) -> Self {
        let end = &mut self.end;
        normalise(&mut end.value);
        normalise(&mut end.accumulator);
        end.temps.numbers.iter_mut().for_each(normalise);
        self.lent.stack.iter_mut().for_each(normalise);
        let cells = &mut self.lent.cells;
        for (value, kind) in cells.values.iter_mut().zip(&cells.kinds) {
            if *kind == Cells::FLOAT && is_nan(*value as u32) {
                *value = u64::from(MADE_NAN);
            }
        }
        self
    }
}

/// The first parts in which `found` is not as expected, a line each.
pub fn differences<T: Debug + PartialEq>(expected: &T, found: &T) -> Vec<String> {
    if expected == found {
        return Vec::new();
    }
    let pairs = parts(expected).into_iter().zip(parts(found));
    let lines = pairs.filter(|(expected, found)| expected != found);
    let lines = lines.map(|(expected, found)| format!("expected {expected}, found {found}"));
    let mut lines: Vec<String> = lines.take(MOST_LINES).collect();
    if lines.is_empty() {
        lines.push("a store has another length".to_string());
    }
    lines
}

fn normalise(bits: &mut u32) {
    if is_nan(*bits) {
        *bits = MADE_NAN;
    }
}

/// The numbers of a value in the order of `Debug`, each behind the names of the parts it stands in.
fn parts(value: &impl Debug) -> Vec<String> {
    let mut parts = Vec::new();
    let mut open: Vec<(String, usize)> = Vec::new();
    for line in format!("{value:#x?}").lines() {
        let line = line.trim().trim_end_matches(',');
        if line == "}" || line == "]" {
            open.pop();
            continue;
        }
        let Some((names, entries)) = open.last_mut() else {
            open.push((String::new(), 0));
            continue;
        };
        let entry = entries.to_string();
        let (name, part) = line.split_once(": ").unwrap_or((&entry, line));
        let names = format!("{names}{name} ");
        *entries += 1;
        if part.ends_with(['{', '[']) {
            open.push((names, 0));
        } else {
            parts.push(names + part);
        }
    }
    parts
}
