//! Replays a list that vectors.rs wrote: the subject has to give every line again.

use std::fs;

use calls::{Call, Cells, Lent};

use crate::account::{Account, Compared};
use crate::generate::Case;
use crate::plain;
use crate::subject::Subject;
use crate::vectors;

/// What stands in the working stores before each call.
const GARBAGE: u32 = 0x7FA5_5AA5;

/// Whether the subject answers every line of the file as the Rust did.
pub fn replay(subject: &dyn Subject, path: &str) -> bool {
    let text = fs::read_to_string(path).expect("a list of calls");
    for (number, line) in text.lines().enumerate() {
        let case = parse(line).unwrap_or_else(|| panic!("line {number} is not a call"));
        let account = Account::of(&case.lent, |lent| subject.run(&case.call, lent));
        let found = account.compared.normalised();
        if vectors::line(&case, &found) != line || !is_zero_above_depths(&found) {
            println!("line {number} differs");
            return false;
        }
    }
    println!("{} calls replayed, 0 differ", text.lines().count());
    true
}

fn is_zero_above_depths(found: &Compared) -> bool {
    let lent = &found.lent;
    let [stack, loops, handlers] = found.depths();
    lent.stack[stack..].iter().all(|&x| x == 0)
        && lent.loops[loops..].iter().all(|&x| x == 0)
        && lent.handlers[handlers..].iter().all(|&x| x == 0)
}

/// The call of a line; its first nine fields bring it.
fn parse(line: &str) -> Option<Case> {
    let mut fields = line.split(' ');
    let file: Vec<u8> = entries(fields.next()?, 2).map(|byte| byte as u8).collect();
    let lent_cells = cells(fields.next()?);
    let call = Call {
        context: cells(fields.next()?),
        this: number(fields.next()?)? as u32,
        step_limit: number(fields.next()?),
        loop_limit: number(fields.next()?).map(|limit| limit as u32),
        house_limit: None,
        file,
    };
    let mut room = || number(fields.next()?).map(|room| room as usize);
    let lent = Lent {
        cells: lent_cells,
        stack: vec![GARBAGE; room()?],
        loops: vec![GARBAGE; room()?],
        handlers: vec![u64::from(GARBAGE); room()?],
    };
    Some(Case {
        program: plain::read(&call.file).ok()?,
        call,
        lent,
    })
}

/// A number, or none for `-`.
fn number(field: &str) -> Option<u64> {
    u64::from_str_radix(field, 16).ok()
}

/// Entries of a fixed number of digits each; none for `-`.
fn entries(field: &str, digits: usize) -> impl Iterator<Item = u64> {
    let count = field.len() / digits;
    (0..count).filter_map(move |at| number(&field[at * digits..][..digits]))
}

/// A digit for the kind and sixteen for the value of each cell.
fn cells(field: &str) -> Cells {
    let each = field.as_bytes().chunks_exact(17);
    let text = each.map(|cell| str::from_utf8(cell).expect("hexadecimal digits"));
    let parts = text.filter_map(|cell| Some((number(&cell[..1])? as u8, number(&cell[1..])?)));
    let (kinds, values) = parts.unzip();
    Cells { kinds, values }
}
