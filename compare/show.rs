//! A call, written to be read.

use std::fmt::Write;

use calls::{Cells, Program, Record, TABLE, uses};

use crate::generate::Case;

pub fn case(case: &Case) -> String {
    let Case {
        program,
        call,
        lent,
    } = case;
    let mut text = String::new();
    for (at, record) in program.records.iter().enumerate() {
        let _ = writeln!(text, "  {at:3}  {}", show_record(program, *record));
    }
    let _ = writeln!(text, "  cells {}", show_cells(&lent.cells));
    let _ = writeln!(text, "  context {}", show_cells(&call.context));
    let _ = writeln!(text, "  this {}", show_number(call.this));
    let _ = writeln!(
        text,
        "  step limit {:?}, house limit {:?}, loop limit {:?}",
        call.step_limit, call.house_limit, call.loop_limit
    );
    let (stack, loops, handlers) = (lent.stack.len(), lent.loops.len(), lent.handlers.len());
    let _ = writeln!(
        text,
        "  rooms: stack {stack}, loops {loops}, handlers {handlers}"
    );
    text
}

fn show_record(program: &Program, record: Record) -> String {
    let argument = record.argument as usize;
    let part = |part| uses(record.opcode, part);
    let mut text = TABLE[usize::from(record.opcode)].title.to_string();
    if record.choice != 0 {
        let _ = write!(text, " choice {}", record.choice);
    }
    if part('c') {
        let _ = write!(text, " {}", show_number(program.constants[argument]));
    }
    if part('h') {
        let _ = write!(text, " {:016x}", program.hashes[argument]);
    }
    if part('n') || part('t') || part('q') {
        let _ = write!(text, " #{argument}");
    }
    if part('N') || part('T') {
        let _ = write!(text, " #{}", record.post);
    }
    if part('j') {
        let _ = write!(text, " -> {argument}");
    }
    if part('p') {
        let post = program.posts[usize::from(record.post)];
        let (scale, offset) = (show_number(post.scale), show_number(post.offset));
        let _ = write!(text, "  post {} = ({scale}, {offset})", record.post);
    }
    text
}

fn show_number(bits: u32) -> String {
    format!("{:?} [{bits:08x}]", f32::from_bits(bits))
}

fn show_cells(cells: &Cells) -> String {
    let one = |(&kind, &value): (&u8, &u64)| match kind {
        Cells::MISSING => "missing".to_string(),
        Cells::FLOAT => show_number(value as u32),
        Cells::HASH => format!("hash {value:016x}"),
        _ => "other".to_string(),
    };
    let shown: Vec<String> = cells.kinds.iter().zip(&cells.values).map(one).collect();
    format!("[{}]", shown.join(", "))
}
