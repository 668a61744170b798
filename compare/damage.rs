//! Files and calls that are to be refused, most of them by one thing only.

use calls::{Cells, MOST_HANDLERS, MOST_LOOPS, MOST_STACK, Post, Record, TABLE, op};

use crate::generate::Case;
use crate::random::Random;

/// Damages the case in one of many ways; a few leave it legal.
pub fn damage(random: &mut Random, case: &mut Case) {
    match random.weighted(&[4, 4, 2, 1, 3]) {
        0 => damage_tables(random, case),
        1 => {
            for _ in 0..random.pick(&[1, 1, 1, 2]) {
                damage_record(random, case);
            }
        }
        2 => damage_bytes(random, &mut case.call.file),
        3 => case.call.file = random_file(random),
        _ => damage_call(random, case),
    }
}

fn damage_tables(random: &mut Random, case: &mut Case) {
    let program = &mut case.program;
    match random.below(8) {
        0 => program.names = random.pick(&[256, 257, u16::MAX]),
        1 => program.temps = random.pick(&[8, 9, u16::MAX]),
        2 => program.posts[0].scale ^= 1 << random.below(32),
        3 => program.posts[0].offset ^= 1 << random.below(32),
        4 => program.posts.truncate(random.below(2)),
        5 => program.constants.resize(random.between(4096, 4097), 0),
        6 => program
            .posts
            .resize(random.between(1024, 1025), Post::IDENTITY),
        _ => program.hashes.resize(random.between(256, 257), 0),
    }
    if random.once_in(20) {
        let end = Record {
            opcode: op::END,
            ..Record::default()
        };
        program.records.resize(random.between(4096, 4097), end);
    }
    case.call.file = program.encode();
}

fn damage_record(random: &mut Random, case: &mut Case) {
    let program = &mut case.program;
    let sizes = [
        program.constants.len(),
        program.hashes.len(),
        program.posts.len(),
        program.names.into(),
        program.temps.into(),
    ];
    let near = random.pick(&sizes) + random.below(2);
    let mut record = Record {
        opcode: random.below(TABLE.len() + 1) as u8,
        ..Record::default()
    };
    match random.below(4) {
        0 => record.choice = random.below(5) as u8,
        1 => record.post = near as u16,
        2 => record.argument = near as u32,
        _ => record.argument = random.next() as u32,
    }
    match random.below(8) {
        0 => record.opcode = random.next() as u8,
        1 => record = host_math(random, near),
        _ => {}
    }
    let at = random.below(program.records.len() + 1);
    program.records.insert(at, record);
    case.call.file = program.encode();
}

/// A HostMath whose count, post and argument may each send a file back.
fn host_math(random: &mut Random, near: usize) -> Record {
    Record {
        opcode: op::HOST_MATH,
        choice: count(random),
        post: random.pick(&[0, 0, near]) as u16,
        argument: random.pick(&[0, 0, 1]),
    }
}

/// A count of arguments, converted or not.
fn count(random: &mut Random) -> u8 {
    random.pick(&[0, 1, 0, 1, 2, 3, 8, 9, 255])
}

/// Changes the count of some HostMaths, or has many of them, and may damage more.
pub fn damage_stored(random: &mut Random, case: &mut Case) {
    let records = &mut case.program.records;
    for record in records.iter_mut().filter(|r| r.opcode == op::HOST_MATH) {
        if random.once_in(3) {
            record.choice = count(random);
        }
    }
    if random.once_in(100) {
        let host_math = Record {
            opcode: op::HOST_MATH,
            ..Record::default()
        };
        records.resize(random.pick(&[255, 256, 257, 4096]), host_math);
    }
    case.call.file = case.program.encode();
    if random.once_in(2) {
        damage(random, case);
    }
}

fn damage_bytes(random: &mut Random, file: &mut Vec<u8>) {
    for _ in 0..random.between(1, 3) {
        let at = random.below(file.len().max(1));
        match random.below(5) {
            _ if file.is_empty() => file.push(random.below(6) as u8),
            0 => file[at] = random.next() as u8,
            1 => file[at] = random.below(7) as u8,
            2 => file.truncate(at),
            3 => file.push(random.below(6) as u8),
            _ => {
                file.remove(at);
            }
        }
    }
}

/// A short file of the bytes that tags and lengths are made of.
fn random_file(random: &mut Random) -> Vec<u8> {
    let length = random.below(24);
    (0..length)
        .map(|_| random.pick(&[0, 0, 0, 1, 2, 3, 4, 5, 8]))
        .collect()
}

fn damage_call(random: &mut Random, case: &mut Case) {
    let lent = &mut case.lent;
    match random.below(5) {
        0 => damage_cells(random, &mut lent.cells),
        1 => damage_cells(random, &mut case.call.context),
        2 => lent
            .stack
            .resize(random.between(MOST_STACK, MOST_STACK + 1), 7),
        3 => lent
            .loops
            .resize(random.between(MOST_LOOPS, MOST_LOOPS + 1), 7),
        _ => lent
            .handlers
            .resize(random.between(MOST_HANDLERS, MOST_HANDLERS + 1), 7),
    }
}

fn damage_cells(random: &mut Random, cells: &mut Cells) {
    match random.below(4) {
        0 => {
            cells.kinds.push(0);
            cells.values.push(0);
        }
        1 if !cells.is_empty() => {
            cells.kinds.pop();
            cells.values.pop();
        }
        2 if !cells.is_empty() => {
            let at = random.below(cells.len());
            cells.kinds[at] = random.between(3, 5) as u8;
        }
        3 if !cells.is_empty() => {
            let at = random.below(cells.len());
            cells.kinds[at] = Cells::FLOAT;
            cells.values[at] = u64::from(u32::MAX) + random.below(2) as u64;
        }
        _ => cells.values.push(0),
    }
}
