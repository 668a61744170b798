//! Program files for the tests.

const COUNTS: [u8; 7] = [1, 4, 0, 0, 0, 0, 0];
const POST_0: [u8; 8] = [0, 0, 0x80, 0x3F, 0, 0, 0, 0];
const POST_1: [u8; 8] = [0, 0, 0, 0x40, 0, 0, 0, 0x3F];

/// A record without a choice.
pub const fn op(opcode: u8, post: u8, argument: u8) -> [u8; 8] {
    [opcode, 0, post, 0, argument, 0, 0, 0]
}

/// A HostMath of so many arguments.
pub const fn host_math(count: u8) -> [u8; 8] {
    [22, count, 0, 0, 0, 0, 0, 0]
}

fn field(tag: u8, body: &[u8]) -> Vec<u8> {
    let length = u16::try_from(body.len()).expect("a field's length");
    [&[tag], &length.to_le_bytes()[..], body].concat()
}

/// One name, three temps, post 0 and post 1 (times 2, plus 0.5), one hash.
pub fn program(constants: &[u32], records: &[[u8; 8]]) -> Vec<u8> {
    let constants: Vec<u8> = constants.iter().flat_map(|c| c.to_le_bytes()).collect();
    [
        field(1, &[1, 0, 3, 0]),
        field(2, &constants),
        field(3, &[POST_0, POST_1].concat()),
        field(4, &[0; 8]),
        field(5, &records.concat()),
    ]
    .concat()
}

/// Document 01's E, with these records in it: no names, post 0 alone.
pub fn e(records: &[u8]) -> Vec<u8> {
    [tables(), field(5, records)].concat()
}

fn tables() -> Vec<u8> {
    [&COUNTS[..], &[2, 0, 0], &field(3, &POST_0)[..], &[4, 0, 0]].concat()
}

/// Files that are sent back, with their numbers.
pub fn refused() -> Vec<(u32, Vec<u8>)> {
    vec![
        (1, vec![]),
        (1, vec![1]),
        (1, vec![1, 4]),
        (1, vec![1, 4, 0, 0, 0, 0]),
        (1, tables()),
        (2, vec![2]),
        (3, vec![1, 5, 0]),
        (3, [&COUNTS[..], &[2, 3, 0]].concat()),
        (3, [&COUNTS[..], &[2, 4, 0x40]].concat()),
        (4, [e(&[]), vec![0]].concat()),
        (5, vec![1, 4, 0, 0, 0, 9, 0]),
        (5, vec![1, 4, 0, 1, 1, 0, 0]),
        (
            6,
            [&COUNTS[..], &[2, 0, 0, 3, 0, 0, 4, 0, 0, 5, 0, 0]].concat(),
        ),
        (7, e(&op(0, 0, 0))),
        (7, e(&op(53, 0, 0))),
        (7, e(&op(255, 0, 0))),
        (8, e(&[48, 1, 0, 0, 0, 0, 0, 0])),
        (8, e(&[23, 4, 0, 0, 0, 0, 0, 0])),
        (8, e(&[49, 1, 0, 0, 0, 0, 0, 0])),
        (8, e(&op(52, 0, 1))),
        (9, e(&op(1, 0, 0))),
        (9, e(&op(13, 1, 0))),
        (9, e(&op(51, 1, 0))),
        (14, e(&host_math(0))),
        (14, e(&host_math(255))),
        (14, e(&op(22, 1, 1))),
        (14, program(&[], &[op(48, 0, 0), host_math(1)])),
    ]
}
