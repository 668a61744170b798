//! The data of a call: what document 01's machine is given and what it answers. The subject, the
//! plain reading and the reference share it.

#[path = "../rust/src/abi.rs"]
pub mod abi;

pub use abi::{Account, Conversion, Depths, End, Notices, Remainders, Reply, Temps, Terms};

/// Document 01's table, and document 02's opcodes behind it: [`op`] names them, and [`TABLE`] has a
/// row for each, by its number. A loose record of random code has an opcode as often as [`WEIGHTS`]
/// says; what ends a run comes seldom.
macro_rules! opcodes {
    ($($number:literal $name:ident $title:literal $parts:literal $most:literal $weight:literal;)*) => {
        pub mod op {
            $(pub const $name: u8 = $number;)*
        }

        pub const TABLE: &[Opcode] = &[
            Opcode { title: "", parts: "", most_choice: 0 },
            $(Opcode { title: $title, parts: $parts, most_choice: $most }),*
        ];

        pub const WEIGHTS: &[usize] = &[0, $($weight),*];
    };
}

/// An opcode: its title, the letters of the parts it uses, and its largest choice.
pub struct Opcode {
    pub title: &'static str,
    pub parts: &'static str,
    pub most_choice: u8,
}

pub const LAST_OPCODE: u8 = (TABLE.len() - 1) as u8;

// `q` is Call's free argument; `N` and `T` are the name and the temp that 44 and 45 keep in
// bytes 2-3. The numbers behind the parts are the largest choice and the weight.
opcodes! {
    1 CONST "Const" "c" 0 12;
    2 HASH "Hash" "h" 0 1;
    3 RESOURCE "Resource" "h" 0 1;
    4 THIS "This" "p" 0 6;
    5 LOAD_VAR "LoadVar" "np" 0 8;
    6 LOAD_TEMP "LoadTemp" "tp" 0 6;
    7 LOAD_CTX "LoadCtx" "np" 0 8;
    8 MEMBER "Member" "np" 0 1;
    9 STORE_VAR "StoreVar" "np" 0 8;
    10 STORE_TEMP "StoreTemp" "tp" 0 8;
    11 PUSH "Push" "" 0 14;
    12 PUSH_CONST "PushConst" "c" 0 12;
    13 NEGATE "Negate" "p" 0 8;
    14 NOT "Not" "p" 0 6;
    15 ADD_ACC "AddAcc" "" 0 8;
    16 ADD_LAST "AddLast" "p" 0 12;
    17 MUL "Mul" "p" 0 10;
    18 DIV_GUARD "DivGuard" "j" 1 4;
    19 DIV "Div" "p" 0 8;
    20 MOD "Mod" "p" 0 10;
    21 MOD_CONST "ModConst" "cp" 0 8;
    22 HOST_MATH "HostMath" "p" 255 4;
    23 CMP "Cmp" "p" 3 6;
    24 CMP_CONST "CmpConst" "cp" 3 6;
    25 EQ "Eq" "p" 1 6;
    26 EQ_CONST "EqConst" "cp" 1 6;
    27 EQ_HASH "EqHash" "hp" 1 8;
    28 AND_STEP "AndStep" "jp" 0 6;
    29 OR_STEP "OrStep" "jp" 0 6;
    30 AND_LAST "AndLast" "p" 0 4;
    31 OR_LAST "OrLast" "p" 0 4;
    32 JUMP "Jump" "j" 0 4;
    33 JUMP_IF_FALSY "JumpIfFalsy" "j" 0 6;
    34 POST "Post" "p" 0 8;
    35 HANDLER_PUSH "HandlerPush" "j" 0 6;
    36 HANDLER_POP "HandlerPop" "j" 0 4;
    37 POINTER_ENTER "PointerEnter" "jp" 0 3;
    38 POINTER_LEAVE "PointerLeave" "p" 0 4;
    39 CALL "Call" "qp" 0 1;
    40 LOOP_BEGIN "LoopBegin" "j" 0 5;
    41 LOOP_CHECK "LoopCheck" "j" 0 8;
    42 LOOP_END "LoopEnd" "" 0 5;
    43 EACH_BEGIN "EachBegin" "j" 0 4;
    44 EACH_NEXT_VAR "EachNextVar" "Nj" 0 1;
    45 EACH_NEXT_TEMP "EachNextTemp" "Tj" 0 1;
    46 RETURN "Return" "p" 0 1;
    47 HALT "Halt" "" 0 1;
    48 END "End" "" 0 1;
    49 FLOOR "Floor" "p" 0 8;
    50 CEIL "Ceil" "p" 0 8;
    51 TRUNC "Trunc" "p" 0 8;
    52 ABS "Abs" "p" 0 6;
}

/// The last opcode that the Rust has; those behind it are document 02's.
pub const LAST_OF_THE_RUST: u8 = op::END;

/// Whether `opcode`, one of the table, uses the part of this letter.
pub fn uses(opcode: u8, part: char) -> bool {
    TABLE[usize::from(opcode)].parts.contains(part)
}

/// The largest legal choice of `opcode`.
pub fn most_choice(opcode: u8) -> u8 {
    TABLE[usize::from(opcode)].most_choice
}

#[derive(Copy, Clone, Debug, Default, PartialEq, Eq)]
pub struct Record {
    pub opcode: u8,
    pub choice: u8,
    pub post: u16,
    pub argument: u32,
}

#[derive(Copy, Clone, Debug, PartialEq, Eq)]
pub struct Post {
    pub scale: u32,
    pub offset: u32,
}

impl Post {
    pub const IDENTITY: Self = Self {
        scale: 0x3F80_0000,
        offset: 0,
    };
}

/// The contents of a program file.
#[derive(Clone, Debug, PartialEq, Eq)]
pub struct Program {
    pub names: u16,
    pub temps: u16,
    pub constants: Vec<u32>,
    pub posts: Vec<Post>,
    pub hashes: Vec<u64>,
    pub records: Vec<Record>,
}

impl Program {
    /// The file that holds this program.
    pub fn encode(&self) -> Vec<u8> {
        let mut counts = self.names.to_le_bytes().to_vec();
        counts.extend(self.temps.to_le_bytes());
        let constants = self.constants.iter().flat_map(|c| c.to_le_bytes());
        let posts = self.posts.iter().flat_map(|p| {
            let [scale, offset] = [p.scale, p.offset].map(u32::to_le_bytes);
            scale.into_iter().chain(offset)
        });
        let hashes = self.hashes.iter().flat_map(|h| h.to_le_bytes());
        let records = self.records.iter().flat_map(|r| {
            let [p0, p1] = r.post.to_le_bytes();
            let [a0, a1, a2, a3] = r.argument.to_le_bytes();
            [r.opcode, r.choice, p0, p1, a0, a1, a2, a3]
        });
        let mut file = Vec::new();
        push_field(&mut file, 1, counts);
        push_field(&mut file, 2, constants.collect());
        push_field(&mut file, 3, posts.collect());
        push_field(&mut file, 4, hashes.collect());
        push_field(&mut file, 5, records.collect());
        file
    }
}

fn push_field(file: &mut Vec<u8>, tag: u8, body: Vec<u8>) {
    let length = u16::try_from(body.len()).expect("every table fits its field");
    file.push(tag);
    file.extend(length.to_le_bytes());
    file.extend(body);
}

/// Cells, kind and value side by side.
#[derive(Clone, Debug, Default, PartialEq, Eq)]
pub struct Cells {
    pub kinds: Vec<u8>,
    pub values: Vec<u64>,
}

impl Cells {
    pub const MISSING: u8 = 0;
    pub const FLOAT: u8 = 1;
    pub const HASH: u8 = 2;
    pub const OTHER: u8 = 3;

    pub fn len(&self) -> usize {
        self.kinds.len()
    }

    pub fn is_empty(&self) -> bool {
        self.kinds.is_empty()
    }
}

/// The guest's step limit and the house's.
pub type Limits = [Option<u64>; 2];

/// What a call brings and the machine only reads.
#[derive(Clone, Debug, PartialEq, Eq)]
pub struct Call {
    pub file: Vec<u8>,
    pub context: Cells,
    pub this: u32,
    /// The guest's own.
    pub step_limit: Option<u64>,
    pub loop_limit: Option<u32>,
    pub house_limit: Option<u64>,
}

impl Call {
    /// The terms as the library takes them.
    pub fn terms(&self) -> Terms {
        Terms::new(
            self.this,
            self.step_limit,
            self.loop_limit,
            self.house_limit,
        )
    }

    /// The guest's limit and the house's.
    pub fn limits(&self) -> Limits {
        [self.step_limit, self.house_limit]
    }

    pub fn set_limits(&mut self, limits: Limits) {
        [self.step_limit, self.house_limit] = limits;
    }

    /// The smaller of the two limits.
    pub fn smaller_limit(&self) -> Option<u64> {
        self.limits().into_iter().flatten().min()
    }
}

/// What a call lends: the cells and the three working stores.
#[derive(Clone, Debug, Default, PartialEq, Eq)]
pub struct Lent {
    pub cells: Cells,
    pub stack: Vec<u32>,
    pub loops: Vec<u32>,
    pub handlers: Vec<u64>,
}

pub const MOST_STACK: usize = 65_600;
pub const MOST_LOOPS: usize = 64;
pub const MOST_HANDLERS: usize = 64;

/// A handler entry: target, stack mark in 20 bits, loop mark in 12.
pub fn pack_handler(target: u32, stack_mark: usize, loop_mark: usize) -> u64 {
    u64::from(target) << 32 | (stack_mark as u64) << 12 | loop_mark as u64
}

// tools/answers.py: compare
pub const LAST_REFUSAL: usize = 14;
pub const DONE: u32 = 0;
pub const STEPS: u32 = 1;
pub const MISSING_VALUE: u32 = 2;
pub const STACK_CAP: u32 = 3;
pub const FULL_STORE: u32 = 4;
pub const HANDED_OVER: u32 = 5;
pub const OUTCOMES: [&str; 6] = [
    "done",
    "stopped for steps",
    "stopped for a missing value",
    "stopped for the stack cap",
    "stopped for a full store",
    "handed over",
];
// tools/answers.py: end

pub const MADE_NAN: u32 = 0x7FC0_0000;

pub fn is_nan(bits: u32) -> bool {
    bits & 0x7FFF_FFFF > 0x7F80_0000
}
