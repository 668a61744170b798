//! The comparison's door into the crate: document 01's records as the instructions they name.
//! The run itself stands in vm/eval/query.rs, where the machine's private parts can be read.

use calls::Record;

use crate::catalog::{Arity, MathCatalog, MathDecl, MathRef, QueryCatalog, QueryIndex};
use crate::compile::program::{
    CallIdx, CmpOp, ConstIdx, Depths, Divisor, EqOp, HashIdx, Instr, MemberEntry, MemberIdx,
    NameEntry, NameIdx, PostIdx, Program, ProgramFlags, QueryCall, TempIdx,
};
use crate::hash::HashedStr;
use crate::numeric::{Platform, PostOp};
use crate::version::MolangVersion;

/// Runs calls on the machine of the given files.
pub struct Reference {
    /// Names a host function: a `HostMath` instruction needs one, although no program has a
    /// catalogue.
    function: MathRef,
}

impl Default for Reference {
    fn default() -> Self {
        let name = "math.host";
        let decl = MathDecl::pure(name, Arity::exactly(1), |_, _| unreachable!("not compared"));
        let catalog = MathCatalog::new(decl).expect("one function");
        Self {
            function: catalog.find(name).expect("declared above"),
        }
    }
}

impl Reference {
    /// Whether every record of a program has an opcode that is compared.
    pub fn has(program: &calls::Program) -> bool {
        let records = &program.records;
        records.iter().all(|r| r.opcode <= calls::LAST_OF_THE_RUST)
    }

    /// The program as the given files hold it: a name's key is its index, the temps are named
    /// behind the call's names, and the one query call has an argument.
    pub(crate) fn program(&self, program: &calls::Program) -> Program {
        let names = 0..program.names + program.temps;
        let post = |p: &calls::Post| PostOp::new(f32::from_bits(p.scale), f32::from_bits(p.offset));
        Program {
            code: program.records.iter().map(|r| self.instr(*r)).collect(),
            consts: program
                .constants
                .iter()
                .map(|&c| f32::from_bits(c))
                .collect(),
            posts: program.posts.iter().map(post).collect(),
            hashes: program.hashes.clone().into(),
            names: names.clone().map(name_entry).collect(),
            temps: names.skip(program.names.into()).map(NameIdx).collect(),
            members: (0..program.names).map(member_entry).collect(),
            stores: Box::default(),
            calls: Box::new([call_with_argument()]),
            catalog: QueryCatalog,
            math: None,
            depths: Depths::default(),
            flags: ProgramFlags::default(),
            float_loop: true,
            version: MolangVersion,
            platform: Platform::Native,
        }
    }

    fn instr(&self, record: Record) -> Instr {
        match record.opcode {
            1..=12 => load_or_store(record),
            22 => Instr::HostMath {
                f: self.function,
                argc: record.choice,
                p: PostIdx(record.post),
            },
            13..=21 => arithmetic(record),
            23..=31 => logic(record),
            32..=39 => flow(record),
            _ => loop_or_end(record),
        }
    }
}

fn load_or_store(record: Record) -> Instr {
    let p = PostIdx(record.post);
    let index = record.argument as u16;
    let n = NameIdx(index);
    let t = TempIdx(index);
    let c = ConstIdx(record.argument);
    let h = HashIdx(record.argument);
    match record.opcode {
        1 => Instr::Const { c },
        2 => Instr::Hash { h },
        3 => Instr::Resource { h },
        4 => Instr::This { p },
        5 => Instr::LoadVar { n, p },
        6 => Instr::LoadTemp { t, p },
        7 => Instr::LoadCtx { n, p },
        8 => Instr::Member {
            m: MemberIdx(index),
            p,
        },
        9 => Instr::StoreVar { n, p },
        10 => Instr::StoreTemp { t, p },
        11 => Instr::Push,
        _ => Instr::PushConst { c },
    }
}

fn arithmetic(record: Record) -> Instr {
    let p = PostIdx(record.post);
    match record.opcode {
        13 => Instr::Negate { p },
        14 => Instr::Not { p },
        15 => Instr::AddAcc,
        16 => Instr::AddLast { p },
        17 => Instr::Mul { p },
        18 => Instr::DivGuard {
            end: record.argument,
            divisor: [Divisor::Signed, Divisor::Absolute][usize::from(record.choice)],
        },
        19 => Instr::Div { p },
        20 => Instr::Mod { p },
        _ => Instr::ModConst {
            c: ConstIdx(record.argument),
            p,
        },
    }
}

fn logic(record: Record) -> Instr {
    let p = PostIdx(record.post);
    let c = ConstIdx(record.argument);
    let h = HashIdx(record.argument);
    let to = record.argument;
    let choice = usize::from(record.choice);
    let compared = || [CmpOp::Lt, CmpOp::Le, CmpOp::Ge, CmpOp::Gt][choice];
    let equated = || [EqOp::Eq, EqOp::Ne][choice];
    match record.opcode {
        23 => Instr::Cmp { op: compared(), p },
        24 => Instr::CmpConst {
            op: compared(),
            c,
            p,
        },
        25 => Instr::Eq { op: equated(), p },
        26 => Instr::EqConst {
            op: equated(),
            c,
            p,
        },
        27 => Instr::EqHash {
            op: equated(),
            h,
            p,
        },
        28 => Instr::AndStep { to, p },
        29 => Instr::OrStep { to, p },
        30 => Instr::AndLast { p },
        _ => Instr::OrLast { p },
    }
}

fn flow(record: Record) -> Instr {
    let p = PostIdx(record.post);
    let to = record.argument;
    match record.opcode {
        32 => Instr::Jump { to },
        33 => Instr::JumpIfFalsy { to },
        34 => Instr::Post { p },
        35 => Instr::HandlerPush { to },
        36 => Instr::HandlerPop { to },
        37 => Instr::PointerEnter { to, p },
        38 => Instr::PointerLeave { p },
        _ => Instr::Call { q: CallIdx(0), p },
    }
}

fn loop_or_end(record: Record) -> Instr {
    let exit = record.argument;
    match record.opcode {
        40 => Instr::LoopBegin { exit },
        41 => Instr::LoopCheck { body: exit },
        42 => Instr::LoopEnd,
        43 => Instr::EachBegin { exit },
        44 => Instr::EachNextVar {
            n: NameIdx(record.post),
            exit,
        },
        45 => Instr::EachNextTemp {
            t: TempIdx(record.post),
            exit,
        },
        46 => Instr::Return {
            p: PostIdx(record.post),
        },
        47 => Instr::Halt,
        48 => Instr::End,
        other => unreachable!("opcode {other} is not compared"),
    }
}

/// The key of the name of this index, in every namespace.
pub(crate) fn key(index: usize) -> HashedStr {
    HashedStr::from_u64(index as u64)
}

fn name_entry(index: u16) -> NameEntry {
    NameEntry {
        hash: key(index.into()),
        text: Box::default(),
    }
}

fn member_entry(index: u16) -> MemberEntry {
    MemberEntry {
        hash: key(index.into()),
        text: Box::default(),
        report: Box::default(),
    }
}

fn call_with_argument() -> QueryCall {
    QueryCall {
        index: QueryIndex,
        impl_idx: 0,
        args: Box::new([0]),
    }
}
