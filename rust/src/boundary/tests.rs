//! Calls that the public types can't make. Refused ones: the number, an end of zeros and the limits
//! as they came beside it, and every lent store as it was. And both step limits, each none or any
//! number.

use super::{check, run, Brought, Reply, Terms};
use crate::abi::Account;
use crate::{Float, Handler, Remainders};

#[path = "../../tests/files/mod.rs"]
mod files;

/// The guest's own limit and the house limit.
type Limits = [Option<u64>; 2];

const NONE: Limits = [None, None];

/// Limits about the four charges of `sum`, the largest, and none.
const EACH: [Option<u64>; 9] = [
    Some(0),
    Some(1),
    Some(2),
    Some(3),
    Some(4),
    Some(5),
    Some(u64::MAX - 1),
    Some(u64::MAX),
    None,
];

/// Every pair of these.
fn pairs() -> impl Iterator<Item = Limits> {
    EACH.into_iter()
        .flat_map(|guest| EACH.into_iter().map(move |house| [guest, house]))
}

/// What remains of both after so many charges.
fn less(limits: Limits, charges: u64) -> Remainders {
    let [guest, house] = limits.map(|limit| limit.unwrap_or(u64::MAX) - charges);
    Remainders { guest, house }
}

/// Two charges for PushConst, one for AddLast and one for End: done after four.
fn sum() -> Vec<u8> {
    let records = [
        files::op(12, 0, 0),
        files::op(16, 0, 0),
        files::op(48, 0, 0),
    ];
    files::program(&[0x4000_0000], &records)
}

#[derive(Clone, Debug, PartialEq)]
struct Lent {
    kinds: Vec<u8>,
    values: Vec<u64>,
    context_kinds: Vec<u8>,
    context_values: Vec<u64>,
    stack: Vec<Float>,
    loops: Vec<u32>,
    handlers: Vec<Handler>,
}

/// Missing cells for one name, and working stores that are not clear.
fn lent() -> Lent {
    Lent {
        kinds: vec![0],
        values: vec![7],
        context_kinds: vec![0],
        context_values: vec![7],
        stack: vec![Float::from_bits(7); 4],
        loops: vec![7; 2],
        handlers: vec![Handler(7); 2],
    }
}

fn reply_to(file: &[u8], [guest, house]: Limits, lent: &mut Lent) -> Reply {
    run(Brought {
        file,
        kinds: &mut lent.kinds,
        values: &mut lent.values,
        context_kinds: &lent.context_kinds,
        context_values: &lent.context_values,
        terms: Terms::new(0, guest, None, house),
        stack: &mut lent.stack,
        loops: &mut lent.loops,
        handlers: &mut lent.handlers,
    })
}

/// A call that is refused, whatever its limits.
#[track_caller]
fn expect_refused(file: &[u8], mut lent: Lent, refusal: u32) {
    let before = lent.clone();
    for limits in [NONE, [Some(3), Some(5)], [Some(0), None], [None, Some(0)]] {
        let account = Account {
            remainders: less(limits, 0),
            ..Account::default()
        };
        let reply = reply_to(file, limits, &mut lent);
        assert_eq!(reply, Reply { refusal, account });
        assert_eq!(lent, before);
    }
}

/// A call of a legal file that doesn't fit in one thing.
#[track_caller]
fn expect_misfit(change: impl Fn(&mut Lent)) {
    let mut lent = lent();
    change(&mut lent);
    expect_refused(&files::program(&[], &[]), lent, 10);
}

fn address<T>(part: &T) -> usize {
    part as *const T as usize
}

#[test]
fn terms_and_reply_are_laid_out_as_in_the_header() {
    let reply = Reply::default();
    let end = &reply.account.end;
    let at = |part: usize| part - address(&reply);
    assert_eq!((at(address(&reply.refusal)), at(address(end))), (0, 8));
    assert_eq!(at(address(&end.depths)), 40);
    assert_eq!(at(address(&end.empty_pops)), 88);
    assert_eq!(at(address(&end.temps)), 96);
    assert_eq!(at(address(&reply.account.remainders)), 136);
    assert_eq!(at(address(&reply.account.remainders.house)), 144);
    assert_eq!(std::mem::size_of::<Reply>(), 152);
    assert_eq!(std::mem::size_of::<Terms>(), 32);
}

#[test]
fn refused_files_leave_the_stores() {
    for (number, file) in files::refused() {
        assert_eq!(check(&file), number);
        expect_refused(&file, lent(), number);
    }
}

#[test]
fn a_fitting_call_clears_the_stores() {
    let mut lent = lent();
    let reply = reply_to(&files::program(&[], &[]), NONE, &mut lent);
    assert_eq!((reply.refusal, reply.account.end.charges), (0, 1));
    assert_eq!(reply.account.remainders, less(NONE, 1));
    assert_eq!((lent.kinds, lent.values), (vec![0], vec![7]));
    assert_eq!(lent.stack, [Float::from_bits(0); 4]);
    assert_eq!(
        (lent.loops, lent.handlers),
        (vec![0; 2], vec![Handler(0); 2])
    );
}

#[test]
fn cells_that_do_not_fit_are_refused() {
    expect_refused(&files::e(&[]), lent(), 10);
    expect_misfit(|l| l.kinds.clear());
    expect_misfit(|l| l.values.push(0));
    expect_misfit(|l| l.context_kinds.push(0));
    expect_misfit(|l| l.context_values.clear());
    expect_misfit(|l| l.kinds[0] = 4);
    expect_misfit(|l| l.context_kinds[0] = 255);
    expect_misfit(|l| {
        l.kinds[0] = 1;
        l.values[0] = 1 << 32;
    });
}

#[test]
fn stores_that_do_not_fit_are_refused() {
    expect_misfit(|l| l.stack = vec![Float::from_bits(7); 65_601]);
    expect_misfit(|l| l.loops = vec![7; 65]);
    expect_misfit(|l| l.handlers = vec![Handler(7); 65]);
}

#[test]
fn each_limit_loses_the_charges() {
    for limits in pairs() {
        let brought = less(limits, 0);
        let smaller = brought.guest.min(brought.house);
        let reply = reply_to(&sum(), limits, &mut lent());
        let end = &reply.account.end;
        let outcome = u32::from(smaller < 4);
        assert_eq!((reply.refusal, end.outcome), (0, outcome), "{limits:?}");
        assert_eq!(end.charges, smaller.min(4), "{limits:?}");
        assert_eq!(
            reply.account.remainders,
            less(limits, end.charges),
            "{limits:?}"
        );
    }
}

/// The end and the stores as left, with the smaller limit as the guest's alone or as the house's.
#[test]
fn two_limits_are_one_run_under_the_smaller() {
    for limits in pairs() {
        let brought = less(limits, 0);
        let smaller = Some(brought.guest.min(brought.house));
        let [both, guest, house] = [limits, [smaller, None], [None, smaller]].map(|limits| {
            let mut lent = lent();
            (reply_to(&sum(), limits, &mut lent).account.end, lent)
        });
        assert_eq!(both, guest, "{limits:?}");
        assert_eq!(both, house, "{limits:?}");
    }
}

/// Each house remainder is the next call's house limit, after a refusal too.
#[test]
fn a_day_with_refused_calls() {
    let (fits, mut misfits) = (lent(), lent());
    misfits.kinds.clear();
    let calls = [
        (sum(), Some(3), &fits, 0, 3),
        (vec![2], Some(3), &fits, 2, 0),
        (sum(), None, &fits, 0, 4),
        (sum(), Some(9), &misfits, 10, 0),
        (sum(), Some(9), &fits, 0, 2), // the rest of the day
        (vec![], None, &fits, 1, 0),
        (sum(), None, &fits, 0, 0),
    ];
    let (mut house, mut spent) = (9, 0);
    for (file, guest, lent, refusal, charges) in calls {
        let reply = reply_to(&file, [guest, Some(house)], &mut lent.clone());
        assert_eq!(
            (reply.refusal, reply.account.end.charges),
            (refusal, charges)
        );
        house = reply.account.remainders.house;
        spent += charges;
        assert_eq!(house + spent, 9);
    }
    assert_eq!(house, 0);
}
