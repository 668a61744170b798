//! One call made ready on both sides, and timed in turns.

use std::cell::RefCell;
use std::hint::black_box;
use std::rc::Rc;
use std::time::Instant;

use calls::{Call, Lent, Program};
use molang::reference::Reference;

use crate::library;
use crate::programs::Pair;
use crate::writer::cells;

/// How long a sample takes at least, in nanoseconds: short, so that some escape what runs beside.
const SAMPLE: f64 = 400_000.0;

/// The lengths of the operand stack, the loop counts and the handlers.
pub type Lengths = (usize, usize, usize);

pub const SMALL: Lengths = (16, 4, 4);
pub const LARGEST: Lengths = (calls::MOST_STACK, calls::MOST_LOOPS, calls::MOST_HANDLERS);

/// A side of a contest: a call, which gives its value and its charges.
type Side = Box<dyn FnMut() -> (u32, u64)>;

/// Lent stores, which the sides of a contest share.
type Shared = Rc<RefCell<Lent>>;

pub struct Contest {
    /// Ours, the Rust's, and where it is asked for the Rust's with the clearing of the lent stores.
    sides: Vec<Side>,
    repeats: u32,
    /// The charges of a call.
    pub charges: u64,
    /// Nanoseconds per call, the best so far, of each side.
    pub best: Vec<f64>,
}

impl Contest {
    pub fn new(program: &Program, lengths: Lengths) -> Self {
        Self::between(vec![our_side(program, lent(lengths)), rust_side(program)])
    }

    /// A program of ours against another of the Rust's.
    pub fn of_pair(pair: &Pair, lengths: Lengths) -> Self {
        Self::between(vec![
            our_side(&pair.ours, lent(lengths)),
            rust_side(&pair.rust),
        ])
    }

    /// With a third side, which does all that ours does but for the check.
    pub fn with_clearing(program: &Program, lengths: Lengths) -> Self {
        let lent = lent(lengths);
        Self::between(vec![
            our_side(program, lent.clone()),
            rust_side(program),
            clearing_after(rust_side(program), lent),
        ])
    }

    fn between(mut sides: Vec<Side>) -> Self {
        let charges = agreed(&mut sides);
        let (repeats, _) = calibrated(&mut || {
            black_box(sides[0]());
        });
        let best = vec![f64::INFINITY; sides.len()];
        Self {
            sides,
            repeats,
            charges,
            best,
        }
    }

    /// Times each side once more.
    pub fn round(&mut self) {
        for (side, best) in self.sides.iter_mut().zip(&mut self.best) {
            let found = nanoseconds(self.repeats, &mut || {
                black_box(side());
            });
            *best = best.min(found);
        }
        agreed(&mut self.sides);
    }

    /// Nanoseconds per charge, ours and the Rust's.
    pub fn per_step(&self) -> [f64; 2] {
        [0, 1].map(|side| self.best[side] / self.charges as f64)
    }
}

/// The charges, where all sides agree; a time without that would mean nothing.
fn agreed(sides: &mut [Side]) -> u64 {
    let ours = sides[0]();
    for side in &mut sides[1..] {
        assert_eq!(ours, side(), "value and charges, ours and the Rust's");
    }
    ours.1
}

fn call_of(program: &Program) -> Call {
    Call {
        file: program.encode(),
        context: cells(),
        this: 2.5_f32.to_bits(),
        step_limit: None,
        loop_limit: None,
        house_limit: None,
    }
}

fn lent((stack, loops, handlers): Lengths) -> Shared {
    Rc::new(RefCell::new(Lent {
        cells: cells(),
        stack: vec![0; stack],
        loops: vec![0; loops],
        handlers: vec![0; handlers],
    }))
}

fn our_side(program: &Program, lent: Shared) -> Side {
    let call = call_of(program);
    let terms = call.terms();
    Box::new(move || {
        let reply = library::run(terms, &call, &mut lent.borrow_mut());
        let end = reply.account.end;
        assert_eq!((reply.refusal, end.outcome), (0, calls::DONE));
        (end.accumulator, end.charges)
    })
}

fn rust_side(program: &Program) -> Side {
    let mut timed = Reference::default().timed(program, &call_of(program), &cells());
    Box::new(move || timed.run())
}

fn clearing_after(mut side: Side, lent: Shared) -> Side {
    Box::new(move || {
        let given = side();
        clear(&mut lent.borrow_mut());
        given
    })
}

/// What a run that leaves empty stores does to them.
fn clear(lent: &mut Lent) {
    lent.stack.fill(0);
    lent.loops.fill(0);
    lent.handlers.fill(0);
    black_box(lent);
}

/// The library's file check; the Rust reads no files.
pub fn check_side(program: &Program) -> impl FnMut() + use<> {
    let file = program.encode();
    assert_eq!(library::check(&file), 0, "the file is accepted");
    move || {
        black_box(library::check(black_box(&file)));
    }
}

/// The library's converter, after the copy of the stored file that it converts.
pub fn converter_side(program: &Program) -> impl FnMut() + use<> {
    let stored = program.encode();
    let mut file = stored.clone();
    assert_eq!(
        library::convert(&mut file).refusal,
        0,
        "the file is converted"
    );
    move || {
        file.copy_from_slice(black_box(&stored));
        black_box(library::convert(black_box(&mut file)));
    }
}

/// The clearing of lent stores alone.
pub fn clearing_side(lengths: Lengths) -> impl FnMut() {
    let lent = lent(lengths);
    move || clear(&mut lent.borrow_mut())
}

/// The best of `rounds` samples of one side, in nanoseconds per call.
pub fn best_of(rounds: u32, mut side: impl FnMut()) -> f64 {
    let (repeats, first) = calibrated(&mut side);
    let samples = (0..rounds).map(|_| nanoseconds(repeats, &mut side));
    samples.fold(first, f64::min)
}

/// How many calls make a sample, and the time of a call in one.
fn calibrated(side: &mut dyn FnMut()) -> (u32, f64) {
    let mut repeats = 1;
    loop {
        let each = nanoseconds(repeats, side);
        if each * f64::from(repeats) >= SAMPLE {
            return (repeats, each);
        }
        repeats *= 2;
    }
}

fn nanoseconds(repeats: u32, side: &mut dyn FnMut()) -> f64 {
    let start = Instant::now();
    for _ in 0..repeats {
        side();
    }
    start.elapsed().as_nanos() as f64 / f64::from(repeats)
}
