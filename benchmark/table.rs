//! The table: a row for each shape, with the ratio ours / Rust.

use crate::contest::{Contest, LARGEST, SMALL, best_of, check_side, clearing_side, converter_side};
use crate::programs;

/// The charges of a run whose steps are timed.
const CHARGES: u32 = 100_000;

/// The records of the file that is checked or converted.
const RECORDS: usize = 4096;

pub fn print(rounds: u32) {
    let mut steps = named(programs::shapes(CHARGES), |program| {
        Contest::new(program, SMALL)
    });
    let mut pairs = named(programs::pairs(CHARGES), |pair| {
        Contest::of_pair(pair, SMALL)
    });
    let mut calls = [("small", SMALL), ("largest", LARGEST)].map(|(stores, lengths)| {
        let programs = [
            ("empty", programs::empty()),
            ("ten records", programs::ten_records()),
        ];
        let contest = |program: &_| Contest::with_clearing(program, lengths);
        (stores, named(programs.into(), contest))
    });
    for _ in 0..rounds {
        // Every row in every round: what runs beside can't spoil one row alone.
        let call_rows = calls.iter_mut().flat_map(|(_, rows)| rows);
        for (_, contest) in steps.iter_mut().chain(&mut pairs).chain(call_rows) {
            contest.round();
        }
    }
    println!("| Nanoseconds | Ours | Rust | Ours / Rust |\n|---|---|---|---|");
    print_steps(&steps, "");
    print_steps(&pairs, "; the Rust's Negate");
    for (stores, rows) in &calls {
        print_calls(rows, stores);
    }
    print_alone(rounds);
    println!("worst step ratio {:.2}", worst(&steps));
}

/// A row for each shape of a step; `rust` says what the Rust's side is where it is another.
fn print_steps(rows: &[Named], rust: &str) {
    for (name, contest) in rows {
        print_row(&format!("step: {name}{rust}"), contest.per_step());
    }
}

fn print_calls(rows: &[Named], stores: &str) {
    for (name, contest) in rows {
        let [ours, rust, cleared] = contest.best[..] else {
            unreachable!("a call row has three sides")
        };
        let call = format!("{name}, {stores} stores");
        print_row(&format!("call: {call}"), [ours, rust]);
        print_row(
            &format!("the same, the Rust with the clearing: {call}"),
            [ours, cleared],
        );
    }
}

/// The parts of a call that the Rust doesn't have.
fn print_alone(rounds: u32) {
    let clearing = |lengths| best_of(rounds, clearing_side(lengths));
    let check = |program| best_of(rounds, check_side(&program));
    print_ours("clearing alone, small stores", clearing(SMALL));
    print_ours("clearing alone, largest stores", clearing(LARGEST));
    print_ours("check alone, empty", check(programs::empty()));
    print_ours("check alone, ten records", check(programs::ten_records()));
    let each = |program| check(program) / RECORDS as f64;
    print_ours(
        "check, per record of 4,096",
        each(programs::long_file(RECORDS)),
    );
    print_ours(
        "check, per record of 4,096 in no order",
        each(programs::shuffled_file(RECORDS)),
    );
    print_converter(rounds);
}

/// The converter, the copy of its file with it.
fn print_converter(rounds: u32) {
    let each = |program| best_of(rounds, converter_side(&program)) / RECORDS as f64;
    print_ours(
        "converter, per record of 4,096",
        each(programs::long_file(RECORDS)),
    );
    print_ours(
        "converter, per record of 4,096, each a HostMath",
        each(programs::host_maths(RECORDS)),
    );
}

type Named = (&'static str, Contest);

fn named<P>(programs: Vec<(&'static str, P)>, contest: impl Fn(&P) -> Contest) -> Vec<Named> {
    let pair = |(name, program)| (name, contest(&program));
    programs.into_iter().map(pair).collect()
}

fn print_row(name: &str, [ours, rust]: [f64; 2]) {
    println!("| {name} | {ours:.2} | {rust:.2} | {:.2} |", ours / rust);
}

/// A row of what the Rust doesn't do.
fn print_ours(name: &str, ours: f64) {
    println!("| {name} | {ours:.2} | - | - |");
}

fn worst(steps: &[Named]) -> f64 {
    let ratio = |(_, contest): &Named| {
        let [ours, rust] = contest.per_step();
        ours / rust
    };
    steps.iter().map(ratio).fold(0.0, f64::max)
}
