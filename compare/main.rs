//! The comparison of document 01's machine with the Rust it is a port of; see compare/run. Without the Rust (`reference`)
//! there is the comparison with the plain reading alone.
#![cfg_attr(not(reference), allow(dead_code))]

mod account;
mod claim;
mod code;
#[cfg(reference)]
mod compare;
mod counted;
#[cfg(reference)]
mod coverage;
mod damage;
mod generate;
mod hosts;
#[cfg(library)]
mod library;
#[cfg(reference)]
mod nans;
mod passes;
mod patterns;
mod places;
mod plain;
mod purses;
mod random;
mod reading;
mod remainders;
#[cfg(reference)]
mod replay;
mod show;
mod shrink;
#[cfg(slips)]
mod slips;
mod stored;
mod subject;
#[cfg(reference)]
mod vectors;
mod whole;

use std::process::ExitCode;

use subject::Subject;

#[cfg(library)]
const SUBJECT: (&str, &dyn Subject) = ("the library", &subject::Library);
#[cfg(not(library))]
const SUBJECT: (&str, &dyn Subject) = ("the plain reading of document 01", &subject::Plain);

fn main() -> ExitCode {
    let words: Vec<String> = std::env::args().skip(1).collect();
    let words: Vec<&str> = words.iter().map(String::as_str).collect();
    if run(&words) {
        ExitCode::SUCCESS
    } else {
        ExitCode::FAILURE
    }
}

/// Runs the mode that the words name; whether it passed.
fn run(words: &[&str]) -> bool {
    match words {
        #[cfg(slips)]
        ["slips", "passes"] => slips::find_by_passes(),
        #[cfg(slips)]
        ["slips", words @ ..] => slips::find(number(words, 0, 2_000_000), number(words, 1, 1)),
        ["reading", words @ ..] => {
            reading::check(subject(), number(words, 0, 200_000), number(words, 1, 1))
        }
        ["purses"] => purses::check(subject()),
        ["passes", words @ ..] => {
            passes::check(subject(), number(words, 0, 50_000), number(words, 1, 1))
        }
        ["whole"] => patterns::check_listed(subject()),
        ["whole", words @ ..] => {
            let [first, count, threads] =
                [(0, 0), (1, 1 << 32), (2, 1)].map(|(at, otherwise)| number(words, at, otherwise));
            patterns::check_range(subject(), first, count, threads)
        }
        #[cfg(reference)]
        ["nans"] => nans::show(subject()),
        #[cfg(reference)]
        ["vectors", path] => vectors::write(path),
        #[cfg(reference)]
        ["replay", path] => replay::replay(subject(), path),
        #[cfg(reference)]
        _ => compare::compare(subject(), number(words, 0, 200_000), number(words, 1, 1)),
        #[cfg(not(reference))]
        _ => panic!("built without the Rust"),
    }
}

/// The machine under test; says which it is.
fn subject() -> &'static dyn Subject {
    let (name, subject) = SUBJECT;
    println!("subject: {name}");
    subject
}

fn number(words: &[&str], at: usize, otherwise: u64) -> u64 {
    match words.get(at) {
        Some(word) => word.parse().expect("a number"),
        None => otherwise,
    }
}
