//! Times the library against the Rust that it is a port of; see benchmark/run.

mod contest;
mod growth;
#[path = "../compare/library.rs"]
mod library;
mod programs;
mod table;
mod writer;

/// How often each side of a row is timed.
fn rounds() -> u32 {
    let given = std::env::var("ROUNDS").ok();
    given.map_or(60, |word| word.parse().expect("ROUNDS is a number"))
}

fn main() {
    if std::env::args().nth(1).is_some() {
        growth::print(rounds());
    } else {
        table::print(rounds());
    }
}
