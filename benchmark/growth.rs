//! How the cost grows with steps, store length and file size, each over three decades.

use crate::contest::{Contest, Lengths, SMALL, best_of, check_side};
use crate::programs;

const DECADES: [usize; 4] = [1000, 100, 10, 1];

pub fn print(rounds: u32) {
    print_steps(rounds);
    print_stores(rounds);
    print_files(rounds);
}

fn print_steps(rounds: u32) {
    println!("| Charges, tight counted loop | Ours, ns a call | ns a step | Rust, ns a step |");
    println!("|---|---|---|---|");
    for part in DECADES {
        let program = programs::tight_loop(100_000 / part as u32);
        let contest = timed(rounds, &program, SMALL);
        let [ours, rust] = contest.per_step();
        let (charges, call) = (contest.charges, contest.best[0]);
        println!("| {charges} | {call:.0} | {ours:.2} | {rust:.2} |");
    }
}

fn print_stores(rounds: u32) {
    println!("\n| Operand stack lent, ten records | Ours, ns a call | Rust, ns a call |");
    println!("|---|---|---|");
    for part in DECADES {
        let length = calls::MOST_STACK / part;
        let contest = timed(rounds, &programs::ten_records(), (length, 4, 4));
        let (ours, rust) = (contest.best[0], contest.best[1]);
        println!("| {length} | {ours:.1} | {rust:.1} |");
    }
}

fn print_files(rounds: u32) {
    println!("\n| Records of the file, one charge made | Check, ns | ns a record | Call, ns |");
    println!("|---|---|---|---|");
    for part in DECADES {
        let records = 4096 / part;
        let program = programs::long_file(records);
        let check = best_of(rounds, check_side(&program));
        let call = timed(rounds, &program, SMALL).best[0];
        let each = check / records as f64;
        println!("| {records} | {check:.1} | {each:.2} | {call:.1} |");
    }
}

fn timed(rounds: u32, program: &calls::Program, lengths: Lengths) -> Contest {
    let mut contest = Contest::new(program, lengths);
    (0..rounds).for_each(|_| contest.round());
    contest
}
