//! Compares our code with the Rust text in 01's domain of equality.
//!
//!   compare PROGRAM [SEED [ROUNDS]]     PROGRAM is our code behind a pipe; ROUNDS random inputs of each kind
//!                                       follow the exhaustive ones

use harness::compare::Comparison;
use harness::known;
use harness::oracle::Rust;
use harness::ours::Ours;

const ROUNDS: u64 = 20_000;

fn main() {
    let mut args = std::env::args().skip(1);
    let ours = Ours::start(&args.next().expect("the program of our code"));
    let mut numbers = args.map(|arg| arg.parse().expect("a number"));
    let seed = numbers.next().unwrap_or_else(|| u64::from(std::process::id()));
    let rounds = numbers.next().unwrap_or(ROUNDS);
    println!("seed {seed}, {rounds} rounds");
    known::check_all(&Rust);
    known::check_all(&ours);
    let mut comparison = Comparison::new(&ours, &Rust);
    match comparison.all(seed, rounds) {
        Ok(()) => comparison.tally.print(),
        Err(report) => {
            println!("a difference:\n{report}");
            std::process::exit(1);
        }
    }
}
