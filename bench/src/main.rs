//! Compares the proved check with a plain one that is worked out a second way, and measures both.

mod bridge;
mod compare;
mod inputs;
mod plain;
mod speed;
mod tally;

use std::process::ExitCode;

/// Usage: bench [SEED]
fn main() -> ExitCode {
    let seed = match std::env::args().nth(1).map(|word| word.parse()) {
        None => 1,
        Some(Ok(seed)) => seed,
        Some(Err(_)) => {
            eprintln!("the seed is a number");
            return ExitCode::from(2);
        }
    };
    if !compare::compare(seed) {
        return ExitCode::FAILURE;
    }
    println!();
    speed::speed(seed);
    ExitCode::SUCCESS
}
