//! Runs the fixed cases, then NUF_ROUNDS rounds for each fixed seed, and for NUF_SEED if it is set.

use std::process::ExitCode;
use std::time::Instant;

const SEEDS: [u64; 4] = [1, 2, 3, 2026];
const ROUNDS: u64 = 3000;

fn main() -> ExitCode {
    match compare_all() {
        Ok(cases) => {
            println!("host: {} cases compared, 0 differ", cases);
            ExitCode::SUCCESS
        }
        Err(difference) => {
            println!("host: a case differs\n{}", difference);
            ExitCode::FAILURE
        }
    }
}

fn compare_all() -> Result<u64, String> {
    let rounds = number_from("NUF_ROUNDS")?.unwrap_or(ROUNDS);
    let mut cases = 0;
    for (subject, part) in compare::FIXED {
        cases += timed(subject, || compare::fixed(subject, part))?;
    }
    for seed in SEEDS.into_iter().chain(number_from("NUF_SEED")?) {
        let name = format!("seed {}, {} rounds", seed, rounds);
        cases += timed(&name, || compare::random(seed, rounds))?;
    }
    Ok(cases)
}

fn timed(name: &str, part: impl FnOnce() -> Result<u64, String>) -> Result<u64, String> {
    let start = Instant::now();
    let cases = part()?;
    let seconds = start.elapsed().as_secs_f64();
    println!("host: {}: {} cases in {:.1} s", name, cases, seconds);
    Ok(cases)
}

fn number_from(variable: &str) -> Result<Option<u64>, String> {
    match std::env::var(variable) {
        Err(_) => Ok(None),
        Ok(text) => match text.parse() {
            Ok(number) => Ok(Some(number)),
            Err(_) => Err(format!("{} is not a number: {}", variable, text)),
        },
    }
}
