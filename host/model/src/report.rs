//! The text of the report on a job.

use crate::fault::Fault;
use crate::job::Job;
use crate::judge::{verdict, Verdict};
use crate::rules::Told;

/// The whole text, for any bytes.
pub fn report(bytes: &[u8]) -> String {
    match lines_of(bytes) {
        Ok(text) => text,
        Err(refusal) => format!("E {} {}\n", refusal.number, refusal.place),
    }
}

fn lines_of(bytes: &[u8]) -> Told<String> {
    let job = Job::parsed(bytes)?;
    let circuit = job.circuit()?;
    let mut text = format!(
        "J {} {} {}\n",
        job.lines,
        circuit.depth(),
        job.vectors.len()
    );
    for (letter, class) in ['S', 'M', 'C', 'X'].iter().zip(1u32..) {
        if job.classes >> (class - 1) & 1 == 1 {
            text += &class_line(*letter, verdict(&circuit, &job.vectors, class));
        }
    }
    Ok(text)
}

fn class_line(letter: char, verdict: Verdict) -> String {
    let end = match verdict.first_uncaught {
        None => "ok".to_string(),
        Some(Fault::StuckAt { level, line, value }) => format!("{} {} {}", level, line, value),
        Some(Fault::MissingGate { gate }) => gate.to_string(),
        Some(Fault::MissingControl { gate, line } | Fault::ExtraControl { gate, line }) => {
            format!("{} {}", gate, line)
        }
    };
    format!("{} {} {} {}\n", letter, verdict.caught, verdict.total, end)
}
