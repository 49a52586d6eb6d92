//! The verdict on a set for a class.

use crate::circuit::Circuit;
use crate::fault::Fault;
use crate::rules::{refuse, Told};

#[derive(Clone, Copy, PartialEq, Eq, Debug)]
pub struct Verdict {
    pub caught: u32,
    pub total: u32,
    pub first_uncaught: Option<Fault>,
}

pub fn judge(lines: u32, gates: &[u32], vectors: &[u32], class: u32) -> Told<Verdict> {
    let circuit = Circuit::checked(lines, gates, vectors.len())?;
    circuit.check_states(vectors)?;
    refuse(9, 1, !(1..=4).contains(&class))?;
    Ok(verdict(&circuit, vectors, class))
}

/// The verdict on a set that kept the rules.
pub fn verdict(circuit: &Circuit, vectors: &[u32], class: u32) -> Verdict {
    let faults = Fault::all(circuit, class);
    let mut uncaught = faults.clone();
    for vector in vectors {
        let good = circuit.levels(*vector);
        uncaught.retain(|fault| !fault.is_seen(circuit, &good));
    }
    Verdict {
        caught: (faults.len() - uncaught.len()) as u32,
        total: faults.len() as u32,
        first_uncaught: uncaught.first().copied(),
    }
}
