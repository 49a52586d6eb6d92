//! Dropping the faults that one vector catches from a list.

use crate::circuit::Circuit;
use crate::fault::Fault;
use crate::rules::Told;

/// A record that is no fault.
pub const BLANK: [u32; 4] = [0; 4];

/// The list as it stands afterwards, and how many faults are left at its front.
pub fn drop_caught(lines: u32, gates: &[u32], vector: u32, list: &[u32]) -> Told<(Vec<u32>, u32)> {
    let circuit = Circuit::checked(lines, gates, 0)?;
    circuit.check_state(vector)?;
    let faults = Fault::checked_list(&circuit, list)?;
    let good = circuit.levels(vector);
    let left: Vec<[u32; 4]> = faults
        .iter()
        .filter(|fault| !fault.is_seen(&circuit, &good))
        .map(|fault| fault.words())
        .collect();
    let blanks = vec![BLANK; faults.len() - left.len()];
    Ok((
        [&left[..], &blanks[..]].concat().concat(),
        left.len() as u32,
    ))
}
