//! The backward set and the compact set.

use crate::circuit::Circuit;
use crate::fault::Fault;
use crate::rules::{refuse, Told};

const MOST_COMPACT_LINES: u32 = 12;

pub fn backward_set(lines: u32, gates: &[u32], room: usize) -> Told<Vec<u32>> {
    let circuit = Circuit::checked(lines, gates, 0)?;
    refuse(10, 0, room < circuit.depth() + 2)?;
    let zeros = circuit.levels(0);
    let mut set = vec![0, circuit.ones()];
    for (level, state) in zeros.iter().enumerate().skip(1) {
        set.push(circuit.run_back(level, state ^ circuit.ones()));
    }
    Ok(set)
}

pub fn compact_set(lines: u32, gates: &[u32], room: usize) -> Told<Vec<u32>> {
    let circuit = Circuit::checked(lines, gates, 0)?;
    refuse(11, 0, lines > MOST_COMPACT_LINES)?;
    refuse(10, 0, room < bound(circuit.sites()))?;
    Ok(greedy(&circuit))
}

/// The room that a compact set of this circuit needs, of any number of lines.
pub fn compact_bound(lines: u32, gates: &[u32]) -> Told<usize> {
    Circuit::checked(lines, gates, 0).map(|circuit| bound(circuit.sites()))
}

/// 2 + floor(log2 S), where S is the number of sites.
fn bound(sites: usize) -> usize {
    let (mut left, mut log) = (sites, 0);
    while left > 1 {
        left /= 2;
        log += 1;
    }
    2 + log
}

/// Which stuck-at faults each input catches is run once; the picks are then made from that.
fn greedy(circuit: &Circuit) -> Vec<u32> {
    let faults = Fault::all(circuit, 1);
    let inputs = 1u32 << circuit.lines;
    let caught_by: Vec<Vec<u64>> = (0..inputs)
        .map(|input| caught_words(circuit, &faults, input))
        .collect();
    let mut left = vec![0u64; (faults.len() + 63) / 64];
    for index in 0..faults.len() {
        left[index / 64] |= 1 << (index % 64);
    }
    let mut picks = Vec::new();
    while left.iter().any(|word| *word != 0) {
        let mut best = (0, 0);
        for input in 0..inputs {
            let score = common(&left, &caught_by[input as usize]);
            if score > best.0 {
                best = (score, input);
            }
        }
        picks.push(best.1);
        for (word, caught) in left.iter_mut().zip(&caught_by[best.1 as usize]) {
            *word &= !caught;
        }
    }
    picks
}

/// Bit k tells whether the input catches fault k.
fn caught_words(circuit: &Circuit, faults: &[Fault], input: u32) -> Vec<u64> {
    let good = circuit.levels(input);
    faults
        .chunks(64)
        .map(|chunk| {
            let bits = chunk.iter().enumerate();
            bits.fold(0, |word, (bit, fault)| {
                word | u64::from(fault.is_seen(circuit, &good)) << bit
            })
        })
        .collect()
}

fn common(left: &[u64], right: &[u64]) -> u32 {
    let pairs = left.iter().zip(right);
    pairs.map(|(l, r)| (l & r).count_ones()).sum()
}
