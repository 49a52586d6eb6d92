//! Every question about small circuits: the sample circuit, and all circuits of few lines and gates.

use crate::case::Question;
use crate::room::{around, compact_room};
use crate::samples::{sample_gates, LINES};
use crate::sites::every_stuck_at;
use crate::tally::Tally;
use inputs::make::ones;
use model::export_real;

pub fn compare(tally: &mut Tally) -> Result<(), String> {
    every_run(tally)?;
    every_fault(tally)?;
    every_set(tally)?;
    for (lines, most_gates) in [(1, 3), (2, 3), (3, 2)] {
        for depth in 0..=most_gates {
            every_circuit(tally, lines, depth, &[])?;
        }
    }
    Ok(())
}

fn every_run(tally: &mut Tally) -> Result<(), String> {
    let gates = sample_gates();
    for level in 0..=4 {
        for state in 0..=9 {
            tally.circuit(LINES, &gates, Question::Forward { level, state })?;
            tally.circuit(LINES, &gates, Question::Backward { level, state })?;
        }
    }
    Ok(())
}

/// Every record with fields at and just outside what a class allows.
fn every_fault(tally: &mut Tally) -> Result<(), String> {
    let gates = sample_gates();
    for class in [0, 1, 2, 3, 4, 5, 256, u32::MAX] {
        for place in [0, 1, 2, 3, 4, u32::MAX] {
            for line in [0, 1, 2, 3, 4, 32, u32::MAX] {
                for value in [0, 1, 2, u32::MAX] {
                    one_fault(tally, &gates, [class, place, line, value])?;
                }
            }
        }
    }
    Ok(())
}

fn one_fault(tally: &mut Tally, gates: &[u32], fault: [u32; 4]) -> Result<(), String> {
    tally.circuit(LINES, gates, Question::TestFor { fault })?;
    for vector in 0..9 {
        tally.circuit(LINES, gates, Question::Catches { vector, fault })?;
    }
    let entries = fault.to_vec();
    let vector = 5;
    tally.circuit(LINES, gates, Question::CatchesMultiple { vector, entries })?;
    let list = [fault, [1, 0, 0, 0], fault].concat();
    tally.circuit(LINES, gates, Question::Drop { vector, list })
}

fn every_set(tally: &mut Tally) -> Result<(), String> {
    let gates = sample_gates();
    for chosen in 0..256 {
        let vectors: Vec<u32> = (0..8).filter(|v| chosen >> v & 1 == 1).collect();
        for class in 0..=5 {
            let vectors = vectors.clone();
            tally.circuit(LINES, &gates, Question::Judge { vectors, class })?;
        }
    }
    Ok(())
}

/// All circuits that go on from `before` with so many gates.
fn every_circuit(tally: &mut Tally, lines: u32, more: usize, before: &[u32]) -> Result<(), String> {
    if more == 0 {
        return one_circuit(tally, lines, before);
    }
    for target in 0..lines {
        for controls in 0..=ones(lines) {
            if controls >> target & 1 == 0 {
                let gates = [before, &[controls, 0, target]].concat();
                every_circuit(tally, lines, more - 1, &gates)?;
            }
        }
    }
    Ok(())
}

fn one_circuit(tally: &mut Tally, lines: u32, gates: &[u32]) -> Result<(), String> {
    let depth = gates.len() / 3;
    let room = depth + 2;
    tally.circuit(lines, gates, Question::BackwardSet { room })?;
    for room in around(compact_room(lines, gates)) {
        tally.circuit(lines, gates, Question::CompactSet { room })?;
    }
    every_stuck_at(tally, lines, gates)?;
    let text = export_real(lines, gates, usize::MAX).unwrap_or_default();
    let room = text.len();
    tally.circuit(lines, gates, Question::ExportReal { room })?;
    tally.text(text.as_bytes(), gates.len())?;
    for class in 1..=4 {
        for vector in 0..=ones(lines) {
            let vectors = vec![vector, 0];
            tally.circuit(lines, gates, Question::Judge { vectors, class })?;
        }
    }
    Ok(())
}
