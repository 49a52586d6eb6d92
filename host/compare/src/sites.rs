//! Sites, and levels and lines that are none; circuits with lines that no gate touches; the room of compact sets, which follows
//! the number of sites.

use crate::borders::every_call;
use crate::case::Question;
use crate::room::{around, compact_room};
use crate::tally::Tally;
use inputs::make::ones;
use model::backward_set;
use nufsadeem::{Circuit, Refusal};

/// Lines and gates.
const CIRCUITS: [(u32, &[u32]); 7] = [
    // no gates
    (1, &[]),
    (5, &[]),
    // gates of one line
    (4, &[0, 0, 0, 0, 0, 2, 0, 0, 0]),
    // lines 1 and 3 are in no gate
    (4, &[1, 0, 2, 4, 0, 0, 0, 0, 2]),
    // all lines are in each gate
    (4, &[7, 0, 3, 14, 0, 0]),
    // each line is in one gate
    (5, &[1, 0, 1, 0, 0, 2, 16, 0, 3]),
    // the last lines of a word
    (32, &[1 << 31, 0, 0, 1, 0, 30, 0, 0, 31]),
];

pub fn compare(tally: &mut Tally) -> Result<(), String> {
    for (lines, gates) in CIRCUITS {
        every_stuck_at(tally, lines, gates)?;
        sets(tally, lines, gates)?;
    }
    rooms(tally)?;
    largest_room(tally)
}

/// Every level, line and value, with one more of each, in every call that takes a fault.
pub fn every_stuck_at(tally: &mut Tally, lines: u32, gates: &[u32]) -> Result<(), String> {
    for level in 0..=gates.len() as u32 / 3 + 1 {
        for line in 0..=lines {
            for value in 0..=2 {
                stuck_at(tally, lines, gates, [1, level, line, value])?;
            }
        }
    }
    Ok(())
}

fn stuck_at(tally: &mut Tally, lines: u32, gates: &[u32], fault: [u32; 4]) -> Result<(), String> {
    tally.circuit(lines, gates, Question::TestFor { fault })?;
    let site = [1, 0, lines - 1, 1];
    for vector in [0, ones(lines) & 0x5555_5555, ones(lines)] {
        tally.circuit(lines, gates, Question::Catches { vector, fault })?;
        for list in [vec![fault], vec![fault, site], vec![site, fault, fault]] {
            let list = list.concat();
            tally.circuit(lines, gates, Question::Drop { vector, list })?;
        }
        // 13 is broken by the site that stands twice, and by more than 256 entries
        for entries in [
            vec![fault],
            vec![fault, site],
            vec![site, fault],
            vec![fault, fault],
            vec![site, site, fault],
            [vec![site; 256], vec![fault]].concat(),
        ] {
            let entries = entries.concat();
            tally.circuit(lines, gates, Question::CatchesMultiple { vector, entries })?;
        }
    }
    Ok(())
}

/// Verdicts on no vector, on one, and on sets that are complete or nearly so.
fn sets(tally: &mut Tally, lines: u32, gates: &[u32]) -> Result<(), String> {
    let few: Vec<u32> = (0..=ones(lines).min(31)).collect();
    let backward = backward_set(lines, gates, usize::MAX).unwrap_or_default();
    for vectors in [&[][..], &few[..1], &[0, ones(lines)], &few, &backward] {
        every_call(tally, lines, gates, vectors)?;
    }
    Ok(())
}

/// Gates of one and of two lines, so that the sites come to every power of 2 and to one less, with lines untouched.
fn rooms(tally: &mut Tally) -> Result<(), String> {
    for (lines, most_gates) in [(1, 40), (2, 40), (4, 40), (7, 30), (12, 5)] {
        for gate in [[0, 0, 0], [1, 0, 1]] {
            // a control on line 0 needs a second line
            for depth in (0..=most_gates).filter(|_| gate[2] < lines) {
                let gates = gate.repeat(depth);
                for room in around(compact_room(lines, &gates)) {
                    tally.circuit(lines, &gates, Question::CompactSet { room })?;
                }
            }
        }
    }
    Ok(())
}

/// 12 lines and 1,024 gates on all of them: 12,300 sites, and room for 15 vectors.
fn largest_room(tally: &mut Tally) -> Result<(), String> {
    let gates = [2047, 0, 11].repeat(1024);
    let circuit = Circuit::new(12, &gates);
    let refusal = Refusal {
        number: 10,
        place: 0,
    };
    let short = circuit.compact_set_into(&mut [0; 14]);
    tally.holds(short == Err(refusal), || {
        format!("the largest compact set, with room for 14: {:?}", short)
    })?;
    let set = circuit.compact_set();
    tally.holds(set.is_ok(), || {
        format!("the wrapper's room for the largest compact set: {:?}", set)
    })
}
