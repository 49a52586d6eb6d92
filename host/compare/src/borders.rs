//! Every rule at its border: one below, at it, and one above.

use crate::case::Question;
use crate::room::{around, compact_room};
use crate::samples::{sample_gates, LINES};
use crate::tally::Tally;
use inputs::{make, Random};
use model::{export_real, image_of, Job};
use nufsadeem::Circuit;

/// The bytes of the longest text of a circuit, as include/nufsadeem.h has it.
const LONGEST_REAL: usize = 125_094;

pub fn compare(tally: &mut Tally) -> Result<(), String> {
    numbers_of_lines(tally)?;
    numbers_of_gates(tally)?;
    bad_gates(tally)?;
    numbers_of_vectors(tally)?;
    bad_vectors(tally)?;
    several_rules_at_once(tally)?;
    levels(tally)?;
    compact_lines(tally)?;
    rooms(tally)?;
    entries(tally)?;
    lists(tally)?;
    classes_wanted(tally)?;
    longest_job(tally)?;
    longest_text(tally)
}

fn numbers_of_lines(tally: &mut Tally) -> Result<(), String> {
    for lines in [0, 1, 2, 30, 31, 32, 33, 64, 65535, 65536, 65537, u32::MAX] {
        for gates in [&[][..], &[0, 0, 0], &[1, 0, 31], &[1 << 31, 0, 0]] {
            every_call(tally, lines, gates, &[0, 1])?;
            every_call(tally, lines, gates, &[make::ones(lines), u32::MAX])?;
        }
    }
    Ok(())
}

fn numbers_of_gates(tally: &mut Tally) -> Result<(), String> {
    for depth in [1023, 1024, 1025] {
        for left_over in 0..3 {
            let mut gates = long_gates(2, depth);
            gates.extend(vec![0; left_over]);
            every_call(tally, 2, &gates, &[0, 3])?;
        }
    }
    Ok(())
}

fn bad_gates(tally: &mut Tally) -> Result<(), String> {
    let sound = long_gates(2, 1024);
    for (first, second) in [(1, 1), (1, 1024), (512, 513), (1023, 1024), (1024, 1024)] {
        for bad in [[4, 0, 0], [0, 1, 0], [0, 0, 2], [1, 0, 0]] {
            let mut gates = sound.clone();
            for gate in [first, second] {
                gates[3 * gate - 3..3 * gate].copy_from_slice(&bad);
            }
            every_call(tally, 2, &gates, &[0, 3])?;
        }
    }
    Ok(())
}

fn numbers_of_vectors(tally: &mut Tally) -> Result<(), String> {
    for count in [0, 1, 2047, 2048, 2049, 4096] {
        let vectors: Vec<u32> = (0..count).map(|v| v % 7).collect();
        every_set_call(tally, LINES, &sample_gates(), &vectors)?;
    }
    Ok(())
}

fn bad_vectors(tally: &mut Tally) -> Result<(), String> {
    for (first, second) in [(1, 1), (1, 2048), (1000, 1001), (2047, 2048), (2048, 2048)] {
        for bad in [8, 9, u32::MAX] {
            let mut vectors = vec![7; 2048];
            vectors[first - 1] = bad;
            vectors[second - 1] = bad;
            every_set_call(tally, LINES, &sample_gates(), &vectors)?;
        }
    }
    Ok(())
}

/// The lowest number is told, whichever others are broken too.
fn several_rules_at_once(tally: &mut Tally) -> Result<(), String> {
    for lines in [0, 2, 33] {
        for depth in [1024, 1025] {
            for bad_gate in [0, 1] {
                let mut gates = long_gates(2, depth);
                gates[1] = bad_gate;
                for count in [2048, 2049] {
                    // all four inputs come soon, so that the simulator's work ends soon
                    let vectors: Vec<u32> = (0..count).map(|v| v % 4).collect();
                    every_set_call(tally, lines, &gates, &vectors)?;
                    every_set_call(tally, lines, &gates, &[&[4], &vectors[1..]].concat())?;
                }
            }
        }
    }
    Ok(())
}

fn levels(tally: &mut Tally) -> Result<(), String> {
    for depth in [0, 1, 2, 1023, 1024] {
        let gates = long_gates(5, depth);
        let depth = depth as u32;
        for level in [0, depth / 2, depth, depth + 1, depth + 2, u32::MAX] {
            for state in [0, 1, 30, 31, 32, u32::MAX] {
                tally.circuit(5, &gates, Question::Forward { level, state })?;
                tally.circuit(5, &gates, Question::Backward { level, state })?;
            }
        }
    }
    Ok(())
}

fn compact_lines(tally: &mut Tally) -> Result<(), String> {
    for lines in 9..=14 {
        let gates = long_gates(lines, 3);
        tally.circuit(lines, &gates, Question::CompactSet { room: 0 })?;
        for room in around(compact_room(lines, &gates)) {
            tally.circuit(lines, &gates, Question::CompactSet { room })?;
        }
    }
    Ok(())
}

fn rooms(tally: &mut Tally) -> Result<(), String> {
    for depth in 0..=17 {
        let gates = long_gates(3, depth);
        for room in 0..=depth + 4 {
            tally.circuit(3, &gates, Question::BackwardSet { room })?;
        }
        for room in 0..=compact_room(3, &gates) + 2 {
            tally.circuit(3, &gates, Question::CompactSet { room })?;
        }
    }
    for room in 0..=70 {
        let asked = Question::WriteJob {
            classes: 15,
            vectors: vec![0, 3, 5],
            room,
        };
        tally.circuit(LINES, &sample_gates(), asked)?;
    }
    for room in 0..=90 {
        tally.circuit(LINES, &sample_gates(), Question::ExportReal { room })?;
    }
    Ok(())
}

/// The lines of a gate by its number: four of eight, from another one on at each gate.
fn four_lines(gate: u32) -> [u32; 4] {
    [0, 1, 2, 3].map(|more| (gate - 1 + more) % 8)
}

fn entries(tally: &mut Tally) -> Result<(), String> {
    let gate = |number| {
        let [a, b, c, target] = four_lines(number);
        [1 << a | 1 << b | 1 << c, 0, target]
    };
    let gates: Vec<u32> = (1..=80).flat_map(gate).collect();
    let of_input = (0..8).map(|line| (0, line));
    let of_gates = (1..=80).flat_map(|level| four_lines(level).map(|line| (level, line)));
    let sites: Vec<[u32; 4]> = of_input
        .chain(of_gates)
        .zip(0..300)
        .map(|((level, line), number)| [1, level, line, number / 3 % 2])
        .collect();
    let refused = |count: usize| {
        let told = Circuit::new(8, &gates).catches_multiple(0, &sites[..count].concat());
        told.err().map(|refusal| refusal.number)
    };
    tally.holds(refused(256).is_none() && refused(257) == Some(13), || {
        "256 sites are not taken, or 257 not refused with 13".to_string()
    })?;
    for count in [0, 1, 2, 255, 256, 257, 300] {
        let whole = sites[..count].concat();
        multiple(tally, &gates, whole.clone())?;
        for left_over in 1..4 {
            multiple(tally, &gates, [&whole[..], &vec![1; left_over]].concat())?;
        }
        for bad in [
            [2, 1, 0, 0],
            [0; 4],
            [1, 81, 0, 0],
            [1, 0, 8, 0],
            [1, 0, 0, 2],
            // gate 1 does not touch line 4
            [1, 1, 4, 0],
        ] {
            multiple(tally, &gates, [&whole[..], &bad].concat())?;
            multiple(tally, &gates, [&bad[..], &whole].concat())?;
        }
        for again in [[1, 0, 0, 0], [1, 0, 0, 1], [1, 80, 0, 0]] {
            multiple(tally, &gates, [&whole[..], &again].concat())?;
        }
    }
    // the first entry again, as the last of 256 and as the 257th
    multiple(
        tally,
        &gates,
        [sites[..255].concat(), sites[0].to_vec()].concat(),
    )?;
    multiple(
        tally,
        &gates,
        [sites[..256].concat(), sites[0].to_vec()].concat(),
    )?;
    // one line, opposite values at two levels
    multiple(tally, &gates, vec![1, 0, 0, 0, 1, 80, 0, 1])?;
    multiple(tally, &gates, vec![1, 80, 0, 1, 1, 0, 0, 0])
}

fn multiple(tally: &mut Tally, gates: &[u32], entries: Vec<u32>) -> Result<(), String> {
    for vector in [0, 0x5a, 255, 256] {
        let entries = entries.clone();
        tally.circuit(8, gates, Question::CatchesMultiple { vector, entries })?;
    }
    Ok(())
}

/// Lists with bad records, blanks and words left over at every place.
fn lists(tally: &mut Tally) -> Result<(), String> {
    let gates = sample_gates();
    let sound = [
        [1, 0, 0, 0],
        [4, 2, 2, 0],
        [2, 1, 0, 0],
        [3, 1, 1, 0],
        [1, 2, 1, 1],
        [2, 2, 0, 0],
    ];
    for vector in 0..9 {
        for at in 0..=sound.len() {
            for bad in [
                [0; 4],
                [5, 1, 0, 0],
                [2, 1, 1, 0],
                [3, 1, 0, 1],
                [1, 3, 0, 0],
                [1, 2, 2, 1],
            ] {
                let list = [&sound[..at], &[bad], &sound[at..]].concat().concat();
                tally.circuit(LINES, &gates, Question::Drop { vector, list })?;
            }
            for words in 0..4 {
                let list = [&sound[..at].concat()[..], &vec![0; words]].concat();
                tally.circuit(LINES, &gates, Question::Drop { vector, list })?;
            }
        }
    }
    Ok(())
}

fn classes_wanted(tally: &mut Tally) -> Result<(), String> {
    for classes in (0..=17).chain([31, 32, 255, 256, 65536, 65537, u32::MAX]) {
        job_calls(tally, LINES, &sample_gates(), &[0, 3, 5], classes)?;
    }
    Ok(())
}

fn longest_job(tally: &mut Tally) -> Result<(), String> {
    let mut random = Random::of_round(0, 0);
    let vectors: Vec<u32> = (0..2048).map(|_| random.word()).collect();
    let mut gates = Vec::new();
    for gate in 0..1024u32 {
        // two controls at most: few random vectors fire a gate with many
        let target = gate % 32;
        let controls = (1 << (gate % 31) | 1 << (gate % 29)) & !(1 << target);
        gates.extend([controls, 0, target]);
    }
    job_calls(tally, 32, &gates, &vectors, 15)
}

/// Circuits whose texts are as long as texts of so many gates can be: the header's figure, and the wrapper's room for them.
fn longest_text(tally: &mut Tally) -> Result<(), String> {
    let gates = [u32::MAX >> 1, 0, 31].repeat(1024);
    text_calls(tally, 32, &gates)?;
    let longest = Circuit::new(32, &gates).export_real();
    tally.holds(longest.map(|text| text.len()) == Ok(LONGEST_REAL), || {
        format!("the longest text has not {} bytes", LONGEST_REAL)
    })?;
    for depth in [0, 1, 2, 1023] {
        let text = Circuit::new(32, &gates[..3 * depth]).export_real();
        tally.holds(text.is_ok(), || {
            format!("the wrapper has no room for {} gates", depth)
        })?;
    }
    Ok(())
}

/// Every call that takes a circuit, and every call that takes a set.
pub fn every_call(
    tally: &mut Tally,
    lines: u32,
    gates: &[u32],
    vectors: &[u32],
) -> Result<(), String> {
    let depth = gates.len() / 3;
    let level = depth as u32;
    let last_target = gates.chunks_exact(3).last().map_or(0, |gate| gate[2]);
    let faults = [
        [1, level, last_target, 1],
        [1, 0, 0, 0],
        [2, level, 0, 0],
        [4, 1, 1, 0],
    ];
    for state in vectors.iter().copied() {
        let vector = state;
        tally.circuit(lines, gates, Question::Forward { level, state })?;
        tally.circuit(lines, gates, Question::Backward { level, state })?;
        for fault in faults {
            tally.circuit(lines, gates, Question::Catches { vector, fault })?;
        }
        let entries = faults[..2].concat();
        tally.circuit(lines, gates, Question::CatchesMultiple { vector, entries })?;
        let list = faults.concat();
        tally.circuit(lines, gates, Question::Drop { vector, list })?;
        let list = vec![];
        tally.circuit(lines, gates, Question::Drop { vector, list })?;
    }
    for fault in faults {
        tally.circuit(lines, gates, Question::TestFor { fault })?;
    }
    for room in [depth + 1, depth + 2, depth + 3] {
        tally.circuit(lines, gates, Question::BackwardSet { room })?;
    }
    for room in around(compact_room(lines, gates)) {
        tally.circuit(lines, gates, Question::CompactSet { room })?;
    }
    text_calls(tally, lines, gates)?;
    every_set_call(tally, lines, gates, vectors)
}

/// Writing the text and reading it, with room one short, exact and one more.
fn text_calls(tally: &mut Tally, lines: u32, gates: &[u32]) -> Result<(), String> {
    let text = export_real(lines, gates, usize::MAX).unwrap_or_default();
    for room in around(text.len()) {
        tally.circuit(lines, gates, Question::ExportReal { room })?;
    }
    for room in around(gates.len()) {
        tally.text(text.as_bytes(), room)?;
    }
    Ok(())
}

fn every_set_call(
    tally: &mut Tally,
    lines: u32,
    gates: &[u32],
    vectors: &[u32],
) -> Result<(), String> {
    for class in 0..=5 {
        let vectors = vectors.to_vec();
        tally.circuit(lines, gates, Question::Judge { vectors, class })?;
    }
    job_calls(tally, lines, gates, vectors, 15)
}

/// Writing, reading and reporting, with room one short, exact and one more.
fn job_calls(
    tally: &mut Tally,
    lines: u32,
    gates: &[u32],
    vectors: &[u32],
    classes: u32,
) -> Result<(), String> {
    let bytes = image_of(&Job {
        lines,
        classes,
        gates: gates.to_vec(),
        vectors: vectors.to_vec(),
    });
    for room in around(bytes.len()) {
        let vectors = vectors.to_vec();
        let asked = Question::WriteJob {
            classes,
            vectors,
            room,
        };
        tally.circuit(lines, gates, asked)?;
    }
    for gate_room in around(gates.len()) {
        for vector_room in around(vectors.len()) {
            tally.image(Question::ReadJob {
                bytes: bytes.clone(),
                gate_room,
                vector_room,
            })?;
        }
    }
    for room in around(model::report(&bytes).len()) {
        let bytes = bytes.clone();
        tally.image(Question::Report { bytes, room })?;
    }
    Ok(())
}

fn long_gates(lines: u32, depth: usize) -> Vec<u32> {
    make::gates(&mut Random::of_round(7, u64::from(lines)), lines, depth)
}
