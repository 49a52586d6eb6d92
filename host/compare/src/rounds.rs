//! Random cases. A round draws one circuit and asks every call about it.

use crate::case::Question;
use crate::room::compact_room;
use crate::tally::Tally;
use inputs::make::{self, Drawn};
use inputs::{damage_text, damaged_text, good_text, Random};
use model::{export_real, image_of, import_real};
use nufsadeem::{Circuit, Class};

/// The simulator's compact set runs each fault on each input; larger circuits take too long.
const MOST_COMPACT_STEPS: u64 = 300_000;

pub fn compare(tally: &mut Tally, seed: u64, rounds: u64) -> Result<(), String> {
    for round in 0..rounds {
        tally.set_origin(format!("seed {}, round {}", seed, round));
        let mut random = Random::of_round(seed, round);
        let sound = make::circuit(&mut random);
        properties(tally, &mut random, &sound)?;
        let mut drawn = sound;
        if random.one_in(5) {
            make::damage(&mut random, &mut drawn);
        }
        runs(tally, &mut random, &drawn)?;
        faults(tally, &mut random, &drawn)?;
        sets(tally, &mut random, &drawn)?;
        jobs(tally, &mut random, &drawn)?;
        real_texts(tally, &mut random, &drawn)?;
    }
    Ok(())
}

fn runs(tally: &mut Tally, random: &mut Random, drawn: &Drawn) -> Result<(), String> {
    let (lines, gates) = (drawn.lines, &drawn.gates[..]);
    for _ in 0..2 {
        let level = make::level(random, drawn);
        let state = make::state(random, drawn);
        tally.circuit(lines, gates, Question::Forward { level, state })?;
        tally.circuit(lines, gates, Question::Backward { level, state })?;
    }
    Ok(())
}

fn faults(tally: &mut Tally, random: &mut Random, drawn: &Drawn) -> Result<(), String> {
    let (lines, gates) = (drawn.lines, &drawn.gates[..]);
    for _ in 0..3 {
        let vector = make::state(random, drawn);
        let fault = make::fault(random, drawn);
        tally.circuit(lines, gates, Question::Catches { vector, fault })?;
        tally.circuit(lines, gates, Question::TestFor { fault })?;
    }
    for _ in 0..2 {
        let vector = make::state(random, drawn);
        let entries = make::entries(random, drawn);
        tally.circuit(lines, gates, Question::CatchesMultiple { vector, entries })?;
        let list = make::faults(random, drawn);
        tally.circuit(lines, gates, Question::Drop { vector, list })?;
    }
    Ok(())
}

fn sets(tally: &mut Tally, random: &mut Random, drawn: &Drawn) -> Result<(), String> {
    let (lines, gates) = (drawn.lines, &drawn.gates[..]);
    for _ in 0..2 {
        let vectors = make::states(random, drawn);
        let class = match random.one_in(12) {
            true => random.pick(&[0, 5, 6, 257, u32::MAX]),
            false => 1 + random.upto(3),
        };
        tally.circuit(lines, gates, Question::Judge { vectors, class })?;
    }
    let room = make::room(random, gates.len() / 3 + 2);
    tally.circuit(lines, gates, Question::BackwardSet { room })?;
    let steps = (u64::from(lines) << lines.min(13)) * (gates.len() as u64 + 3).pow(2) / 9;
    if lines > 12 || steps <= MOST_COMPACT_STEPS {
        let room = make::room(random, compact_room(lines, gates));
        tally.circuit(lines, gates, Question::CompactSet { room })?;
    }
    Ok(())
}

fn jobs(tally: &mut Tally, random: &mut Random, drawn: &Drawn) -> Result<(), String> {
    let job = make::job(random, drawn);
    let written = Question::WriteJob {
        classes: job.classes,
        vectors: job.vectors.clone(),
        room: make::room(random, image_of(&job).len()),
    };
    tally.circuit(job.lines, &job.gates, written)?;
    for _ in 0..2 {
        let bytes = make::image(random, &job);
        tally.image(Question::ReadJob {
            bytes: bytes.clone(),
            gate_room: make::room(random, job.gates.len()),
            vector_room: make::room(random, job.vectors.len()),
        })?;
        let room = make::room(random, model::report(&bytes).len());
        tally.image(Question::Report { bytes, room })?;
    }
    Ok(())
}

/// The circuit as a text, whole and damaged, and texts that no export makes.
fn real_texts(tally: &mut Tally, random: &mut Random, drawn: &Drawn) -> Result<(), String> {
    let (lines, gates) = (drawn.lines, &drawn.gates[..]);
    let exported = export_real(lines, gates, usize::MAX).unwrap_or_default();
    let room = make::room(random, exported.len());
    tally.circuit(lines, gates, Question::ExportReal { room })?;
    let mut exported = exported.into_bytes();
    tally.text(&exported, make::room(random, gates.len()))?;
    damage_text(random, &mut exported);
    tally.text(&exported, gates.len())?;
    for _ in 0..2 {
        real_text(tally, random, good_text)?;
        real_text(tally, random, damaged_text)?;
        real_text(tally, random, damaged_text)?;
    }
    Ok(())
}

fn real_text(
    tally: &mut Tally,
    random: &mut Random,
    drawn: fn(&mut Random) -> Vec<u8>,
) -> Result<(), String> {
    let text = drawn(random);
    let needed = import_real(&text, usize::MAX).map_or(3, |circuit| 3 * circuit.depth());
    tally.text(&text, make::room(random, needed))
}

/// What the library's own answers must have to do with each other, for a circuit that is sound.
fn properties(tally: &mut Tally, random: &mut Random, drawn: &Drawn) -> Result<(), String> {
    let circuit = Circuit::new(drawn.lines, &drawn.gates);
    let level = random.upto(drawn.depth());
    let input = random.word() & drawn.ones();
    let fault = make::good_fault(random, drawn).into();
    let there = circuit.forward(level, input);
    tally.holds(
        there.and_then(|state| circuit.backward(level, state)) == Ok(input),
        || {
            format!(
                "{:?}: forward to level {}, then backward, from {}",
                circuit, level, input
            )
        },
    )?;
    let back = circuit.backward(level, input);
    tally.holds(
        back.and_then(|state| circuit.forward(level, state)) == Ok(input),
        || {
            format!(
                "{:?}: backward from level {}, then forward, from {}",
                circuit, level, input
            )
        },
    )?;
    let test = circuit.test_for(fault);
    tally.holds(
        test.and_then(|vector| circuit.catches(vector, fault)) == Ok(true),
        || format!("{:?}: the test for {} does not catch it", circuit, fault),
    )?;
    let text = circuit.export_real();
    let read = text.and_then(|text| nufsadeem::import_real(text.as_bytes()));
    let back = read.as_ref().map(|read| read.circuit());
    tally.holds(back == Ok(circuit), || {
        format!("{:?}: importing its text does not give it back", circuit)
    })?;
    let set = circuit.backward_set();
    let verdict = set.and_then(|set| circuit.judge(&set, Class::StuckAt));
    tally.holds(verdict.map(|v| v.is_complete()) == Ok(true), || {
        format!("{:?}: the backward set is not complete", circuit)
    })
}
