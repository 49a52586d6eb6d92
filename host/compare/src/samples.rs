//! The samples of docs/SCOPE.md, with the answers that it prints, and sites and texts whose answers are written by hand. Here the
//! simulator has no say.

use crate::tally::Tally;
use inputs::{REAL_SAMPLES, SAMPLE_REAL};
use nufsadeem::{gate, import_real, report, Circuit, Class, Fault, Job, Refusal};
use std::fmt::Debug;

pub const LINES: u32 = 3;

pub fn sample_gates() -> Vec<u32> {
    let gates = [gate(&[0, 1], 2), gate(&[0], 1)];
    gates
        .map(|gate| gate.expect("the lines are below 32"))
        .concat()
}

#[rustfmt::skip]
pub const SAMPLE_IMAGE: [u8; 64] = [
    0x01, 0x00, 0x03, 0x00, 0x0F, 0x00, 0x00, 0x00, 0x02, 0x00, 0x00, 0x00, 0x03, 0x00, 0x00, 0x00,
    0x1C, 0x00, 0x00, 0x00, 0x34, 0x00, 0x00, 0x00, 0x40, 0x00, 0x00, 0x00, 0x03, 0x00, 0x00, 0x00,
    0x00, 0x00, 0x00, 0x00, 0x02, 0x00, 0x00, 0x00, 0x01, 0x00, 0x00, 0x00, 0x00, 0x00, 0x00, 0x00,
    0x01, 0x00, 0x00, 0x00, 0x00, 0x00, 0x00, 0x00, 0x03, 0x00, 0x00, 0x00, 0x05, 0x00, 0x00, 0x00,
];

const SAMPLE_REPORT: &str = "J 3 2 3\nS 16 16 ok\nM 2 2 ok\nC 2 3 1 0\nX 0 1 2 2\n";

pub fn compare(tally: &mut Tally) -> Result<(), String> {
    let gates = sample_gates();
    let circuit = Circuit::new(LINES, &gates);
    runs(tally, circuit)?;
    verdicts(tally, circuit)?;
    catching(tally, circuit)?;
    no_site(tally, circuit)?;
    rooms(tally)?;
    jobs(tally)?;
    texts(tally, circuit)?;
    is(
        tally,
        "backward set",
        circuit.backward_set(),
        Ok(vec![0, 7, 3, 5]),
    )?;
    is(
        tally,
        "compact set",
        circuit.compact_set(),
        Ok(vec![0, 3, 5]),
    )?;
    let no_gates = Circuit::new(1, &[]);
    is(
        tally,
        "compact set of one line",
        no_gates.compact_set(),
        Ok(vec![0, 1]),
    )
}

fn runs(tally: &mut Tally, circuit: Circuit) -> Result<(), String> {
    let levels = [
        (3, [3, 7, 5]),
        (7, [7, 3, 1]),
        (1, [1, 1, 3]),
        (6, [6, 6, 6]),
    ];
    for (input, states) in levels {
        for (level, state) in states.into_iter().enumerate() {
            let level = level as u32;
            is(tally, "forward", circuit.forward(level, input), Ok(state))?;
        }
    }
    is(tally, "backward", circuit.backward(2, 7), Ok(5))?;
    is(tally, "backward", circuit.backward(1, 7), Ok(3))?;
    let refusal = Refusal {
        number: 12,
        place: 0,
    };
    is(
        tally,
        "a level too high",
        circuit.forward(3, 0),
        Err(refusal),
    )
}

fn verdicts(tally: &mut Tally, circuit: Circuit) -> Result<(), String> {
    let sets = [
        (
            circuit,
            vec![0, 7],
            14,
            16,
            Some(Fault::stuck_at(1, 2, false)),
        ),
        (
            circuit,
            vec![0, 7, 3],
            15,
            16,
            Some(Fault::stuck_at(2, 1, false)),
        ),
        (
            Circuit::new(1, &[]),
            vec![],
            0,
            2,
            Some(Fault::stuck_at(0, 0, false)),
        ),
        // 4 + 2 sites, since no gate touches lines 2 and 3
        (
            Circuit::new(4, &[1, 0, 1]),
            vec![0, 15],
            11,
            12,
            Some(Fault::stuck_at(1, 1, false)),
        ),
        (
            Circuit::new(3, &[]),
            vec![2],
            3,
            6,
            Some(Fault::stuck_at(0, 0, false)),
        ),
        (Circuit::new(3, &[]), vec![2, 5], 6, 6, None),
    ];
    for (circuit, set, caught, total, first) in sets {
        for verdict in [circuit.judge(&set, 1u32), circuit.cover(&set, 1u32)] {
            let told = verdict.map(|v| (v.caught, v.total, v.first_uncaught));
            is(tally, "verdict", told, Ok((caught, total, first)))?;
        }
    }
    let nothing = Circuit::new(1, &[]).judge(&[], Class::MissingGate);
    let told = nothing.map(|v| (v.caught, v.total, v.is_complete()));
    is(tally, "verdict on no faults", told, Ok((0, 0, true)))
}

fn catching(tally: &mut Tally, circuit: Circuit) -> Result<(), String> {
    let faults = [
        (Fault::missing_gate(1), [3, 7]),
        (Fault::missing_control(1, 0), [2, 6]),
        (Fault::extra_control(2, 2), [1, 7]),
    ];
    for (fault, vectors) in faults {
        for vector in 0..8 {
            let expected = Ok(vectors.contains(&vector));
            is(tally, "catches", circuit.catches(vector, fault), expected)?;
        }
    }
    Ok(())
}

/// Gate 2 of the sample does not touch line 2. That gets 9, in a multiple fault before 13.
fn no_site(tally: &mut Tally, circuit: Circuit) -> Result<(), String> {
    let refusal = |place| Some(Refusal { number: 9, place });
    let fault = Fault::stuck_at(2, 2, true);
    let told = circuit.catches(0, fault).err();
    is(tally, "no site", told, refusal(1))?;
    let told = circuit.test_for(fault).err();
    is(tally, "the test for no site", told, refusal(1))?;
    let mut list = [Fault::stuck_at(2, 1, true), fault];
    let told = circuit.drop_caught(0, &mut list).err();
    is(tally, "no site in a list", told, refusal(2))?;
    let twice = [1, 0, 0, 0, 1, 0, 0, 0, 1, 2, 2, 1];
    let told = circuit.catches_multiple(0, &twice).err();
    is(tally, "no site in a multiple fault", told, refusal(3))
}

/// A compact set of 4 lines and gates of one line: 7 and 8 sites, then 15 and 16.
fn rooms(tally: &mut Tally) -> Result<(), String> {
    let refusal = Refusal {
        number: 10,
        place: 0,
    };
    for (depth, needed) in [(3, 4), (4, 5), (11, 5), (12, 6)] {
        let gates = [0, 0, 0].repeat(depth);
        let circuit = Circuit::new(4, &gates);
        let mut room = vec![0; needed];
        let told = circuit.compact_set_into(&mut room[1..]);
        is(tally, "room that is short by one", told, Err(refusal))?;
        let told = circuit.compact_set_into(&mut room).is_ok();
        is(tally, "room that is enough", told, true)?;
    }
    Ok(())
}

fn jobs(tally: &mut Tally) -> Result<(), String> {
    let job = Job {
        lines: LINES,
        classes: 15,
        gates: sample_gates(),
        vectors: vec![0, 3, 5],
    };
    is(tally, "image", job.write(), Ok(SAMPLE_IMAGE.to_vec()))?;
    is(tally, "job", Job::read(&SAMPLE_IMAGE), Ok(job))?;
    is(
        tally,
        "report",
        report(&SAMPLE_IMAGE),
        SAMPLE_REPORT.to_string(),
    )?;
    is(
        tally,
        "report",
        report(&SAMPLE_IMAGE[..27]),
        "E 1 0\n".to_string(),
    )
}

fn texts(tally: &mut Tally, circuit: Circuit) -> Result<(), String> {
    let written = Ok(SAMPLE_REAL.to_string());
    is(tally, "export", circuit.export_real(), written)?;
    for (text, right) in REAL_SAMPLES {
        let read = import_real(text);
        let told = read.as_ref().map(|read| (read.lines, &read.gates[..]));
        let told = told.map_err(|refusal| (refusal.number, refusal.place));
        let words = format!("import of {}", text.escape_ascii());
        is(tally, &words, told, *right)?;
    }
    Ok(())
}

fn is<T: PartialEq + Debug>(
    tally: &mut Tally,
    what: &str,
    library: T,
    expected: T,
) -> Result<(), String> {
    tally.holds(library == expected, || {
        format!(
            "{}: the library says {:?}, and {:?} is right",
            what, library, expected
        )
    })
}
