//! Faults, circuits that have them, and what an input makes of that.

use crate::circuit::{has, Circuit, Gate};
use crate::rules::{refuse, refuse_first, Refusal, Told};

const MOST_ENTRIES: usize = 256;

#[derive(Clone, Copy, PartialEq, Eq, Debug)]
pub enum Fault {
    StuckAt { level: usize, line: u32, value: u32 },
    MissingGate { gate: usize },
    MissingControl { gate: usize, line: u32 },
    ExtraControl { gate: usize, line: u32 },
}

impl Fault {
    /// The fault that four words name, if the circuit has one.
    pub fn named(circuit: &Circuit, words: [u32; 4]) -> Option<Fault> {
        let [class, place, line, value] = words;
        let place = place as usize;
        if class == 1 {
            let there = circuit.is_site(place, line) && value <= 1;
            return there.then_some(Fault::StuckAt {
                level: place,
                line,
                value,
            });
        }
        if place < 1 || place > circuit.depth() || value != 0 {
            return None;
        }
        let gate = circuit.gates[place - 1];
        let control = line < circuit.lines && gate.is_control(line);
        let free = line < circuit.lines && !gate.touches(line);
        match class {
            2 if line == 0 => Some(Fault::MissingGate { gate: place }),
            3 if control => Some(Fault::MissingControl { gate: place, line }),
            4 if free => Some(Fault::ExtraControl { gate: place, line }),
            _ => None,
        }
    }

    pub fn words(self) -> [u32; 4] {
        match self {
            Fault::StuckAt { level, line, value } => [1, level as u32, line, value],
            Fault::MissingGate { gate } => [2, gate as u32, 0, 0],
            Fault::MissingControl { gate, line } => [3, gate as u32, line, 0],
            Fault::ExtraControl { gate, line } => [4, gate as u32, line, 0],
        }
    }

    /// Rule 9 for a fault asked alone.
    pub fn checked(circuit: &Circuit, words: [u32; 4]) -> Told<Fault> {
        Fault::named(circuit, words).ok_or(Refusal {
            number: 9,
            place: 1,
        })
    }

    /// Rule 9 for a list, four words a fault; words left over are one more bad one.
    pub fn checked_list(circuit: &Circuit, words: &[u32]) -> Told<Vec<Fault>> {
        let named: Vec<Option<Fault>> = words
            .chunks(4)
            .map(|entry| <[u32; 4]>::try_from(entry).ok())
            .map(|entry| entry.and_then(|words| Fault::named(circuit, words)))
            .collect();
        refuse_first(9, &named, |fault| fault.is_none())?;
        Ok(named.into_iter().flatten().collect())
    }

    /// All faults of a class, in order.
    pub fn all(circuit: &Circuit, class: u32) -> Vec<Fault> {
        let mut faults = Vec::new();
        for place in 0..=circuit.depth() as u32 {
            for line in 0..circuit.lines {
                for value in 0..2 {
                    faults.extend(Fault::named(circuit, [class, place, line, value]));
                }
            }
        }
        faults
    }

    /// What the circuit with this fault puts out. The levels are those of the good run: up to the
    /// fault's place the faulty run is the same, so it starts there.
    pub fn faulty_output(self, circuit: &Circuit, good: &[u32]) -> u32 {
        match self {
            Fault::StuckAt { level, line, value } => {
                circuit.run_on(level, forced(good[level], line, value))
            }
            Fault::MissingGate { gate } => circuit.run_on(gate, good[gate - 1]),
            Fault::MissingControl { gate, line } => {
                let sound = circuit.gates[gate - 1];
                let controls = sound.controls & !(1 << line);
                circuit.run_on(gate, Gate { controls, ..sound }.step(good[gate - 1]))
            }
            Fault::ExtraControl { gate, line } => {
                let sound = circuit.gates[gate - 1];
                let controls = sound.controls | 1 << line;
                circuit.run_on(gate, Gate { controls, ..sound }.step(good[gate - 1]))
            }
        }
    }

    /// Whether the outputs differ, given the levels of the good run.
    pub fn is_seen(self, circuit: &Circuit, good: &[u32]) -> bool {
        self.faulty_output(circuit, good) != good[circuit.depth()]
    }
}

pub fn catches(lines: u32, gates: &[u32], vector: u32, fault: [u32; 4]) -> Told<bool> {
    let circuit = Circuit::checked(lines, gates, 0)?;
    circuit.check_state(vector)?;
    let fault = Fault::checked(&circuit, fault)?;
    Ok(fault.is_seen(&circuit, &circuit.levels(vector)))
}

pub fn catches_multiple(lines: u32, gates: &[u32], vector: u32, entries: &[u32]) -> Told<bool> {
    let circuit = Circuit::checked(lines, gates, 0)?;
    circuit.check_state(vector)?;
    let stuck = checked_multiple(&circuit, entries)?;
    Ok(stuck_output(&circuit, &stuck, vector) != circuit.output(vector))
}

/// The state at the fault's level that shows it, run backward.
pub fn test_for(lines: u32, gates: &[u32], fault: [u32; 4]) -> Told<u32> {
    let circuit = Circuit::checked(lines, gates, 0)?;
    let (level, zero) = match Fault::checked(&circuit, fault)? {
        Fault::StuckAt { level, line, value } => (level, (value == 1).then_some(line)),
        Fault::MissingGate { gate } => (gate - 1, None),
        Fault::MissingControl { gate, line } | Fault::ExtraControl { gate, line } => {
            (gate - 1, Some(line))
        }
    };
    let state = match zero {
        Some(line) => forced(circuit.ones(), line, 0),
        None => circuit.ones(),
    };
    Ok(circuit.run_back(level, state))
}

/// Rules 9 and 13.
fn checked_multiple(circuit: &Circuit, entries: &[u32]) -> Told<Vec<(usize, u32, u32)>> {
    let named: Vec<Option<(usize, u32, u32)>> = entries
        .chunks(4)
        .map(
            |entry| match Fault::checked_list(circuit, entry).ok()?[..] {
                [Fault::StuckAt { level, line, value }] => Some((level, line, value)),
                _ => None,
            },
        )
        .collect();
    refuse_first(9, &named, |entry| entry.is_none())?;
    let stuck: Vec<(usize, u32, u32)> = named.into_iter().flatten().collect();
    let mut sites: Vec<(usize, u32)> = stuck.iter().map(|s| (s.0, s.1)).collect();
    sites.sort_unstable();
    let twice = sites.windows(2).any(|pair| pair[0] == pair[1]);
    refuse(
        13,
        0,
        stuck.is_empty() || stuck.len() > MOST_ENTRIES || twice,
    )?;
    Ok(stuck)
}

/// One run with every stuck line forced as its level is reached.
fn stuck_output(circuit: &Circuit, stuck: &[(usize, u32, u32)], input: u32) -> u32 {
    let mut state = input;
    for level in 0..=circuit.depth() {
        if level > 0 {
            state = circuit.gates[level - 1].step(state);
        }
        for (_, line, value) in stuck.iter().filter(|entry| entry.0 == level) {
            state = forced(state, *line, *value);
        }
    }
    state
}

fn forced(state: u32, line: u32, value: u32) -> u32 {
    if has(state, line) == (value == 1) {
        state
    } else {
        state ^ (1 << line)
    }
}
