//! Lines, gates, levels, and runs in both directions.

use crate::rules::{refuse, refuse_first, Told};

pub const MOST_LINES: u32 = 32;
pub const LONGEST_CIRCUIT: usize = 1024;

/// A gate as it is lent: three words in the order of the job image.
#[derive(Clone, Copy, PartialEq, Eq, Debug)]
pub struct Gate {
    pub controls: u32,
    pub spare: u32,
    pub target: u32,
}

impl Gate {
    /// What the gate makes of the state before it.
    pub fn step(self, state: u32) -> u32 {
        let all_ones = state & self.controls == self.controls;
        if all_ones {
            state ^ (1 << self.target)
        } else {
            state
        }
    }

    pub fn words(self) -> [u32; 3] {
        [self.controls, self.spare, self.target]
    }

    pub fn is_control(self, line: u32) -> bool {
        has(self.controls, line)
    }

    /// Whether a line is the gate's own, as a control or as its target.
    pub fn touches(self, line: u32) -> bool {
        self.is_control(line) || line == self.target
    }

    /// The number of its lines.
    fn size(self) -> usize {
        self.controls.count_ones() as usize + 1
    }

    fn is_bad(self, lines: u32) -> bool {
        !fits(self.controls, lines)
            || self.spare != 0
            || self.target >= lines
            || has(self.controls, self.target)
    }
}

/// A circuit that kept the rules.
#[derive(Clone, PartialEq, Eq, Debug)]
pub struct Circuit {
    pub lines: u32,
    pub gates: Vec<Gate>,
}

impl Circuit {
    /// Rules 3, 5 and 7. `vectors` is how many the same call takes, since rule 5 counts both.
    pub fn checked(lines: u32, words: &[u32], vectors: usize) -> Told<Circuit> {
        refuse(3, 0, !(1..=MOST_LINES).contains(&lines))?;
        let whole = words.len() / 3;
        refuse(
            5,
            0,
            whole > LONGEST_CIRCUIT || vectors > crate::LARGEST_SET,
        )?;
        let gates: Vec<Gate> = words.chunks_exact(3).map(gate_of).collect();
        refuse_first(7, &gates, |gate| gate.is_bad(lines))?;
        refuse(7, whole + 1, words.len() % 3 != 0)?;
        Ok(Circuit { lines, gates })
    }

    /// The gates as they are lent.
    pub fn words(&self) -> Vec<u32> {
        self.gates.iter().flat_map(|gate| gate.words()).collect()
    }

    pub fn depth(&self) -> usize {
        self.gates.len()
    }

    /// A site is level 0 with any line, or level i with a line of gate i.
    pub fn is_site(&self, level: usize, line: u32) -> bool {
        line < self.lines
            && level <= self.depth()
            && (level == 0 || self.gates[level - 1].touches(line))
    }

    /// The number of sites: the lines, and the sizes of all gates.
    pub fn sites(&self) -> usize {
        let sizes: usize = self.gates.iter().map(|gate| gate.size()).sum();
        self.lines as usize + sizes
    }

    /// Rule 8 for a state that stands alone.
    pub fn check_state(&self, state: u32) -> Told<()> {
        self.check_states(&[state])
    }

    /// Rule 8 for a list.
    pub fn check_states(&self, states: &[u32]) -> Told<()> {
        refuse_first(8, states, |state| !fits(*state, self.lines))
    }

    /// Every level of a run, level 0 first.
    pub fn levels(&self, input: u32) -> Vec<u32> {
        let mut levels = vec![input];
        let mut state = input;
        for gate in &self.gates {
            state = gate.step(state);
            levels.push(state);
        }
        levels
    }

    pub fn output(&self, input: u32) -> u32 {
        self.run_on(0, input)
    }

    /// Goes on from a state at a level to the output.
    pub fn run_on(&self, level: usize, state: u32) -> u32 {
        self.gates[level..]
            .iter()
            .fold(state, |state, gate| gate.step(state))
    }

    /// The input that leads to a state at a level.
    pub fn run_back(&self, level: usize, state: u32) -> u32 {
        self.gates[..level]
            .iter()
            .rev()
            .fold(state, |state, gate| gate.step(state))
    }

    /// All lines 1.
    pub fn ones(&self) -> u32 {
        (0..self.lines).fold(0, |word, line| word | 1 << line)
    }
}

pub fn forward(lines: u32, gates: &[u32], level: u32, state: u32) -> Told<u32> {
    let circuit = Circuit::checked(lines, gates, 0)?;
    circuit.check_state(state)?;
    refuse(12, 0, level as usize > circuit.depth())?;
    Ok(circuit.levels(state)[level as usize])
}

pub fn backward(lines: u32, gates: &[u32], level: u32, state: u32) -> Told<u32> {
    let circuit = Circuit::checked(lines, gates, 0)?;
    circuit.check_state(state)?;
    refuse(12, 0, level as usize > circuit.depth())?;
    Ok(circuit.run_back(level as usize, state))
}

pub fn has(word: u32, line: u32) -> bool {
    u64::from(word) >> line & 1 == 1
}

fn fits(word: u32, lines: u32) -> bool {
    u64::from(word) < 1u64 << lines
}

fn gate_of(words: &[u32]) -> Gate {
    Gate {
        controls: words[0],
        spare: words[1],
        target: words[2],
    }
}
