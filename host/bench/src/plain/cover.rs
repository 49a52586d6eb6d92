use super::{fit, gates_of, verdict_on_gates, Gate, Seen, Verdict};

/// Marks for all four classes.
struct Coverage {
    seen: Seen,
    fired: Vec<u32>,
    lone_zeros: Vec<u32>,
    zeros_of_fired: Vec<u32>,
}

impl Coverage {
    fn empty(depth: usize) -> Coverage {
        Coverage {
            seen: Seen::new(depth),
            fired: vec![0; depth],
            lone_zeros: vec![0; depth],
            zeros_of_fired: vec![0; depth],
        }
    }

    fn with_vector(mut self, gates: &[Gate], vector: u32) -> Coverage {
        let mut state = vector;
        self.seen.zeros[0] |= !state;
        self.seen.ones[0] |= state;
        let seen = self.seen.zeros[1..]
            .iter_mut()
            .zip(&mut self.seen.ones[1..]);
        let marks = self.fired.iter_mut().zip(&mut self.lone_zeros);
        let marks = marks.zip(&mut self.zeros_of_fired).zip(seen);
        for (gate, (((fired, lone_zeros), zeros_of_fired), (zeros, ones))) in
            gates.iter().zip(marks)
        {
            let fires = u32::from(gate.fires(state));
            *fired |= fires;
            *lone_zeros |= gate.lone_zero(state);
            *zeros_of_fired |= !state & fires.wrapping_neg();
            state = gate.step(state);
            *zeros |= !state;
            *ones |= state;
        }
        self
    }

    fn verdict(&self, lines: u32, gates: &[Gate], class: u32) -> Option<Verdict> {
        match class {
            1 => Some(self.seen.verdict(lines, gates)),
            2 => Some(verdict_on_gates(2, &self.fired, |_| 1)),
            3 => Some(verdict_on_gates(3, &self.lone_zeros, |at| {
                gates[at].controls
            })),
            4 => Some(verdict_on_gates(4, &self.zeros_of_fired, |at| {
                gates[at].free(lines)
            })),
            _ => None,
        }
    }
}

/// The verdict by way of a coverage that each vector is added to in turn.
pub fn cover(lines: u32, gates: &[u32], vectors: &[u32], class: u32) -> Option<Verdict> {
    let gates = gates_of(lines, gates)?;
    if !fit(lines, vectors) {
        return None;
    }
    let coverage = vectors
        .iter()
        .fold(Coverage::empty(gates.len()), |coverage, vector| {
            coverage.with_vector(&gates, *vector)
        });
    coverage.verdict(lines, &gates, class)
}
