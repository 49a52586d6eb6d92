use super::{fit, gates_of, verdict_on_gates, Gate, Seen, Verdict};

pub fn judge(lines: u32, gates: &[u32], vectors: &[u32], class: u32) -> Option<Verdict> {
    let gates = gates_of(lines, gates)?;
    if !fit(lines, vectors) {
        return None;
    }
    match class {
        1 => Some(stuck_at(lines, &gates, vectors)),
        2 => {
            let marks = marks(&gates, vectors, |gate, state| gate.fires(state).into());
            Some(verdict_on_gates(2, &marks, |_| 1))
        }
        3 => {
            let marks = marks(&gates, vectors, Gate::lone_zero);
            Some(verdict_on_gates(3, &marks, |at| gates[at].controls))
        }
        4 => {
            let marks = marks(&gates, vectors, |gate, state| match gate.fires(state) {
                true => !state,
                false => 0,
            });
            Some(verdict_on_gates(4, &marks, |at| gates[at].free(lines)))
        }
        _ => None,
    }
}

fn stuck_at(lines: u32, gates: &[Gate], vectors: &[u32]) -> Verdict {
    let mut seen = Seen::new(gates.len());
    for vector in vectors {
        let mut state = *vector;
        seen.zeros[0] |= !state;
        seen.ones[0] |= state;
        let words = seen.zeros[1..].iter_mut().zip(&mut seen.ones[1..]);
        for (gate, (zeros, ones)) in gates.iter().zip(words) {
            state = gate.step(state);
            *zeros |= !state;
            *ones |= state;
        }
    }
    seen.verdict(lines, gates)
}

/// One word a gate: what `mark` says of the states that it read, or-ed.
fn marks(gates: &[Gate], vectors: &[u32], mark: impl Fn(&Gate, u32) -> u32) -> Vec<u32> {
    let mut marks = vec![0; gates.len()];
    for vector in vectors {
        let mut state = *vector;
        for (gate, word) in gates.iter().zip(&mut marks) {
            *word |= mark(gate, state);
            state = gate.step(state);
        }
    }
    marks
}
