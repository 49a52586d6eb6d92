use super::{gates_of, ones, sites, Gate};

/// For each level the lines whose stuck-at-0 and whose stuck-at-1 fault is uncaught.
struct Left {
    at_0: Vec<u32>,
    at_1: Vec<u32>,
}

impl Left {
    /// What a state catches at a level.
    fn newly(&self, level: usize, state: u32) -> u32 {
        state & self.at_0[level] | !state & self.at_1[level]
    }

    fn score(&self, gates: &[Gate], input: u32) -> u32 {
        let mut state = input;
        let mut score = self.newly(0, state).count_ones();
        for (gate, level) in gates.iter().zip(1..) {
            state = gate.step(state);
            score += self.newly(level, state).count_ones();
        }
        score
    }

    fn drop_caught(&mut self, gates: &[Gate], input: u32) {
        let mut state = input;
        for level in 0..self.at_0.len() {
            if level > 0 {
                state = gates[level - 1].step(state);
            }
            self.at_0[level] &= !state;
            self.at_1[level] &= state;
        }
    }

    fn is_empty(&self) -> bool {
        self.at_0.iter().chain(&self.at_1).all(|word| *word == 0)
    }
}

pub fn compact_set(lines: u32, gates: &[u32]) -> Option<Vec<u32>> {
    let gates = gates_of(lines, gates)?;
    let sites: Vec<u32> = sites(lines, &gates).collect();
    let mut left = Left {
        at_0: sites.clone(),
        at_1: sites,
    };
    let mut picks = Vec::new();
    while !left.is_empty() {
        let (mut best, mut most) = (0, 0);
        for input in 0..=ones(lines) {
            let score = left.score(&gates, input);
            if score > most {
                (best, most) = (input, score);
            }
        }
        left.drop_caught(&gates, best);
        picks.push(best);
    }
    Some(picks)
}
