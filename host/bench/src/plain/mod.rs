//! The same jobs in plain Rust, written for speed with word operations and no proof.

mod compact;
mod cover;
mod job;
mod judge;
mod real;

pub use compact::compact_set;
pub use cover::cover;
pub use job::{read, report, write, Job};
pub use judge::judge;
pub use real::{export, import};

/// What both sides are asked for: caught, in the class, and the first uncaught fault.
pub type Verdict = (u32, u32, Option<[u32; 4]>);

pub struct Gate {
    controls: u32,
    target: u32,
}

impl Gate {
    fn fires(&self, state: u32) -> bool {
        state & self.controls == self.controls
    }

    fn step(&self, state: u32) -> u32 {
        state ^ u32::from(self.fires(state)) << self.target
    }

    /// The controls that alone keep the gate from firing.
    fn lone_zero(&self, state: u32) -> u32 {
        let zeros = self.controls & !state;
        if zeros & zeros.wrapping_sub(1) == 0 {
            zeros
        } else {
            0
        }
    }

    fn touched(&self) -> u32 {
        self.controls | 1 << self.target
    }

    fn free(&self, lines: u32) -> u32 {
        ones(lines) & !self.touched()
    }
}

/// For each level its sites: all lines of the input, then those of each gate.
fn sites(lines: u32, gates: &[Gate]) -> impl Iterator<Item = u32> + '_ {
    [ones(lines)]
        .into_iter()
        .chain(gates.iter().map(Gate::touched))
}

fn ones(lines: u32) -> u32 {
    u32::MAX >> (32 - lines)
}

/// The gates, if all keep the rules.
fn gates_of(lines: u32, words: &[u32]) -> Option<Vec<Gate>> {
    let all = ones(lines);
    words
        .chunks_exact(3)
        .map(|word| {
            let (controls, spare, target) = (word[0], word[1], word[2]);
            let sound =
                controls & !all == 0 && spare == 0 && target < lines && controls >> target & 1 == 0;
            sound.then_some(Gate { controls, target })
        })
        .collect()
}

fn fit(lines: u32, vectors: &[u32]) -> bool {
    vectors.iter().all(|vector| vector & !ones(lines) == 0)
}

/// Marks of stuck-at faults: for each level the lines that were 0 and those that were 1.
#[derive(Clone)]
struct Seen {
    zeros: Vec<u32>,
    ones: Vec<u32>,
}

impl Seen {
    fn new(depth: usize) -> Seen {
        Seen {
            zeros: vec![0; depth + 1],
            ones: vec![0; depth + 1],
        }
    }

    fn verdict(&self, lines: u32, gates: &[Gate]) -> Verdict {
        let (mut caught, mut total, mut first) = (0, 0, None);
        let levels = self.zeros.iter().zip(&self.ones).zip(sites(lines, gates));
        for (level, ((zero, one), there)) in levels.enumerate() {
            caught += (zero & there).count_ones() + (one & there).count_ones();
            total += 2 * there.count_ones();
            let missed = !(zero & one) & there;
            if first.is_none() && missed != 0 {
                let line = missed.trailing_zeros();
                let value = one >> line & 1;
                first = Some([1, level as u32, line, value]);
            }
        }
        (caught, total, first)
    }
}

/// The verdict for a class whose marks are one word a gate, within the word of what there is.
fn verdict_on_gates(class: u32, marks: &[u32], there: impl Fn(usize) -> u32) -> Verdict {
    let (mut caught, mut total, mut first) = (0, 0, None);
    for (index, mark) in marks.iter().enumerate() {
        let there = there(index);
        caught += (mark & there).count_ones();
        total += there.count_ones();
        let missed = there & !mark;
        if first.is_none() && missed != 0 {
            first = Some([class, index as u32 + 1, missed.trailing_zeros(), 0]);
        }
    }
    (caught, total, first)
}
