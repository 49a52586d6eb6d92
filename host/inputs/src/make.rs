//! Random circuits, faults, sets and job images, good ones and damaged ones.

use crate::Random;
use model::{image_of, Job};

pub struct Drawn {
    pub lines: u32,
    pub gates: Vec<u32>,
}

impl Drawn {
    pub fn depth(&self) -> u32 {
        (self.gates.len() / 3) as u32
    }

    /// All lines 1. Also for numbers of lines that no circuit has.
    pub fn ones(&self) -> u32 {
        ones(self.lines)
    }

    /// Controls and target of a gate, by its number from 1.
    fn gate(&self, number: u32) -> (u32, u32) {
        let at = 3 * (number as usize - 1);
        (self.gates[at], self.gates[at + 2])
    }

    /// The lines that can be stuck at a level: all of the input, else those of the gate before it.
    fn touched(&self, level: u32) -> u32 {
        if level == 0 {
            return self.ones();
        }
        let (controls, target) = self.gate(level);
        controls | 1u32.checked_shl(target).unwrap_or(0)
    }
}

pub fn ones(lines: u32) -> u32 {
    match lines {
        0..=31 => (1 << lines) - 1,
        _ => u32::MAX,
    }
}

/// A good circuit, mostly a small one.
pub fn circuit(random: &mut Random) -> Drawn {
    let most_lines = random.pick(&[3, 4, 5, 6, 6, 8, 13, 32]);
    let most_gates = random.pick(&[2, 4, 6, 8, 8, 10, 12, 40]);
    let lines = 1 + random.upto(most_lines - 1);
    let depth = random.upto(most_gates) as usize;
    Drawn {
        lines,
        gates: gates(random, lines, depth),
    }
}

pub fn gates(random: &mut Random, lines: u32, depth: usize) -> Vec<u32> {
    let mut words = Vec::new();
    for _ in 0..depth {
        let target = random.upto(lines - 1);
        let thinned = (0..random.upto(2)).fold(random.word(), |mask, _| mask & random.word());
        let controls = thinned & ones(lines) & !(1 << target);
        words.extend([controls, 0, target]);
    }
    words
}

/// Breaks one or more rules of a circuit.
pub fn damage(random: &mut Random, drawn: &mut Drawn) {
    loop {
        damage_once(random, drawn);
        if !random.one_in(4) {
            return;
        }
    }
}

fn damage_once(random: &mut Random, drawn: &mut Drawn) {
    let kind = random.upto(6);
    if kind == 0 {
        drawn.lines = random.pick(&[0, 33, 34, 64, 65, u32::MAX]);
        return;
    }
    if kind == 1 || drawn.gates.len() < 3 {
        for _ in 0..1 + random.upto(1) {
            drawn.gates.push(random.upto(1));
        }
        return;
    }
    let gate = 3 * random.index(drawn.gates.len() / 3);
    let target = drawn.gates[gate + 2];
    match kind {
        2 => drawn.gates[gate] |= 1 << random.upto(31),
        3 => drawn.gates[gate + 1] = 1 << random.upto(31),
        4 => drawn.gates[gate + 2] = drawn.lines.wrapping_add(random.upto(1)),
        5 => drawn.gates[gate] |= 1u32.checked_shl(target).unwrap_or(1),
        _ => drawn.gates[gate + random.index(3)] = random.word(),
    }
}

/// A state of the circuit, or one too large.
pub fn state(random: &mut Random, drawn: &Drawn) -> u32 {
    match random.upto(24) {
        0 => drawn.ones().wrapping_add(1),
        1 => random.word(),
        2 => drawn.ones(),
        3 => 0,
        _ => random.word() & drawn.ones(),
    }
}

pub fn states(random: &mut Random, drawn: &Drawn) -> Vec<u32> {
    let most = random.pick(&[0, 2, 5, 12]);
    let mut states: Vec<u32> = (0..random.upto(most))
        .map(|_| random.word() & drawn.ones())
        .collect();
    if !states.is_empty() && random.one_in(8) {
        let at = random.index(states.len());
        states[at] = state(random, drawn);
    }
    states
}

/// A level, or one behind the last gate.
pub fn level(random: &mut Random, drawn: &Drawn) -> u32 {
    match random.upto(15) {
        0 => drawn.depth() + 1,
        1 => random.word(),
        _ => random.upto(drawn.depth()),
    }
}

/// Four words: a fault of the circuit, or near misses.
pub fn fault(random: &mut Random, drawn: &Drawn) -> [u32; 4] {
    if random.one_in(5) {
        bad_fault(random, drawn)
    } else {
        good_fault(random, drawn)
    }
}

fn bad_fault(random: &mut Random, drawn: &Drawn) -> [u32; 4] {
    if random.one_in(3) {
        return stuck_at_no_site(random, drawn);
    }
    let mut fault = good_fault(random, drawn);
    let field = random.index(4);
    fault[field] = match field {
        0 => random.pick(&[0, 1, 2, 3, 4, 5, 6, 255, 256, 257, u32::MAX]),
        1 => random.pick(&[0, drawn.depth(), drawn.depth() + 1, u32::MAX]),
        2 => random.pick(&[0, 1, 31, 32, 33, u32::MAX, drawn.lines]),
        _ => random.pick(&[0, 1, 2, u32::MAX]),
    };
    fault
}

pub fn good_fault(random: &mut Random, drawn: &Drawn) -> [u32; 4] {
    if drawn.depth() == 0 || random.one_in(3) {
        return stuck_at_site(random, drawn);
    }
    let place = 1 + random.upto(drawn.depth() - 1);
    let (controls, target) = drawn.gate(place);
    let line = random.upto(drawn.lines.clamp(1, 32) - 1);
    if line == target || random.one_in(3) {
        [2, place, 0, 0]
    } else if controls >> line & 1 == 1 {
        [3, place, line, 0]
    } else {
        [4, place, line, 0]
    }
}

/// A stuck-at fault at a level and a line that is there.
fn stuck_at_site(random: &mut Random, drawn: &Drawn) -> [u32; 4] {
    let level = random.upto(drawn.depth());
    let line = line_of(random, drawn.touched(level));
    [1, level, line, random.upto(1)]
}

/// A stuck-at fault at a level and a line that its gate does not touch, where there is one.
fn stuck_at_no_site(random: &mut Random, drawn: &Drawn) -> [u32; 4] {
    let level = random.upto(drawn.depth());
    let line = line_of(random, drawn.ones() & !drawn.touched(level));
    [1, level, line, random.upto(1)]
}

/// A line of a mask, and line 0 of an empty one.
fn line_of(random: &mut Random, mask: u32) -> u32 {
    let lines: Vec<u32> = (0..32).filter(|line| mask >> line & 1 == 1).collect();
    match lines[..] {
        [] => 0,
        _ => random.pick(&lines),
    }
}

/// Entries of a multiple fault, mostly good ones.
pub fn entries(random: &mut Random, drawn: &Drawn) -> Vec<u32> {
    let mut entries: Vec<[u32; 4]> = Vec::new();
    for _ in 0..random.upto(6) {
        let entry = stuck_at_site(random, drawn);
        let twice = entries.iter().any(|e| e[1..3] == entry[1..3]);
        if !twice || random.one_in(8) {
            entries.push(entry);
        }
    }
    if !entries.is_empty() && random.one_in(6) {
        let at = random.index(entries.len());
        entries[at] = match random.one_in(2) {
            true => fault(random, drawn),
            false => stuck_at_no_site(random, drawn),
        };
    }
    with_leftovers(random, entries.concat())
}

/// A list to drop faults from, with blanks and words left over now and then.
pub fn faults(random: &mut Random, drawn: &Drawn) -> Vec<u32> {
    let most = random.pick(&[0, 3, 8, 20]);
    let mut list: Vec<[u32; 4]> = (0..random.upto(most))
        .map(|_| good_fault(random, drawn))
        .collect();
    if !list.is_empty() && random.one_in(5) {
        let at = random.index(list.len());
        list[at] = bad_fault(random, drawn);
    }
    if random.one_in(8) {
        list.extend(vec![model::BLANK; 1 + random.index(3)]);
    }
    with_leftovers(random, list.concat())
}

fn with_leftovers(random: &mut Random, mut words: Vec<u32>) -> Vec<u32> {
    if random.one_in(10) {
        for _ in 0..1 + random.upto(2) {
            words.push(random.upto(1));
        }
    }
    words
}

/// A number near the one that is needed.
pub fn room(random: &mut Random, needed: usize) -> usize {
    match random.upto(7) {
        0 => needed.saturating_sub(1),
        1 => needed + 1,
        2 => random.upto(needed as u32) as usize,
        3 => needed + random.index(20),
        _ => needed,
    }
}

/// A job, now and then with classes that no job has.
pub fn job(random: &mut Random, drawn: &Drawn) -> Job {
    Job {
        lines: drawn.lines,
        classes: match random.one_in(10) {
            true => random.pick(&[0, 16, 17, 31, u32::MAX]),
            false => 1 + random.upto(14),
        },
        gates: drawn.gates.clone(),
        vectors: states(random, drawn),
    }
}

/// A job image, whole or damaged.
pub fn image(random: &mut Random, job: &Job) -> Vec<u8> {
    let mut image = image_of(job);
    match random.upto(9) {
        0 => flip_bit(random, &mut image),
        1 => change_header(random, &mut image),
        2 => image.truncate(random.index(image.len() + 1)),
        3 => image.extend((0..=random.upto(13)).map(|at| at as u8)),
        4 => {
            let at = random.index(image.len());
            image[at] = random.byte();
        }
        5 => image = bytes(random),
        _ => {}
    }
    image
}

pub fn flip_bit(random: &mut Random, image: &mut [u8]) {
    let at = random.index(image.len());
    image[at] ^= 1 << random.upto(7);
}

/// Gives one field of the header a telling value.
pub fn change_header(random: &mut Random, image: &mut [u8]) {
    let (at, width) = random.pick(&[
        (0, 2),
        (2, 2),
        (4, 2),
        (6, 2),
        (8, 4),
        (12, 4),
        (16, 4),
        (20, 4),
        (24, 4),
    ]);
    let held = image[at..at + width].iter().rev();
    let held = held.fold(0u32, |number, byte| number << 8 | u32::from(*byte));
    let near = [held.wrapping_add(1), held.wrapping_sub(1), held << 1];
    let telling = [0, 1, 32, 33, 15, 16, 1024, 1025, 2048, 2049, u32::MAX];
    let value = if random.one_in(2) {
        random.pick(&near)
    } else {
        random.pick(&telling)
    };
    image[at..at + width].copy_from_slice(&value.to_le_bytes()[..width]);
}

pub fn bytes(random: &mut Random) -> Vec<u8> {
    let most = random.pick(&[27, 28, 40, 200]);
    (0..random.upto(most)).map(|_| random.byte()).collect()
}

#[cfg(test)]
mod tests {
    use super::{circuit, entries, fault, faults, Drawn};
    use crate::Random;
    use model::{catches_multiple, drop_caught, test_for, Refusal, Told};

    const ROUNDS: u64 = 3000;

    /// How many of the drawn lists of faults are taken, and how many are refused for a level and a line that make no site.
    fn taken_and_no_site(
        draw: impl Fn(&mut Random, &Drawn) -> Vec<u32>,
        ask: impl Fn(&Drawn, &[u32]) -> Told<()>,
    ) -> (u64, u64) {
        let (mut taken, mut no_site) = (0, 0);
        for round in 0..ROUNDS {
            let mut random = Random::of_round(1, round);
            let drawn = circuit(&mut random);
            let list = draw(&mut random, &drawn);
            match ask(&drawn, &list) {
                Ok(()) => taken += 1,
                Err(refusal) => no_site += u64::from(is_no_site(&drawn, &list, refusal)),
            }
        }
        (taken, no_site)
    }

    /// Whether all fields of the refused record are in range, so that only the pair of level and line is wrong.
    fn is_no_site(drawn: &Drawn, list: &[u32], refusal: Refusal) -> bool {
        if refusal.number != 9 {
            return false;
        }
        match list.chunks(4).nth(refusal.place as usize - 1) {
            Some([1, level, line, 0..=1]) => *level <= drawn.depth() && *line < drawn.lines,
            _ => false,
        }
    }

    /// Most of what is drawn is taken, and what is no site is met often enough to be tried.
    fn both_are_drawn((taken, no_site): (u64, u64)) {
        assert!(taken > ROUNDS / 2, "{} of {} taken", taken, ROUNDS);
        assert!(no_site > ROUNDS / 50, "{} of {} no site", no_site, ROUNDS);
    }

    #[test]
    fn faults_alone() {
        both_are_drawn(taken_and_no_site(
            |random, drawn| fault(random, drawn).to_vec(),
            |drawn, list| {
                let fault = [list[0], list[1], list[2], list[3]];
                test_for(drawn.lines, &drawn.gates, fault).map(|_| ())
            },
        ));
    }

    #[test]
    fn entries_of_a_multiple_fault() {
        both_are_drawn(taken_and_no_site(entries, |drawn, list| {
            catches_multiple(drawn.lines, &drawn.gates, 0, list).map(|_| ())
        }));
    }

    #[test]
    fn lists_of_faults() {
        both_are_drawn(taken_and_no_site(faults, |drawn, list| {
            drop_caught(drawn.lines, &drawn.gates, 0, list).map(|_| ())
        }));
    }
}
