//! Memory that is filled, lent to a call, and compared as a whole afterwards.

use nufsadeem::Fault;
use std::fmt::Debug;

/// So much on either side of the lent part, to see writing outside it.
const MARGIN: usize = 8;

pub struct Lent<T> {
    memory: Vec<T>,
    before: Vec<T>,
}

impl Lent<u32> {
    pub fn words(length: usize) -> Lent<u32> {
        Lent::of(pattern(length + 2 * MARGIN))
    }

    /// A list of words that is lent as it is.
    pub fn list(words: &[u32]) -> Lent<u32> {
        let mut memory = pattern(words.len() + 2 * MARGIN);
        memory[MARGIN..MARGIN + words.len()].copy_from_slice(words);
        Lent::of(memory)
    }
}

impl Lent<Fault> {
    /// A list of records that is lent as it is.
    pub fn records(list: &[Fault]) -> Lent<Fault> {
        let words = pattern(2 * MARGIN);
        let margin = words
            .chunks(2)
            .map(|w| Fault::from([w[0], w[1], w[0], w[1]]));
        let margin: Vec<Fault> = margin.collect();
        Lent::of([&margin[..], list, &margin[..]].concat())
    }
}

impl Lent<u8> {
    pub fn bytes(length: usize) -> Lent<u8> {
        let words = pattern(length + 2 * MARGIN);
        Lent::of(words.into_iter().map(|word| word as u8).collect())
    }
}

impl<T: Copy + PartialEq + Debug> Lent<T> {
    pub fn of(memory: Vec<T>) -> Lent<T> {
        let before = memory.clone();
        Lent { memory, before }
    }

    pub fn lend(&mut self) -> &mut [T] {
        let end = self.memory.len() - MARGIN;
        &mut self.memory[MARGIN..end]
    }

    /// The memory must hold `written` at the front of the lent part, and otherwise what it held.
    pub fn must_hold(&self, call: &str, written: &[T]) -> Result<(), String> {
        let mut expected = self.before.clone();
        expected[MARGIN..MARGIN + written.len()].copy_from_slice(written);
        match (0..expected.len()).find(|at| expected[*at] != self.memory[*at]) {
            None => Ok(()),
            Some(at) => Err(format!(
                "{}: lent memory holds {:?} at {}, and should hold {:?}",
                call,
                self.memory[at],
                at as isize - MARGIN as isize,
                expected[at]
            )),
        }
    }
}

/// Words that differ from their neighbours, in every byte.
fn pattern(length: usize) -> Vec<u32> {
    (0..length as u32)
        .map(|at| (at + 1).wrapping_mul(0x9e37_79b1) ^ 0xa5c3_5a3c)
        .collect()
}
