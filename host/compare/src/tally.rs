//! Counts what was compared, and tells of the first case that differs where it came from.

use crate::ask::ask;
use crate::case::{Case, Question};

pub struct Tally {
    cases: u64,
    origin: String,
}

impl Tally {
    pub fn new(origin: &str) -> Tally {
        Tally {
            cases: 0,
            origin: origin.to_string(),
        }
    }

    pub fn cases(&self) -> u64 {
        self.cases
    }

    /// Where the cases from here on come from.
    pub fn set_origin(&mut self, origin: String) {
        self.origin = origin;
    }

    /// Counts a claim, and fails with its words where it does not hold.
    pub fn holds(&mut self, claim: bool, words: impl FnOnce() -> String) -> Result<(), String> {
        if !claim {
            return Err(format!("{}\nfrom: {}", words(), self.origin));
        }
        self.cases += 1;
        Ok(())
    }

    pub fn circuit(&mut self, lines: u32, gates: &[u32], asked: Question) -> Result<(), String> {
        self.case(Case::of_circuit(lines, gates, asked))
    }

    pub fn image(&mut self, asked: Question) -> Result<(), String> {
        self.case(Case::of_bytes(asked))
    }

    /// The import of a text, with room for so many words of gates.
    pub fn text(&mut self, text: &[u8], room: usize) -> Result<(), String> {
        let text = text.to_vec();
        self.case(Case::of_bytes(Question::ImportReal { text, room }))
    }

    fn case(&mut self, case: Case) -> Result<(), String> {
        match ask(&case) {
            Ok(calls) => {
                self.cases += calls;
                Ok(())
            }
            Err(difference) => Err(format!("{}\nfrom: {}\n{}", difference, self.origin, case)),
        }
    }
}
