//! A question that both sides are asked.

use model::{image_of, Job};
use std::fmt;

#[derive(Clone, PartialEq, Eq)]
pub struct Case {
    pub lines: u32,
    pub gates: Vec<u32>,
    pub question: Question,
}

/// What is asked. `room` and its like are lengths of lent memory, in its own units.
#[derive(Clone, PartialEq, Eq, Debug)]
pub enum Question {
    Forward {
        level: u32,
        state: u32,
    },
    Backward {
        level: u32,
        state: u32,
    },
    Catches {
        vector: u32,
        fault: [u32; 4],
    },
    CatchesMultiple {
        vector: u32,
        entries: Vec<u32>,
    },
    Judge {
        vectors: Vec<u32>,
        class: u32,
    },
    TestFor {
        fault: [u32; 4],
    },
    BackwardSet {
        room: usize,
    },
    CompactSet {
        room: usize,
    },
    Drop {
        vector: u32,
        list: Vec<u32>,
    },
    WriteJob {
        classes: u32,
        vectors: Vec<u32>,
        room: usize,
    },
    ReadJob {
        bytes: Vec<u8>,
        gate_room: usize,
        vector_room: usize,
    },
    Report {
        bytes: Vec<u8>,
        room: usize,
    },
    ImportReal {
        text: Vec<u8>,
        room: usize,
    },
    ExportReal {
        room: usize,
    },
}

impl Case {
    pub fn of_circuit(lines: u32, gates: &[u32], question: Question) -> Case {
        Case {
            lines,
            gates: gates.to_vec(),
            question,
        }
    }

    /// A case that takes a job image or a text, and no circuit.
    pub fn of_bytes(question: Question) -> Case {
        Case::of_circuit(0, &[], question)
    }

    /// The case as a job: the bytes it is about, or an image made from its numbers.
    fn image(&self) -> Vec<u8> {
        let (classes, vectors) = match &self.question {
            Question::ReadJob { bytes, .. } | Question::Report { bytes, .. } => {
                return bytes.clone()
            }
            Question::Judge { vectors, .. } => (15, vectors.clone()),
            Question::WriteJob {
                classes, vectors, ..
            } => (*classes, vectors.clone()),
            Question::Catches { vector, .. }
            | Question::CatchesMultiple { vector, .. }
            | Question::Drop { vector, .. } => (15, vec![*vector]),
            _ => (15, vec![]),
        };
        image_of(&Job {
            lines: self.lines,
            classes,
            gates: self.gates.clone(),
            vectors,
        })
    }
}

impl fmt::Display for Case {
    fn fmt(&self, f: &mut fmt::Formatter<'_>) -> fmt::Result {
        if let Question::ImportReal { text, room } = &self.question {
            writeln!(f, "text: {}", text.escape_ascii())?;
            return write!(f, "asked: ImportReal {{ room: {} }}", room);
        }
        let hex: Vec<String> = self
            .image()
            .iter()
            .map(|byte| format!("{:02X}", byte))
            .collect();
        writeln!(f, "job: {}", hex.join(" "))?;
        writeln!(f, "lines: {}", self.lines)?;
        writeln!(f, "words of gates: {:?}", self.gates)?;
        write!(f, "asked: {:?}", self.question)
    }
}
