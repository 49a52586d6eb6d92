use std::fmt;

/// Why a call gave no answer: the number of the first rule that was broken, and where.
#[derive(Clone, Copy, PartialEq, Eq, Hash, Debug)]
pub struct Refusal {
    pub number: u32,
    /// Which gate, vector, fault or line of a text, counted from 1; 0 where the rule names none.
    pub place: u32,
}

impl Refusal {
    pub fn meaning(&self) -> &'static str {
        match self.number {
            1 => "the job is shorter than its header",
            2 => "the job has an unknown form",
            3 => "the number of lines is not 1 to 32",
            4 => "the classes wanted are none or unknown ones, or the header holds something after them",
            5 => "there are more than 1,024 gates or more than 2,048 vectors",
            6 => "an offset or the length is not what the counts make it",
            7 => "a gate is malformed",
            8 => "a vector or state has a line that the circuit lacks",
            9 => "the circuit has no such fault, or there is no such class",
            10 => "the room lent is too small",
            11 => "a compact set is made for at most 12 lines",
            12 => "the level is behind the last gate",
            13 => "a multiple fault needs 1 to 256 entries, each at a site of its own",
            14 => "a line of the text is not of the .real form, or .end is missing",
            15 => "a line of the text has a gate that begins with a letter other than t",
            _ => "the refusal has an unknown number",
        }
    }

    /// `answer`, unless the number tells of a refusal.
    pub(crate) fn or<T>(number: u32, place: u32, answer: T) -> Result<T, Refusal> {
        match number {
            0 => Ok(answer),
            _ => Err(Refusal { number, place }),
        }
    }
}

impl fmt::Display for Refusal {
    fn fmt(&self, f: &mut fmt::Formatter<'_>) -> fmt::Result {
        write!(f, "refused with {}: {}", self.number, self.meaning())?;
        match self.place {
            0 => Ok(()),
            place => write!(f, " (number {})", place),
        }
    }
}

impl std::error::Error for Refusal {}
