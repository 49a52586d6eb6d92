use crate::{raw, Fault, Refusal};
use std::fmt;

/// What a set of vectors does to a class of faults.
#[derive(Clone, Copy, PartialEq, Eq, Hash, Debug)]
pub struct Verdict {
    pub caught: u32,
    pub total: u32,
    pub first_uncaught: Option<Fault>,
}

impl Verdict {
    pub fn is_complete(&self) -> bool {
        self.first_uncaught.is_none()
    }

    pub(crate) fn of(answer: raw::Verdict) -> Result<Verdict, Refusal> {
        let verdict = Verdict {
            caught: answer.caught,
            total: answer.total,
            first_uncaught: (answer.complete == 0).then_some(answer.first),
        };
        Refusal::or(answer.number, answer.place, verdict)
    }
}

impl fmt::Display for Verdict {
    fn fmt(&self, f: &mut fmt::Formatter<'_>) -> fmt::Result {
        write!(f, "{} of {} caught", self.caught, self.total)?;
        match self.first_uncaught {
            None => write!(f, ", complete"),
            Some(fault) => write!(f, ", first uncaught: {}", fault),
        }
    }
}
