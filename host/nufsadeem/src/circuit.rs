use crate::{raw, Fault, Refusal, Verdict};

/// The most lines a circuit can have, and the bits of a mask.
const MOST_LINES: u32 = 32;

/// The most vectors a compact set can have: 2 + floor(log2 S), with S at 12 lines and 1,024 gates on all of them.
const LARGEST_COMPACT_SET: usize = 15;

/// The most gates a circuit can have.
pub(crate) const MOST_GATES: usize = 1024;

/// The bytes of the longest text of a circuit of no gates, which has 32 lines.
const LONGEST_FRAME: usize = 166;

/// The bytes of the longest gate of a text, which is on all 32 lines.
const LONGEST_GATE: usize = 122;

/// The three words of a gate, in the order of the job image. A line of 32 or above is in no circuit and in no
/// mask, and gets the refusal of a bad gate, 7 at place 1. What else a gate must be is for each call to say.
pub fn gate(controls: &[u32], target: u32) -> Result<[u32; 3], Refusal> {
    if target >= MOST_LINES || controls.iter().any(|line| *line >= MOST_LINES) {
        return Err(Refusal {
            number: 7,
            place: 1,
        });
    }
    let mask = controls.iter().fold(0, |mask, line| mask | 1 << line);
    Ok([mask, 0, target])
}

/// Lines and gates, three words a gate. Whether they make a circuit is for each call to say.
#[derive(Clone, Copy, PartialEq, Eq, Debug)]
pub struct Circuit<'a> {
    lines: u32,
    gates: &'a [u32],
}

/// One call about a circuit. A list is lent with its own length, which is all that a call asks of its caller.
macro_rules! ask {
    ($circuit:expr, $call:ident $(, $more:expr)*) => {
        raw::$call($circuit.lines, $circuit.gates.as_ptr(), $circuit.gates.len() $(, $more)*)
    };
}

impl<'a> Circuit<'a> {
    pub fn new(lines: u32, gates: &'a [u32]) -> Circuit<'a> {
        Circuit { lines, gates }
    }

    pub fn lines(&self) -> u32 {
        self.lines
    }

    pub fn gates(&self) -> &'a [u32] {
        self.gates
    }

    /// The state at a level of the run that starts with `input`.
    pub fn forward(&self, level: u32, input: u32) -> Result<u32, Refusal> {
        let run = unsafe { ask!(self, nuf_forward, level, input) };
        Refusal::or(run.number, run.place, run.state)
    }

    /// The input whose run has `state` at a level.
    pub fn backward(&self, level: u32, state: u32) -> Result<u32, Refusal> {
        let run = unsafe { ask!(self, nuf_backward, level, state) };
        Refusal::or(run.number, run.place, run.state)
    }

    pub fn catches(&self, vector: u32, fault: Fault) -> Result<bool, Refusal> {
        let catch = unsafe { ask!(self, nuf_catches, vector, fault) };
        Refusal::or(catch.number, catch.place, catch.caught == 1)
    }

    /// Whether the output differs with all stuck-at faults there at once, four words each.
    pub fn catches_multiple(&self, vector: u32, entries: &[u32]) -> Result<bool, Refusal> {
        let catch = unsafe {
            ask!(
                self,
                nuf_catches_multiple,
                vector,
                entries.as_ptr(),
                entries.len()
            )
        };
        Refusal::or(catch.number, catch.place, catch.caught == 1)
    }

    /// Judges a set for a class, given as a [`Class`](crate::Class) or as its code.
    pub fn judge(&self, vectors: &[u32], class: impl Into<u32>) -> Result<Verdict, Refusal> {
        Verdict::of(unsafe {
            ask!(
                self,
                nuf_judge,
                vectors.as_ptr(),
                vectors.len(),
                class.into()
            )
        })
    }

    /// The same verdict by way of the coverage of all four classes, one vector after the other.
    pub fn cover(&self, vectors: &[u32], class: impl Into<u32>) -> Result<Verdict, Refusal> {
        Verdict::of(unsafe {
            ask!(
                self,
                nuf_cover,
                vectors.as_ptr(),
                vectors.len(),
                class.into()
            )
        })
    }

    /// A vector that catches the fault.
    pub fn test_for(&self, fault: Fault) -> Result<u32, Refusal> {
        let test = unsafe { ask!(self, nuf_test_for, fault) };
        Refusal::or(test.number, test.place, test.vector)
    }

    /// A complete set for stuck-at faults with two vectors more than gates.
    pub fn backward_set(&self) -> Result<Vec<u32>, Refusal> {
        let mut set = vec![0; self.gates.len() / 3 + 2];
        let count = self.backward_set_into(&mut set)?;
        set.truncate(count);
        Ok(set)
    }

    /// The backward set, written to the front of `room`; answers with its size.
    pub fn backward_set_into(&self, room: &mut [u32]) -> Result<usize, Refusal> {
        count(unsafe { ask!(self, nuf_backward_set, room.as_mut_ptr(), room.len()) })
    }

    /// A small complete set for stuck-at faults, for at most 12 lines.
    pub fn compact_set(&self) -> Result<Vec<u32>, Refusal> {
        let mut set = vec![0; LARGEST_COMPACT_SET];
        let count = self.compact_set_into(&mut set)?;
        set.truncate(count);
        Ok(set)
    }

    /// The compact set, written to the front of `room`; answers with its size.
    pub fn compact_set_into(&self, room: &mut [u32]) -> Result<usize, Refusal> {
        count(unsafe { ask!(self, nuf_compact_set, room.as_mut_ptr(), room.len()) })
    }

    /// Moves the faults that `vector` does not catch to the front, blanks the rest of the list and
    /// answers with how many stayed.
    pub fn drop_caught(&self, vector: u32, list: &mut [Fault]) -> Result<usize, Refusal> {
        count(unsafe {
            ask!(
                self,
                nuf_drop_records,
                vector,
                list.as_mut_ptr(),
                list.len()
            )
        })
    }

    /// The same over a list of plain numbers, four a fault.
    pub fn drop_caught_words(&self, vector: u32, list: &mut [u32]) -> Result<usize, Refusal> {
        count(unsafe { ask!(self, nuf_drop, vector, list.as_mut_ptr(), list.len()) })
    }

    /// The circuit as a text in the .real format, with lines `x0`, `x1` and so on.
    pub fn export_real(&self) -> Result<String, Refusal> {
        let depth = (self.gates.len() / 3).min(MOST_GATES);
        let mut text = vec![0; LONGEST_FRAME + LONGEST_GATE * depth];
        let length = self.export_real_into(&mut text)?;
        Ok(String::from_utf8_lossy(&text[..length]).into_owned())
    }

    /// The same text, written to the front of `out`; answers with its length.
    pub fn export_real_into(&self, out: &mut [u8]) -> Result<usize, Refusal> {
        count(unsafe { ask!(self, nuf_export_real, out.as_mut_ptr(), out.len()) })
    }
}

pub(crate) fn count(answer: raw::Count) -> Result<usize, Refusal> {
    Refusal::or(answer.number, answer.place, answer.count as usize)
}

#[cfg(test)]
mod tests {
    use super::gate;
    use crate::Refusal;

    const BAD_GATE: Refusal = Refusal {
        number: 7,
        place: 1,
    };

    #[test]
    fn lines_below_32_make_a_gate() {
        assert_eq!(gate(&[], 0), Ok([0, 0, 0]));
        assert_eq!(gate(&[0, 1], 2), Ok([3, 0, 2]));
        assert_eq!(gate(&[31, 0, 31], 30), Ok([1 << 31 | 1, 0, 30]));
    }

    #[test]
    fn a_control_of_32_or_above_is_refused() {
        for line in [32, 33, 34, 63, 64, 65, u32::MAX] {
            assert_eq!(gate(&[line], 2), Err(BAD_GATE));
            assert_eq!(gate(&[0, line, 1], 2), Err(BAD_GATE));
        }
    }

    #[test]
    fn a_target_of_32_or_above_is_refused() {
        for line in [32, 33, 34, 63, 64, 65, u32::MAX] {
            assert_eq!(gate(&[], line), Err(BAD_GATE));
            assert_eq!(gate(&[0, 1], line), Err(BAD_GATE));
        }
    }
}
