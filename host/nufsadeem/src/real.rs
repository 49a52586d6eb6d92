use crate::circuit::MOST_GATES;
use crate::{raw, Circuit, Refusal};

/// A circuit that has its gates, as it is read from a text.
#[derive(Clone, PartialEq, Eq, Debug)]
pub struct OwnedCircuit {
    pub lines: u32,
    /// Three words a gate.
    pub gates: Vec<u32>,
}

impl OwnedCircuit {
    pub fn circuit(&self) -> Circuit<'_> {
        Circuit::new(self.lines, &self.gates)
    }
}

/// Reads a circuit from a text in the .real format.
///
/// ```
/// let text = ".version 1.0\n.numvars 2\n.variables x0 x1\n.begin\nt2 x0 x1\n.end\n";
/// let read = nufsadeem::import_real(text.as_bytes())?;
/// assert_eq!((read.lines, &read.gates[..]), (2, &[1, 0, 1][..]));
/// assert_eq!(read.circuit().export_real()?, text);
/// # Ok::<(), nufsadeem::Refusal>(())
/// ```
pub fn import_real(text: &[u8]) -> Result<OwnedCircuit, Refusal> {
    let mut gates = vec![0; 3 * MOST_GATES];
    let head = import_real_into(text, &mut gates)?;
    gates.truncate(3 * head.gates);
    Ok(OwnedCircuit {
        lines: head.lines,
        gates,
    })
}

/// How many lines and gates a text has; the gates were written to the front of the lent list.
#[derive(Clone, Copy, PartialEq, Eq, Debug)]
pub struct CircuitHead {
    pub lines: u32,
    pub gates: usize,
}

/// Reads a circuit into a lent list, three words a gate.
pub fn import_real_into(text: &[u8], gates: &mut [u32]) -> Result<CircuitHead, Refusal> {
    let circuit =
        unsafe { raw::nuf_import_real(text.as_ptr(), text.len(), gates.as_mut_ptr(), gates.len()) };
    let head = CircuitHead {
        lines: circuit.lines,
        gates: circuit.gates as usize,
    };
    Refusal::or(circuit.number, circuit.place, head)
}
