use crate::circuit::count;
use crate::{raw, Circuit, Refusal};

/// The bytes of the longest report, which is room for any. The library has a proof that no report is longer.
pub const LONGEST_REPORT: usize = 100;

/// A circuit, a set of vectors, and the classes to judge it for.
#[derive(Clone, PartialEq, Eq, Debug)]
pub struct Job {
    pub lines: u32,
    /// Bit 0 for class 1 up to bit 3 for class 4.
    pub classes: u32,
    /// Three words a gate.
    pub gates: Vec<u32>,
    pub vectors: Vec<u32>,
}

impl Job {
    pub fn circuit(&self) -> Circuit<'_> {
        Circuit::new(self.lines, &self.gates)
    }

    pub fn read(bytes: &[u8]) -> Result<Job, Refusal> {
        let words = bytes.len() / 4;
        let (mut gates, mut vectors) = (vec![0; words], vec![0; words]);
        let head = read_job_into(bytes, &mut gates, &mut vectors)?;
        gates.truncate(3 * head.gates);
        vectors.truncate(head.vectors);
        Ok(Job {
            lines: head.lines,
            classes: head.classes,
            gates,
            vectors,
        })
    }

    pub fn write(&self) -> Result<Vec<u8>, Refusal> {
        let mut image = vec![0; 28 + 4 * (self.gates.len() + self.vectors.len())];
        let length = self.write_into(&mut image)?;
        image.truncate(length);
        Ok(image)
    }

    /// Writes the image to the front of `out`; answers with its length.
    pub fn write_into(&self, out: &mut [u8]) -> Result<usize, Refusal> {
        count(unsafe {
            raw::nuf_write_job(
                self.lines,
                self.classes,
                self.gates.as_ptr(),
                self.gates.len(),
                self.vectors.as_ptr(),
                self.vectors.len(),
                out.as_mut_ptr(),
                out.len(),
            )
        })
    }
}

/// What a job's header says; its lists were written to the front of the lent ones.
#[derive(Clone, Copy, PartialEq, Eq, Debug)]
pub struct JobHead {
    pub lines: u32,
    pub classes: u32,
    pub gates: usize,
    pub vectors: usize,
}

/// Reads a job into lent lists, three words a gate.
pub fn read_job_into(
    bytes: &[u8],
    gates: &mut [u32],
    vectors: &mut [u32],
) -> Result<JobHead, Refusal> {
    let job = unsafe {
        raw::nuf_read_job(
            bytes.as_ptr(),
            bytes.len(),
            gates.as_mut_ptr(),
            gates.len(),
            vectors.as_mut_ptr(),
            vectors.len(),
        )
    };
    let head = JobHead {
        lines: job.lines,
        classes: job.classes,
        gates: job.gates as usize,
        vectors: job.vectors as usize,
    };
    Refusal::or(job.number, job.place, head)
}

/// The report on any bytes at all; those that are no job get a line of `E`.
pub fn report(bytes: &[u8]) -> String {
    let mut out = [0; LONGEST_REPORT];
    let length = report_into(bytes, &mut out).expect("the room is enough for any report");
    String::from_utf8_lossy(&out[..length]).into_owned()
}

/// Writes the report to the front of `out`; answers with its length.
pub fn report_into(bytes: &[u8], out: &mut [u8]) -> Result<usize, Refusal> {
    count(unsafe { raw::nuf_report(bytes.as_ptr(), bytes.len(), out.as_mut_ptr(), out.len()) })
}
