//! The job image, read and written.

use crate::circuit::{Circuit, LONGEST_CIRCUIT, MOST_LINES};
use crate::rules::{refuse, Told};

pub const LARGEST_SET: usize = 2048;
pub const LONGEST_JOB: usize = image_length(LONGEST_CIRCUIT as u64, LARGEST_SET as u64) as usize;

const HEADER: u64 = 28;

/// A job as plain numbers, three words a gate.
#[derive(Clone, PartialEq, Eq, Debug)]
pub struct Job {
    pub lines: u32,
    pub classes: u32,
    pub gates: Vec<u32>,
    pub vectors: Vec<u32>,
}

impl Job {
    pub fn circuit(&self) -> Told<Circuit> {
        Circuit::checked(self.lines, &self.gates, self.vectors.len())
    }

    /// Rules 1 to 8.
    pub fn parsed(bytes: &[u8]) -> Told<Job> {
        refuse(1, 0, (bytes.len() as u64) < HEADER)?;
        let lines = short(bytes, 2);
        let classes = short(bytes, 4);
        let (gates, vectors) = (long(bytes, 8), long(bytes, 12));
        refuse(2, 0, short(bytes, 0) != 1)?;
        refuse(3, 0, !(1..=MOST_LINES).contains(&lines))?;
        refuse(4, 0, !(1..=15).contains(&classes) || short(bytes, 6) != 0)?;
        let too_many = gates as usize > LONGEST_CIRCUIT || vectors as usize > LARGEST_SET;
        refuse(5, 0, too_many)?;
        let length = image_length(gates.into(), vectors.into());
        let as_it_should_be = u64::from(long(bytes, 16)) == HEADER
            && u64::from(long(bytes, 20)) == image_length(gates.into(), 0)
            && u64::from(long(bytes, 24)) == length
            && bytes.len() as u64 == length;
        refuse(6, 0, !as_it_should_be)?;
        let mut words = bytes[HEADER as usize..].chunks(4).map(|word| long(word, 0));
        let job = Job {
            lines,
            classes,
            gates: words.by_ref().take(3 * gates as usize).collect(),
            vectors: words.collect(),
        };
        job.circuit()?.check_states(&job.vectors)?;
        Ok(job)
    }
}

/// Reads a job into lists of so many words of gates and so many vectors.
pub fn read_job(bytes: &[u8], gate_room: usize, vector_room: usize) -> Told<Job> {
    let job = Job::parsed(bytes)?;
    let short_of_room = gate_room < job.gates.len() || vector_room < job.vectors.len();
    refuse(10, 0, short_of_room)?;
    Ok(job)
}

pub fn write_job(job: &Job, room: usize) -> Told<Vec<u8>> {
    refuse(3, 0, !(1..=MOST_LINES).contains(&job.lines))?;
    refuse(4, 0, !(1..=15).contains(&job.classes))?;
    job.circuit()?.check_states(&job.vectors)?;
    let image = image_of(job);
    refuse(10, 0, room < image.len())?;
    Ok(image)
}

/// The image of numbers that need not make a valid job.
pub fn image_of(job: &Job) -> Vec<u8> {
    let (gates, vectors) = (job.gates.len() as u64 / 3, job.vectors.len() as u64);
    let mut image = Vec::new();
    for field in [1, job.lines, job.classes, 0] {
        image.extend_from_slice(&(field as u16).to_le_bytes());
    }
    let counts = [gates, vectors];
    let offsets = [HEADER, image_length(gates, 0), image_length(gates, vectors)];
    for field in counts.iter().chain(&offsets) {
        image.extend_from_slice(&(*field as u32).to_le_bytes());
    }
    for word in job.gates.iter().chain(&job.vectors) {
        image.extend_from_slice(&word.to_le_bytes());
    }
    image
}

const fn image_length(gates: u64, vectors: u64) -> u64 {
    HEADER + 12 * gates + 4 * vectors
}

fn short(bytes: &[u8], at: usize) -> u32 {
    u32::from(bytes[at]) + 256 * u32::from(bytes[at + 1])
}

fn long(bytes: &[u8], at: usize) -> u32 {
    short(bytes, at) + 65536 * short(bytes, at + 2)
}
