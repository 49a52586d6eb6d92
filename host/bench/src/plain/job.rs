use super::{fit, gates_of, judge};
use std::fmt::Write;

const HEADER: usize = 28;

pub struct Job {
    pub lines: u32,
    pub classes: u32,
    pub gates: Vec<u32>,
    pub vectors: Vec<u32>,
}

pub fn read(bytes: &[u8]) -> Option<Job> {
    let header = bytes.get(..HEADER)?;
    let short = |at: usize| u32::from(u16::from_le_bytes([header[at], header[at + 1]]));
    let long = |at: usize| short(at) | short(at + 2) << 16;
    let (lines, classes) = (short(2), short(4));
    let (depth, count) = (long(8) as usize, long(12) as usize);
    let sound = short(0) == 1
        && (1..=32).contains(&lines)
        && (1..=15).contains(&classes)
        && short(6) == 0
        && depth <= 1024
        && count <= 2048
        && long(16) as usize == HEADER
        && long(20) as usize == HEADER + 12 * depth
        && long(24) as usize == HEADER + 12 * depth + 4 * count
        && bytes.len() == long(24) as usize;
    if !sound {
        return None;
    }
    let (gates, vectors) = bytes[HEADER..].split_at(12 * depth);
    let (gates, vectors) = (words(gates), words(vectors));
    gates_of(lines, &gates)?;
    fit(lines, &vectors).then_some(Job {
        lines,
        classes,
        gates,
        vectors,
    })
}

fn words(bytes: &[u8]) -> Vec<u32> {
    let words = bytes.chunks_exact(4);
    words
        .map(|b| u32::from_le_bytes([b[0], b[1], b[2], b[3]]))
        .collect()
}

pub fn write(job: &Job) -> Option<Vec<u8>> {
    gates_of(job.lines, &job.gates)?;
    if !fit(job.lines, &job.vectors) {
        return None;
    }
    let (depth, count) = (job.gates.len() / 3, job.vectors.len());
    let length = HEADER + 12 * depth + 4 * count;
    let mut image = Vec::with_capacity(length);
    for field in [1, job.lines as u16, job.classes as u16, 0] {
        image.extend_from_slice(&field.to_le_bytes());
    }
    for field in [depth, count, HEADER, HEADER + 12 * depth, length] {
        image.extend_from_slice(&(field as u32).to_le_bytes());
    }
    for word in job.gates.iter().chain(&job.vectors) {
        image.extend_from_slice(&word.to_le_bytes());
    }
    Some(image)
}

pub fn report(bytes: &[u8]) -> Option<String> {
    let job = read(bytes)?;
    let (depth, count) = (job.gates.len() / 3, job.vectors.len());
    let mut text = format!("J {} {} {}\n", job.lines, depth, count);
    for (letter, class) in ['S', 'M', 'C', 'X'].into_iter().zip(1u32..) {
        if job.classes >> (class - 1) & 1 == 0 {
            continue;
        }
        let (caught, total, first) = judge(job.lines, &job.gates, &job.vectors, class)?;
        write!(text, "{} {} {} ", letter, caught, total).ok()?;
        match first {
            None => writeln!(text, "ok").ok()?,
            Some([1, level, line, value]) => writeln!(text, "{} {} {}", level, line, value).ok()?,
            Some([2, gate, ..]) => writeln!(text, "{}", gate).ok()?,
            Some([_, gate, line, _]) => writeln!(text, "{} {}", gate, line).ok()?,
        }
    }
    Some(text)
}
