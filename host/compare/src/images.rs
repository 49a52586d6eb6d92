//! The sample's image with every single bit turned, cut at every length, and with every value in
//! every byte of its header.

use crate::case::Question;
use crate::samples::SAMPLE_IMAGE;
use crate::tally::Tally;
use nufsadeem::LONGEST_REPORT;

const HEADER: usize = 28;

pub fn compare(tally: &mut Tally) -> Result<(), String> {
    every_room(tally)?;
    for bit in 0..8 * SAMPLE_IMAGE.len() {
        let mut bytes = SAMPLE_IMAGE.to_vec();
        bytes[bit / 8] ^= 1 << (bit % 8);
        read_and_report(tally, bytes)?;
    }
    for length in 0..SAMPLE_IMAGE.len() {
        read_and_report(tally, SAMPLE_IMAGE[..length].to_vec())?;
    }
    for longer in 1..=16 {
        read_and_report(tally, [&SAMPLE_IMAGE[..], &vec![0; longer]].concat())?;
    }
    for at in 0..HEADER {
        for value in 0..=255 {
            let mut bytes = SAMPLE_IMAGE.to_vec();
            bytes[at] = value;
            read_and_report(tally, bytes)?;
        }
    }
    Ok(())
}

/// Lists and text of every size up to more than is needed.
fn every_room(tally: &mut Tally) -> Result<(), String> {
    for gate_room in 0..10 {
        for vector_room in 0..7 {
            tally.image(Question::ReadJob {
                bytes: SAMPLE_IMAGE.to_vec(),
                gate_room,
                vector_room,
            })?;
        }
    }
    for room in 0..60 {
        for bytes in [SAMPLE_IMAGE.to_vec(), vec![]] {
            tally.image(Question::Report { bytes, room })?;
        }
    }
    Ok(())
}

fn read_and_report(tally: &mut Tally, bytes: Vec<u8>) -> Result<(), String> {
    tally.image(Question::ReadJob {
        bytes: bytes.clone(),
        gate_room: 6,
        vector_room: 3,
    })?;
    let room = LONGEST_REPORT;
    tally.image(Question::Report { bytes, room })
}
