//! A text in the .real format with every byte in every place changed or added, with every piece of it removed or repeated, and
//! with its lines in other orders.

use crate::tally::Tally;

/// It has every part of the form, and both line ends.
const TEXT: &[u8] = b"#\r\n.version 1\n.numvars 2\n.variables a b\n.inputs a\n.constants --\n.begin\nt2 a b\r\n\tt1  a\n\n.end\n";

/// Room for the gates of the text, and for one more.
const ROOM: usize = 9;

pub fn compare(tally: &mut Tally) -> Result<(), String> {
    for room in 0..=ROOM {
        tally.text(TEXT, room)?;
    }
    bytes(tally)?;
    pieces(tally)?;
    lines(tally)
}

fn bytes(tally: &mut Tally) -> Result<(), String> {
    for at in 0..=TEXT.len() {
        for byte in 0..=255 {
            tally.text(&[&TEXT[..at], &[byte], &TEXT[at..]].concat(), ROOM)?;
            if at < TEXT.len() {
                tally.text(&[&TEXT[..at], &[byte], &TEXT[at + 1..]].concat(), ROOM)?;
            }
        }
    }
    Ok(())
}

fn pieces(tally: &mut Tally) -> Result<(), String> {
    for end in 0..=TEXT.len() {
        for start in 0..end {
            tally.text(&[&TEXT[..start], &TEXT[end..]].concat(), ROOM)?;
            tally.text(&[&TEXT[..end], &TEXT[start..]].concat(), ROOM)?;
        }
    }
    Ok(())
}

fn lines(tally: &mut Tally) -> Result<(), String> {
    let lines: Vec<&[u8]> = TEXT.split_inclusive(|byte| *byte == b'\n').collect();
    for one in 0..lines.len() {
        for other in 0..lines.len() {
            let mut swapped = lines.clone();
            swapped.swap(one, other);
            tally.text(&swapped.concat(), ROOM)?;
            let mut repeated = lines.clone();
            repeated.insert(other, lines[one]);
            tally.text(&repeated.concat(), ROOM)?;
            let mut moved = lines.clone();
            let line = moved.remove(one);
            moved.insert(other, line);
            tally.text(&moved.concat(), ROOM)?;
        }
    }
    Ok(())
}
