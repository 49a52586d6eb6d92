//! Circuits as texts in the .real format, read and written.

use crate::circuit::{Circuit, MOST_LINES};
use crate::rules::{refuse, Refusal, Told};

const OPTIONAL: [&str; 4] = [".inputs", ".outputs", ".garbage", ".constants"];

/// Reads a circuit into a list of so many words of gates.
pub fn import_real(text: &[u8], gate_room: usize) -> Told<Circuit> {
    let (names, gates) = read(&mut Lines::of(text))?;
    refuse(3, 0, !(1..=MOST_LINES as usize).contains(&names.len()))?;
    let words: Vec<u32> = gates.iter().flat_map(gate_words).collect();
    let circuit = Circuit::checked(names.len() as u32, &words, 0)?;
    refuse(10, 0, gate_room < words.len())?;
    Ok(circuit)
}

pub fn export_real(lines: u32, gates: &[u32], room: usize) -> Told<String> {
    let text = text_of(&Circuit::checked(lines, gates, 0)?);
    refuse(10, 0, room < text.len())?;
    Ok(text)
}

/// A gate of a text: the lines that it names, its target last.
type Named = Vec<usize>;

/// Rules 14 and 15: the names and the gates of a text.
fn read<'a>(lines: &mut Lines<'a>) -> Told<(Vec<&'a str>, Vec<Named>)> {
    lines.next()?.words_after(".version")?;

    let line = lines.next()?;
    let counts = line.words_after(".numvars")?;
    line.must(counts.len() == 1 && is_number(counts[0]))?;

    let line = lines.next()?;
    let names = line.words_after(".variables")?;
    line.must(names.iter().all(|name| is_name(name)) && all_differ(&names))?;
    line.must(counts[0] == names.len().to_string())?;

    let mut seen = Vec::new();
    loop {
        let line = lines.next()?;
        let words = line.words()?;
        if words == [".begin"] {
            break;
        }
        line.must(OPTIONAL.contains(&words[0]) && !seen.contains(&words[0]))?;
        let hyphens = "-".repeat(names.len());
        line.must(words[0] != ".constants" || words[1..] == [&hyphens[..]])?;
        seen.push(words[0]);
    }

    let mut gates = Vec::new();
    loop {
        let line = lines.next()?;
        refuse(15, line.number, line.starts_with_other_letter())?;
        let words = line.words()?;
        if words == [".end"] {
            break;
        }
        gates.push(line.gate(&names)?);
    }

    match lines.next() {
        Ok(line) => Err(not_of_the_form(line.number)),
        Err(_) => Ok((names, gates)),
    }
}

/// The lines that are not skipped, and the number after the last line of all.
struct Lines<'a> {
    left: Vec<Line<'a>>,
    after: usize,
}

impl<'a> Lines<'a> {
    fn of(text: &'a [u8]) -> Lines<'a> {
        let mut pieces: Vec<&[u8]> = text.split(|byte| *byte == b'\n').collect();
        // what follows the last LF has no end of its own, and is a line if it is there
        let last = pieces.pop().filter(|piece| !piece.is_empty());
        let ended = pieces.into_iter();
        let all = ended.map(|piece| piece.strip_suffix(b"\r").unwrap_or(piece));
        let numbered = all.chain(last).zip(1..);
        let all: Vec<Line> = numbered
            .map(|(bytes, number)| Line { number, bytes })
            .collect();
        let after = all.len() + 1;
        let mut left: Vec<Line> = all.into_iter().filter(|line| !line.is_skipped()).collect();
        left.reverse();
        Lines { left, after }
    }

    /// The next line; where a text has no more, its `.end` is missing.
    fn next(&mut self) -> Told<Line<'a>> {
        self.left.pop().ok_or_else(|| not_of_the_form(self.after))
    }
}

/// A line without its end, and its number from 1.
#[derive(Clone, Copy)]
struct Line<'a> {
    number: usize,
    bytes: &'a [u8],
}

impl<'a> Line<'a> {
    fn pieces(self) -> Vec<&'a [u8]> {
        let parted = self.bytes.split(|byte| *byte == b' ' || *byte == b'\t');
        parted.filter(|piece| !piece.is_empty()).collect()
    }

    fn is_skipped(self) -> bool {
        match self.pieces().first() {
            None => true,
            Some(word) => word[0] == b'#',
        }
    }

    fn starts_with_other_letter(self) -> bool {
        let first = self.pieces()[0][0];
        first.is_ascii_alphabetic() && first != b't'
    }

    /// Refuses the line with 14 where it is not as it must be.
    fn must(self, so: bool) -> Told<()> {
        refuse(14, self.number, !so)
    }

    /// The words, of which there is one at least, if no byte is forbidden.
    fn words(self) -> Told<Vec<&'a str>> {
        let allowed = |byte: &u8| *byte == b'\t' || (b' '..=b'~').contains(byte);
        self.must(self.bytes.iter().all(allowed))?;
        let words = self.pieces().into_iter().map(std::str::from_utf8);
        Ok(words
            .map(|word| word.expect("all bytes are ASCII"))
            .collect())
    }

    /// The words that follow the first, which must be this one.
    fn words_after(self, first: &str) -> Told<Vec<&'a str>> {
        let words = self.words()?;
        self.must(words[0] == first)?;
        Ok(words[1..].to_vec())
    }

    fn gate(self, names: &[&str]) -> Told<Named> {
        let words = self.words()?;
        let given = &words[1..];
        self.must(!given.is_empty() && words[0] == format!("t{}", given.len()))?;
        let mut named = Vec::new();
        for word in given {
            let line = names.iter().position(|name| name == word);
            named.push(line.ok_or_else(|| not_of_the_form(self.number))?);
        }
        self.must(all_differ(&named[..named.len() - 1]))?;
        Ok(named)
    }
}

fn not_of_the_form(line: usize) -> Refusal {
    Refusal {
        number: 14,
        place: line as u32,
    }
}

fn is_number(word: &str) -> bool {
    let digits = word.bytes().all(|byte| byte.is_ascii_digit());
    digits && (word == "0" || !word.starts_with('0'))
}

fn is_name(word: &str) -> bool {
    let of_a_name = |byte: u8| byte.is_ascii_alphanumeric() || byte == b'_';
    (1..=8).contains(&word.len()) && word.bytes().all(of_a_name)
}

fn all_differ<T: PartialEq>(items: &[T]) -> bool {
    (0..items.len()).all(|at| !items[..at].contains(&items[at]))
}

/// Only for a gate on lines below 32.
fn gate_words(named: &Named) -> Vec<u32> {
    let (target, controls) = named.split_last().expect("a gate names a line");
    let mask = controls.iter().fold(0, |mask, line| mask | 1 << line);
    vec![mask, 0, *target as u32]
}

fn text_of(circuit: &Circuit) -> String {
    let names: Vec<String> = (0..circuit.lines)
        .map(|line| format!("x{}", line))
        .collect();
    let mut text = format!(
        ".version 1.0\n.numvars {}\n.variables {}\n.begin\n",
        circuit.lines,
        names.join(" ")
    );
    for gate in &circuit.gates {
        let controls = (0..circuit.lines).filter(|line| gate.is_control(*line));
        let named: Vec<String> = controls
            .chain([gate.target])
            .map(|line| format!("x{}", line))
            .collect();
        text += &format!("t{} {}\n", named.len(), named.join(" "));
    }
    text + ".end\n"
}
