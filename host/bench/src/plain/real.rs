use super::gates_of;
use std::collections::HashMap;
use std::fmt::Write;

/// Lines and words of gates, or the number and the place of a refusal.
pub type Imported = Result<(u32, Vec<u32>), (u32, u32)>;

/// What may stand in the next line that is not skipped.
enum Expected {
    Version,
    Count,
    Names,
    OptionalPart,
    Gate,
    Nothing,
}

struct Reader<'a> {
    expected: Expected,
    count: usize,
    names: HashMap<&'a str, usize>,
    parts: Vec<&'a str>,
    gates: Vec<[u32; 3]>,
    /// Which lines the gate at hand has named as controls; all false between gates.
    named: Vec<bool>,
    /// The first gate whose target is among its controls.
    bad_gate: Option<usize>,
}

pub fn import(text: &[u8]) -> Imported {
    let mut reader = Reader {
        expected: Expected::Version,
        count: 0,
        names: HashMap::new(),
        parts: Vec::new(),
        gates: Vec::new(),
        named: Vec::new(),
        bad_gate: None,
    };
    let mut number = 0;
    for line in text.split_inclusive(|byte| *byte == b'\n') {
        number += 1;
        let line = match line.strip_suffix(b"\n") {
            Some(line) => line.strip_suffix(b"\r").unwrap_or(line),
            None => line,
        };
        reader.line(line).map_err(|refusal| (refusal, number))?;
    }
    match reader.expected {
        Expected::Nothing => reader.circuit(),
        _ => Err((14, number + 1)),
    }
}

impl<'a> Reader<'a> {
    /// Reads a line, or answers with the number of a refusal.
    fn line(&mut self, line: &'a [u8]) -> Result<(), u32> {
        match line.iter().find(|byte| **byte != b' ' && **byte != b'\t') {
            None | Some(b'#') => return Ok(()),
            Some(first) => {
                let letter = first.is_ascii_alphabetic() && *first != b't';
                if letter && matches!(self.expected, Expected::Gate) {
                    return Err(15);
                }
            }
        }
        self.words(line).ok_or(14)
    }

    fn words(&mut self, line: &'a [u8]) -> Option<()> {
        if !line.iter().all(|byte| matches!(byte, b'\t' | b' '..=b'~')) {
            return None;
        }
        let mut words = std::str::from_utf8(line).ok()?.split_ascii_whitespace();
        let first = words.next()?;
        match self.expected {
            Expected::Version => {
                self.expected = Expected::Count;
                (first == ".version").then_some(())
            }
            Expected::Count => {
                self.expected = Expected::Names;
                self.count = number(words.next()?)?;
                (first == ".numvars" && words.next().is_none()).then_some(())
            }
            Expected::Names => {
                self.expected = Expected::OptionalPart;
                for word in words {
                    let line = self.names.len();
                    if !is_name(word) || self.names.insert(word, line).is_some() {
                        return None;
                    }
                }
                self.named = vec![false; self.names.len()];
                (first == ".variables" && self.count == self.names.len()).then_some(())
            }
            Expected::OptionalPart => self.optional_part(first, words),
            Expected::Gate if first == ".end" => {
                self.expected = Expected::Nothing;
                words.next().is_none().then_some(())
            }
            Expected::Gate => self.gate(first, words),
            Expected::Nothing => None,
        }
    }

    fn optional_part(
        &mut self,
        first: &'a str,
        mut words: impl Iterator<Item = &'a str>,
    ) -> Option<()> {
        let sound = match first {
            ".begin" => {
                self.expected = Expected::Gate;
                words.next().is_none()
            }
            ".inputs" | ".outputs" | ".garbage" => true,
            ".constants" => {
                let word = words.next()?;
                let hyphens = word.bytes().all(|byte| byte == b'-');
                hyphens && word.len() == self.names.len() && words.next().is_none()
            }
            _ => false,
        };
        let again = self.parts.contains(&first);
        self.parts.push(first);
        (sound && !again).then_some(())
    }

    fn gate(&mut self, token: &str, words: impl Iterator<Item = &'a str>) -> Option<()> {
        let count = number(token.strip_prefix('t')?)?;
        let lines: Option<Vec<usize>> = words.map(|name| self.names.get(name).copied()).collect();
        let lines = lines?;
        let (target, controls) = lines.split_last()?;
        if count != lines.len() {
            return None;
        }
        let mut mask = 0u32;
        for line in controls {
            if std::mem::replace(&mut self.named[*line], true) {
                return None;
            }
            mask |= 1u32.checked_shl(*line as u32).unwrap_or(0);
        }
        self.gates.push([mask, 0, *target as u32]);
        if self.named[*target] {
            self.bad_gate = self.bad_gate.or(Some(self.gates.len()));
        }
        for line in controls {
            self.named[*line] = false;
        }
        Some(())
    }

    fn circuit(self) -> Imported {
        if !(1..=32).contains(&self.count) {
            return Err((3, 0));
        }
        if self.gates.len() > 1024 {
            return Err((5, 0));
        }
        match self.bad_gate {
            Some(gate) => Err((7, gate as u32)),
            None => Ok((self.count as u32, self.gates.concat())),
        }
    }
}

/// A decimal number with no zero in front. One too large for a word is more than any count.
fn number(word: &str) -> Option<usize> {
    let digits = !word.is_empty() && word.bytes().all(|byte| byte.is_ascii_digit());
    let sound = digits && (word == "0" || !word.starts_with('0'));
    sound.then(|| word.parse().unwrap_or(usize::MAX))
}

fn is_name(word: &str) -> bool {
    let of_a_name = |byte: u8| byte.is_ascii_alphanumeric() || byte == b'_';
    word.len() <= 8 && word.bytes().all(of_a_name)
}

pub fn export(lines: u32, words: &[u32]) -> Option<String> {
    let gates = gates_of(lines, words)?;
    let mut text = format!(".version 1.0\n.numvars {}\n.variables", lines);
    for line in 0..lines {
        write!(text, " x{}", line).ok()?;
    }
    text.push_str("\n.begin\n");
    for gate in gates {
        write!(text, "t{}", gate.controls.count_ones() + 1).ok()?;
        for line in (0..lines).filter(|line| gate.controls >> line & 1 == 1) {
            write!(text, " x{}", line).ok()?;
        }
        writeln!(text, " x{}", gate.target).ok()?;
    }
    text.push_str(".end\n");
    Some(text)
}
