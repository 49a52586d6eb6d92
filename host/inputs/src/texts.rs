//! Random texts in the .real format that are good ones.

use crate::Random;

/// A text before it is laid out: its lines, and their words.
pub type Draft = Vec<Vec<String>>;

const OPTIONAL: [&str; 4] = [".inputs", ".outputs", ".garbage", ".constants"];
const NAME_BYTES: &[u8] = b"abtxyzABTXYZ0123789_";

/// Words that the form asks nothing of.
const ANY_WORDS: &[&str] = &[
    "1.0",
    "2.0",
    "0",
    "-",
    "#",
    ".end",
    "t1",
    "~!",
    "any_length",
];

/// Bytes of which many mean something, or may not stand in a line.
const TELLING_BYTES: &[u8] = b"\0\x01\t\n\r \x0b\x0c!#-./019:AZ_atz~\x7f\x80\xff";

/// A text of the form, mostly a small one, laid out in one of the many ways that mean the same.
pub fn good_text(random: &mut Random) -> Vec<u8> {
    let draft = draft(random);
    laid_out(random, &draft)
}

/// The lines of a text of the form. It may have too many names, or a gate with its target among its controls.
pub(crate) fn draft(random: &mut Random) -> Draft {
    let most = random.pick(&[1, 2, 3, 3, 4, 6, 12, 40]);
    let count = random.upto(most) as usize;
    let names = names(random, count);
    let mut draft = vec![
        line(".version", any_words(random, &names)),
        line(".numvars", vec![count.to_string()]),
        line(".variables", names.clone()),
    ];
    draft.extend(optional_parts(random, &names));
    draft.push(line(".begin", vec![]));
    let most = random.pick(&[0, 1, 2, 4, 8, 20]);
    for _ in 0..random.upto(most) {
        draft.extend(gate(random, &names));
    }
    draft.push(line(".end", vec![]));
    draft
}

fn line(first: &str, more: Vec<String>) -> Vec<String> {
    [vec![first.to_string()], more].concat()
}

/// So many names that differ, many of them in one byte alone.
fn names(random: &mut Random, count: usize) -> Vec<String> {
    let longest = random.pick(&[1, 2, 2, 3, 8]);
    let mut names: Vec<String> = Vec::new();
    while names.len() < count {
        // there are few short names
        let most = (longest + names.len() / 8).min(8);
        let bytes = (0..1 + random.index(most)).map(|_| random.pick(NAME_BYTES));
        let name: String = bytes.map(char::from).collect();
        if !names.contains(&name) {
            names.push(name);
        }
    }
    names
}

fn any_words(random: &mut Random, names: &[String]) -> Vec<String> {
    let mut words = Vec::new();
    for _ in 0..random.pick(&[0, 1, 1, 2, 5]) {
        words.push(match names.is_empty() || random.one_in(2) {
            true => random.pick(ANY_WORDS).to_string(),
            false => names[random.index(names.len())].clone(),
        });
    }
    words
}

fn optional_parts(random: &mut Random, names: &[String]) -> Draft {
    let mut parts = Vec::new();
    for first in OPTIONAL {
        let more = match first {
            _ if random.one_in(2) => continue,
            ".constants" if names.is_empty() => continue,
            ".constants" => vec!["-".repeat(names.len())],
            _ => any_words(random, names),
        };
        parts.insert(random.index(parts.len() + 1), line(first, more));
    }
    parts
}

/// A gate on some of the names, its controls in any order; where there is no name, there is none.
fn gate(random: &mut Random, names: &[String]) -> Option<Vec<String>> {
    let mut left = names.to_vec();
    let mut given = Vec::new();
    for _ in 0..random.pick(&[1, 1, 2, 3, 3, 4, 40]) {
        if !left.is_empty() {
            given.push(left.remove(random.index(left.len())));
        }
    }
    if given.len() > 1 && random.one_in(25) {
        let target = given.len() - 1;
        given[target] = given[random.index(target)].clone();
    }
    let token = format!("t{}", given.len());
    (!given.is_empty()).then(|| line(&token, given))
}

/// The draft with blanks, line ends and skipped lines that mean nothing.
pub(crate) fn laid_out(random: &mut Random, draft: &[Vec<String>]) -> Vec<u8> {
    let ends = random.pick(&[&["\n"][..], &["\r\n"], &["\n", "\r\n"]]);
    let rarely = random.pick(&[2, 10, 100]);
    let mut lines = Vec::new();
    for words in draft {
        while random.one_in(rarely) {
            lines.push(skipped_line(random));
        }
        lines.push(spaced(random, words));
    }
    while random.one_in(rarely) {
        lines.push(skipped_line(random));
    }
    let mut text = Vec::new();
    let last = lines.len() - 1;
    for (at, line) in lines.into_iter().enumerate() {
        text.extend(line);
        if at < last || random.one_in(2) {
            text.extend(random.pick(ends).bytes());
        }
    }
    text
}

fn spaced(random: &mut Random, words: &[String]) -> Vec<u8> {
    let mut line = blanks(random, 0);
    for (at, word) in words.iter().enumerate() {
        line.extend(blanks(random, usize::from(at > 0)));
        line.extend(word.bytes());
    }
    line.extend(blanks(random, 0));
    line
}

/// Mostly no more than are needed.
fn blanks(random: &mut Random, needed: usize) -> Vec<u8> {
    let more = match random.one_in(8) {
        true => random.index(5),
        false => 0,
    };
    (0..needed + more)
        .map(|_| random.pick(b"     \t"))
        .collect()
}

/// A blank line, or a comment of any bytes.
fn skipped_line(random: &mut Random) -> Vec<u8> {
    let mut line = blanks(random, 0);
    if random.one_in(2) {
        line.push(b'#');
        let bytes = (0..random.upto(8)).map(|_| any_byte(random));
        line.extend(bytes.filter(|byte| *byte != b'\n'));
    }
    line
}

pub(crate) fn any_byte(random: &mut Random) -> u8 {
    match random.one_in(3) {
        true => random.byte(),
        false => random.pick(TELLING_BYTES),
    }
}
