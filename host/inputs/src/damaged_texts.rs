//! Random texts in the .real format with damage to their words or their bytes.

use crate::texts::{any_byte, draft, laid_out, Draft};
use crate::Random;

/// Words that stand somewhere in a text of the form, or nearly do.
#[rustfmt::skip]
const TELLING_WORDS: &[&str] = &[
    ".version", ".numvars", ".variables", ".inputs", ".outputs", ".garbage", ".constants", ".begin", ".end", ".define", ".End", ".",
    "#", "-", "--", "---", "0", "1", "2", "3", "01", "+1", "_", "a", "x0", "abcdefghi", "18446744073709551617",
    "t", "t0", "t1", "t2", "t3", "t01", "t1x", "2t", "T1", "v", "f2", "p3", "t18446744073709551618",
];

/// A text with damage; now and then it still is of the form.
pub fn damaged_text(random: &mut Random) -> Vec<u8> {
    let mut draft = draft(random);
    let in_words = !random.one_in(4);
    if in_words {
        damage_words(random, &mut draft);
    }
    let mut text = laid_out(random, &draft);
    if !in_words || random.one_in(6) {
        damage_text(random, &mut text);
    }
    text
}

/// Exchanges two lines, repeats or removes one, or changes its words.
fn damage_words(random: &mut Random, draft: &mut Draft) {
    let at = random.index(draft.len());
    match random.upto(5) {
        0 => {
            let other = random.index(draft.len());
            draft.swap(at, other);
        }
        1 => {
            let line = draft[at].clone();
            draft.insert(random.index(draft.len() + 1), line);
        }
        2 => {
            draft.remove(at);
        }
        _ => damage_line(random, draft, at),
    }
}

fn damage_line(random: &mut Random, draft: &mut Draft, at: usize) {
    let from = &draft[random.index(draft.len())];
    let elsewhere = from[random.index(from.len())].clone();
    let line = &mut draft[at];
    let word = random.index(line.len());
    let place = random.index(line.len() + 1);
    match random.upto(7) {
        0 => {
            line.remove(word);
        }
        1 => line.insert(place, elsewhere),
        2 => line[word] = elsewhere,
        3 => line[word] = random.pick(TELLING_WORDS).to_string(),
        4 => line.insert(place, line[word].clone()),
        5 => {
            let other = random.index(line.len());
            line.swap(word, other);
        }
        6 => line[word] = near(random, &line[word]),
        _ => line.push(random.pick(TELLING_WORDS).to_string()),
    }
}

/// A word with another number at its end, in other letters, or with a piece more or less.
fn near(random: &mut Random, word: &str) -> String {
    let letters = word.trim_end_matches(|letter: char| letter.is_ascii_digit());
    let digits = &word[letters.len()..];
    let number = digits.parse::<u128>().unwrap_or(0);
    let far = 1u128 << random.pick(&[8, 16, 32, 64, 100]);
    let piece = random.pick(&["a", "t", "v", "0", "1", "_", "-", "--", "#", ".", "abcdefg"]);
    match random.upto(8) {
        0 => format!("{}{}", letters, number + 1),
        1 => format!("{}{}", letters, number.saturating_sub(1)),
        2 => format!("{}{}", letters, number + far),
        3 => format!("{}0{}", letters, digits),
        4 => word.to_ascii_uppercase(),
        5 => word.to_ascii_lowercase(),
        6 => word.to_string() + piece,
        7 => piece.to_string() + word,
        _ => word[1..].to_string(),
    }
}

/// Changes, adds or removes a byte, repeats a piece, exchanges two lines, or cuts the text.
pub fn damage_text(random: &mut Random, text: &mut Vec<u8>) {
    let at = random.index(text.len() + 1);
    let byte = any_byte(random);
    match random.upto(7) {
        0 => text.truncate(at),
        1 => exchange_lines(random, text),
        2 => {
            let piece = text[random.index(at + 1)..at].to_vec();
            text.splice(at..at, piece);
        }
        3 => text.insert(at, byte),
        _ if at == text.len() => text.push(byte),
        4 => {
            text.remove(at);
        }
        5 => text[at] ^= 1 << random.upto(7),
        _ => text[at] = byte,
    }
}

fn exchange_lines(random: &mut Random, text: &mut Vec<u8>) {
    let mut lines: Vec<&[u8]> = text.split_inclusive(|byte| *byte == b'\n').collect();
    if !lines.is_empty() {
        let (one, other) = (random.index(lines.len()), random.index(lines.len()));
        lines.swap(one, other);
        *text = lines.concat();
    }
}

#[cfg(test)]
mod tests {
    use super::damaged_text;
    use crate::texts::good_text;
    use crate::Random;
    use model::import_real;

    /// How often each refusal comes in 20,000 texts, and an answer as 0.
    fn told(draw: fn(&mut Random) -> Vec<u8>) -> [u32; 16] {
        let mut times = [0; 16];
        for round in 0..20_000 {
            let text = draw(&mut Random::of_round(14, round));
            let told = import_real(&text, usize::MAX);
            times[told.map_or_else(|refusal| refusal.number as usize, |_| 0)] += 1;
        }
        times
    }

    #[test]
    fn good_texts_are_of_the_form() {
        let times = told(good_text);
        assert_eq!(times[14] + times[15], 0);
        assert!(times[0] > 10_000 && times[3] > 500 && times[7] > 500);
    }

    #[test]
    fn damage_comes_to_every_refusal() {
        let times = told(damaged_text);
        assert!(times[0] > 1_000 && times[3] > 100 && times[7] > 100);
        assert!(times[14] > 5_000 && times[15] > 100);
    }
}
