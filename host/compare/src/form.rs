//! The form of a text, a rule after the other: each line in right and wrong spellings, alone and two at a time; optional parts in
//! every order; every byte in every kind of place; the limits of names and gates, and the order of rules.

use crate::tally::Tally;
use model::LONGEST_CIRCUIT;

/// The lines of a text of two names, each in right spellings, the first of them a plain one, and in wrong ones.
#[rustfmt::skip]
const SPELLINGS: [&[&str]; 8] = [
    &[
        ".version 1.0", ".version", "\t .version\t1.0 ", ".version 1.0 # any words", ".Version 1.0", "version 1.0", ".version1.0", ".versio",
        ".versions", ". version", "t1 a", ".begin", "v", "#.version", ".version\n.version", "1.0 .version", ".version \r", "\r",
    ],
    &[
        ".numvars 2", ".numvars\t2 ", ".numvars", ".numvars 2 2", ".numvars 02", ".numvars 0", ".numvars 00", ".numvars 1", ".numvars 3",
        ".numvars 20", ".numvars +2", ".numvars -2", ".numvars 2.", ".numvars 2a", ".numvars a", ".numvars 0x2", ".numvars 2 #", ".numvar 2",
        ".numvars2", ".numvars 258", ".numvars 65538", ".numvars 4294967298", ".numvars 18446744073709551618", ".numvars 18446744073709551616",
        ".numvars 340282366920938463463374607431768211458", ".numvars 99999999999999999999999999999999999999999999999999", "v", "#",
    ],
    &[
        ".variables a b", ".variables b a", ".variables\ta \tb\t", ".variables", ".variables a", ".variables b", ".variables a b c",
        ".variables a a", ".variables a b a", ".variables a B", ".variables a ab", ".variables ba b", ".variables a_ a", ".variables 0 1",
        ".variables abcdefgh abcdefgH", ".variables abcdefgh abcdefg", ".variables abcdefghi b", ".variables a abcdefghi", ".variables a b-",
        ".variables a -b", ".variables .a b", ".variables a, b", ".variables a #", ".variables a b #", ".variables a# b", ".variables t2 b",
        ".variables _ ________", ".variable a b", ".variablesa b", ".inputs a b", "v", "",
    ],
    &[
        "", ".inputs", ".outputs a b", ".garbage - 1 #", ".constants --", "\t.constants\t--\t", ".constants", ".constants -", ".constants ---",
        ".constants - -", ".constants -- -", ".constants 0-", ".constants -1", ".constants --#", ".constants -- #", ".constants ~~",
        ".constants --\n.constants --", ".inputs\n.inputs", ".outputs\n.outputs a", ".garbage\n\n.garbage", ".inputs\n.garbage\n.outputs\n.inputs",
        ".inputs \x7f", ".outputs \0", ".Inputs", ".input", ".define a", ".inputbus a", ".version 1.0", ".numvars 2", ".variables a b", "v",
        "t1 a", "-- .constants",
    ],
    &[".begin", " .begin\t", ".begin a", ".begin #", ".Begin", "begin", ".begin.", ".end", "t1 a", "v", "", ".begin\n.begin", ".begin\r\r"],
    &[
        "t2 a b", "\tt2\t b  a ", "t1 a", "t1 b", "t2 a a", "t", "t a b", "t 2 a b", "t0", "t0 a", "t00", "t1", "t2", "t1 a b", "t2 a",
        "t02 a b", "t2 a c", "t2 c a", "t2 A b", "t2 a bb", "t2 a,b", "t3 a b", "t3 a b b", "t3 b a a", "t3 a a b", "t3 a a a", "t4 a b a b",
        "t3 a a c", "t2 a b #", "t2 a b#", "t2a b", "2t a b", "tt a b", "t+2 a b", "t-2 a b", "t2. a b", "t2 a -b", "t258 a b", "t65538 a b",
        "t4294967298 a b", "t18446744073709551618 a b", "t18446744073709551617 a", "t340282366920938463463374607431768211458 a b",
        "T2 a b", "T", "f2 a b", "v a b", "v", "p", "end", "x", "x0 a b", "Z", "A", "z\x01 a b", "v a \x7f", "t2 a \x7f", "t\x01", "\x01v",
        "_2 a b", "-2 a b", ".2 a b", "0 a b", "~", "@", "[", "`", "{", ".begin", ".version 1.0", ".inputs a b", ".define x", "a t2", "#t2 a b",
        "v\r", "v\ra", "t2 a b\r", "t2\ra b", "\rt2 a b", "\rv", "t2 a b\nt2 a a", "t2 a b\nv", "t2 a a\nt2 b b", "t2 a a\nt3 a a b", "",
    ],
    &[".end", "\t.end ", ".end a", ".end #", ".End", "end", "End", ".end.", ".ends", "e", "t1 a", "v", "", ".begin", ".end\x01", ".end\r\r"],
    &["", "#v", " \t", "v", "t1 a", ".end", ".version 1.0", "a", "\x01", "\r", "#\r", "# \x01\r\x02"],
];

pub fn compare(tally: &mut Tally) -> Result<(), String> {
    spellings(tally)?;
    optional_parts(tally)?;
    every_byte(tally)?;
    numbers_of_names(tally)?;
    numbers_of_gates(tally)?;
    order_of_rules(tally)
}

fn spellings(tally: &mut Tally) -> Result<(), String> {
    let plain: Vec<&str> = SPELLINGS.iter().map(|line| line[0]).collect();
    for (one, its) in SPELLINGS.iter().enumerate() {
        for spelling in its.iter() {
            let mut lines = plain.clone();
            lines[one] = spelling;
            laid_out(tally, &lines)?;
            for (other, its) in SPELLINGS.iter().enumerate().skip(one + 1) {
                for spelling in its.iter() {
                    let mut lines = lines.clone();
                    lines[other] = spelling;
                    tally.text(lines.join("\n").as_bytes(), 3)?;
                }
            }
        }
    }
    Ok(())
}

/// The lines with each line end, with and without the last one, and with skipped lines between them.
fn laid_out(tally: &mut Tally, lines: &[&str]) -> Result<(), String> {
    for between in [
        "\n",
        "\r\n",
        "\r",
        "\n\n",
        "\n#\r\n",
        "\n \t#\x7f \r\n\t \n",
    ] {
        let text = lines.join(between);
        for end in ["", "\n", "\r\n", "\r", "\n\n", "\n#", " ", "\n\r"] {
            tally.text([text.as_bytes(), end.as_bytes()].concat().as_slice(), 3)?;
        }
    }
    Ok(())
}

/// All orders of all choices of parts, one of them twice or none.
fn optional_parts(tally: &mut Tally) -> Result<(), String> {
    let parts = [".inputs", ".outputs a", ".garbage b -", ".constants --"];
    for chosen in 0..5usize.pow(5) {
        let digits = (0..5u32).map(|place| chosen / 5usize.pow(place) % 5);
        let chosen: Vec<&str> = digits.filter_map(|part| parts.get(part).copied()).collect();
        let text = format!(
            ".version 1.0\n.numvars 2\n.variables a b\n{}\n.begin\n.end\n",
            chosen.join("\n")
        );
        tally.text(text.as_bytes(), 0)?;
    }
    Ok(())
}

/// Each byte where a text has its `@`.
fn every_byte(tally: &mut Tally) -> Result<(), String> {
    let texts = [
        "@.version 1.0\n.numvars 1\n.variables a\n.begin\nt1 a\n.end\n",
        "@\n.version 1.0\n.numvars 1\n.variables a\n.begin\nt1 a\n.end\n",
        "#@\n.version 1.0\n.numvars 1\n.variables a\n.begin\nt1 a\n.end\n",
        ".version @\n.numvars 1\n.variables a\n.begin\nt1 a\n.end\n",
        ".version @ 1.0\n.numvars 1\n.variables a\n.begin\nt1 a\n.end\n",
        ".version 1.0\n.numvars 1@\n.variables a\n.begin\nt1 a\n.end\n",
        ".version 1.0\n.numvars @\n.variables a\n.begin\nt1 a\n.end\n",
        ".version 1.0\n.numvars 1\n.variables @\n.begin\nt1 a\n.end\n",
        ".version 1.0\n.numvars 1\n.variables @a\n.begin\nt1 @a\n.end\n",
        ".version 1.0\n.numvars 1\n.variables a@\n.begin\nt1 a@\n.end\n",
        ".version 1.0\n.numvars 2\n.variables a @\n.begin\nt2 a @\n.end\n",
        ".version 1.0\n.numvars 2\n.variables a@ a\n.begin\nt1 a\n.end\n",
        ".version 1.0\n.numvars 1\n.variables a\n.inputs @\n.begin\nt1 a\n.end\n",
        ".version 1.0\n.numvars 1\n.variables a\n.constants @\n.begin\nt1 a\n.end\n",
        ".version 1.0\n.numvars 1\n.variables a\n.begin@\nt1 a\n.end\n",
        ".version 1.0\n.numvars 1\n.variables a\n.begin\n@1 a\n.end\n",
        ".version 1.0\n.numvars 1\n.variables a\n.begin\n@\n.end\n",
        ".version 1.0\n.numvars 1\n.variables a\n.begin\n@@\nt1 a\n.end\n",
        ".version 1.0\n.numvars 1\n.variables a\n.begin\nt@ a\n.end\n",
        ".version 1.0\n.numvars 1\n.variables a\n.begin\nt1@ a\n.end\n",
        ".version 1.0\n.numvars 1\n.variables a\n.begin\nt1@a\n.end\n",
        ".version 1.0\n.numvars 1\n.variables a\n.begin\nt1 a@\n.end\n",
        ".version 1.0\n.numvars 1\n.variables a\n.begin\nv@\n.end\n",
        ".version 1.0\n.numvars 1\n.variables a\n.begin\n@v\n.end\n",
        ".version 1.0\n.numvars 1\n.variables a\n.begin\nt1 a\n.end@\n",
        ".version 1.0\n.numvars 1\n.variables a\n.begin\nt1 a\n.end@",
        ".version 1.0\n.numvars 1\n.variables a\n.begin\nt1 a\n.end\n@",
        ".version 1.0\n.numvars 1\n.variables a\n.begin\nt1 a\n.end\n#@",
        ".version 1.0\n.numvars 1\n.variables a\n.begin\nt1 a\n.end\n@#",
        ".version@.numvars 1@.variables a@.begin@t1 a@.end@",
    ];
    for text in texts {
        for byte in 0..=255 {
            let bytes = text.bytes().map(|b| if b == b'@' { byte } else { b });
            tally.text(&bytes.collect::<Vec<u8>>(), 3)?;
        }
    }
    Ok(())
}

/// Up to more names than a circuit has lines, all of them in use; the number that is told is right or wrong.
fn numbers_of_names(tally: &mut Tally) -> Result<(), String> {
    for count in (0..=5)
        .chain(8..=12)
        .chain(30..=34)
        .chain([40, 63, 64, 65, 99, 100, 101, 256, 257, 1000])
    {
        let names = names(count);
        let all = gate(&names);
        let last = names
            .last()
            .map_or(String::new(), |name| format!("t1 {}\n", name));
        let twice = names
            .last()
            .map_or(String::new(), |name| format!("t2 {} {}\n", name, name));
        for told in [count, count + 1, count.saturating_sub(1), 10 * count] {
            for gates in ["", &all, &last, &twice, "t1 none\n", "v\n"] {
                let text = text(told, &names, gates);
                for room in [0, 2, 3, 4] {
                    tally.text(text.as_bytes(), room)?;
                }
            }
        }
        for constants in [count, count + 1, count.saturating_sub(1)] {
            let head = text(count, &names, "");
            let hyphens = format!(".constants {}\n.begin", "-".repeat(constants));
            tally.text(head.replace(".begin", &hyphens).as_bytes(), 0)?;
        }
        for again in [0, count / 2, count.saturating_sub(1)]
            .into_iter()
            .filter(|at| *at < count)
        {
            let twice = [&names[..], &names[again..=again]].concat();
            tally.text(text(count + 1, &twice, "").as_bytes(), 0)?;
        }
    }
    Ok(())
}

fn numbers_of_gates(tally: &mut Tally) -> Result<(), String> {
    let names = names(3);
    for depth in [0, 1, 2, 9, 10, 1023, 1024, 1025, 2000] {
        let gates = gates(&names, depth, None);
        for tail in ["", "t2 x0 x0\n", "t2 x0 x9\n", "v\n"] {
            let text = text(3, &names, &(gates.clone() + tail));
            for room in [0, 1, 3 * depth, 3 * depth + 2, 3 * depth + 3, 3 * depth + 4] {
                tally.text(text.as_bytes(), room)?;
            }
            if depth > 0 {
                tally.text(text.as_bytes(), 3 * depth - 1)?;
            }
        }
    }
    Ok(())
}

/// Each rule broken or not, beside each other: 15 or 14 in the last line but one, then 3, 5, 7 and 10.
fn order_of_rules(tally: &mut Tally) -> Result<(), String> {
    for count in [2, 32, 33, 40] {
        let names = names(count);
        for depth in [1, LONGEST_CIRCUIT, LONGEST_CIRCUIT + 1, 2000] {
            for bad in [None, Some(1), Some(depth / 2 + 1), Some(depth)] {
                let gates = gates(&names, depth, bad);
                for tail in ["", "t1 none\n", "v\n", "v \x7f\n", ".end\n"] {
                    let text = text(count, &names, &(gates.clone() + tail));
                    for room in [0, 3 * depth - 1, 3 * depth] {
                        tally.text(text.as_bytes(), room)?;
                    }
                }
            }
        }
    }
    Ok(())
}

fn text(told: usize, names: &[String], gates: &str) -> String {
    format!(
        ".version 1.0\n.numvars {}\n.variables {}\n.begin\n{}.end\n",
        told,
        names.join(" "),
        gates
    )
}

fn names(count: usize) -> Vec<String> {
    (0..count).map(|line| format!("x{}", line)).collect()
}

/// So many gates in turn, of which one has its target among its controls.
fn gates(names: &[String], depth: usize, bad: Option<usize>) -> String {
    let one = |number: usize| {
        let (target, control) = (number % names.len(), (number + 1) % names.len());
        match Some(number) == bad {
            true => gate(&[names[target].clone(), names[target].clone()]),
            false => gate(&[names[control].clone(), names[target].clone()]),
        }
    };
    (1..=depth).map(one).collect()
}

fn gate(names: &[String]) -> String {
    format!("t{} {}\n", names.len(), names.join(" "))
}
