//! Texts of a megabyte in the .real format: two that a block maker might send, and some made to cost as much as they can.

use crate::Numbers;

const MEGABYTE: usize = 1_000_000;

/// Names and a text for each; the texts of all but the last are a megabyte long.
pub fn texts(numbers: &mut Numbers) -> Vec<(&'static str, String)> {
    vec![
        ("import, gates alone", gates_alone(numbers, 12)),
        ("import, 1,024 gates and comments", with_comments(numbers)),
        ("import, 33 names", gates_alone(numbers, 33)),
        ("import, blanks between two names", far_apart()),
        ("import, one long gate", long_gate()),
        ("import, 10,000 names", many_names()),
    ]
}

fn gates_alone(numbers: &mut Numbers, count: u32) -> String {
    let mut text = head(&names(count), " ");
    while text.len() < MEGABYTE {
        text += &gate(numbers, count);
    }
    text + ".end\n"
}

fn with_comments(numbers: &mut Numbers) -> String {
    let mut text = head(&names(12), " ");
    for left in (1..=1024).rev() {
        let length = (MEGABYTE - text.len()) / left;
        text += &format!("# {}\n", "any words ".repeat(length / 10 - 2));
        text += &gate(numbers, 12);
    }
    text + ".end\n"
}

/// A reader that looks for each gate's names in the line of names goes over the blanks each time.
fn far_apart() -> String {
    let mut text = head(&names(2), &" ".repeat(MEGABYTE / 2));
    while text.len() < MEGABYTE {
        text += "t2 n0 n1\n";
    }
    text + ".end\n"
}

/// A reader that holds each control against those before it takes the square of the length.
fn long_gate() -> String {
    let names = names(12);
    let count = MEGABYTE / 3;
    let named: Vec<&str> = (0..count).map(|at| &names[at % 12][..]).collect();
    format!(
        "{}t{} {}\n.end\n",
        head(&names, " "),
        count,
        named.join(" ")
    )
}

/// A reader that holds each name against those before it does too.
fn many_names() -> String {
    let names = names(10_000);
    format!("{}t10000 {}\n.end\n", head(&names, " "), names.join(" "))
}

fn names(count: u32) -> Vec<String> {
    (0..count).map(|line| format!("n{}", line)).collect()
}

fn head(names: &[String], blanks: &str) -> String {
    let count = names.len();
    format!(
        ".version 1.0\n.numvars {}\n.variables {}\n.begin\n",
        count,
        names.join(blanks)
    )
}

/// A gate on one to five lines.
fn gate(numbers: &mut Numbers, count: u32) -> String {
    let mut lines: Vec<u32> = (0..1 + numbers.next() % 5)
        .map(|_| numbers.next() % count)
        .collect();
    lines.sort_unstable();
    lines.dedup();
    let named: Vec<String> = lines.iter().map(|line| format!("n{}", line)).collect();
    format!("t{} {}\n", named.len(), named.join(" "))
}
