//! Texts in the .real format with what is right for each, written by hand: here no simulator has a say.

/// Lines and words of gates, or the number and the place of a refusal.
pub type RealAnswer = Result<(u32, &'static [u32]), (u32, u32)>;

/// The sample circuit of docs/SCOPE.md as it is exported.
pub const SAMPLE_REAL: &str = "\
.version 1.0
.numvars 3
.variables x0 x1 x2
.begin
t3 x0 x1 x2
t2 x0 x1
.end
";

const SAMPLE: RealAnswer = Ok((3, &[3, 0, 2, 1, 0, 1]));

#[rustfmt::skip]
pub const REAL_SAMPLES: &[(&[u8], RealAnswer)] = &[
    (SAMPLE_REAL.as_bytes(), SAMPLE),
    // what means nothing: blanks, line ends, comments of any bytes, optional parts, order of controls
    (b"\n \t\r\n#\0\xff\r!\n \t# x\n.version\n\t.numvars \t3 \r\n .variables a\tb  c\n.constants ---\n.garbage -1-\n.inputs 0 1\n\
       .outputs\n.begin\n#\nt3 b a c \nt2 a b\n\n.end\r\n\n#\r", SAMPLE),
    (b".version 1.0 any words # too\n.numvars 1\n.variables _\n.begin\n.end", Ok((1, &[]))),
    (b".version 1.0\n.numvars 2\n.variables 0 A_b9z__8\n.begin\nt1 A_b9z__8\nt2 A_b9z__8 0\n.end\n", Ok((2, &[0, 0, 1, 2, 0, 0]))),
    // no end
    (b"", Err((14, 1))),
    (b"\n", Err((14, 2))),
    (b"#", Err((14, 2))),
    (b".version 1.0", Err((14, 2))),
    (b".version 1.0\n.numvars 1\n.variables a\n.begin\nt1 a", Err((14, 6))),
    (b".version 1.0\n.numvars 1\n.variables a\n.begin\nt1 a\n\n# .end\n", Err((14, 8))),
    // the head
    (b".numvars 1\n.variables a\n.begin\n.end\n", Err((14, 1))),
    (b".version\n.variables a\n.begin\n.end\n", Err((14, 2))),
    (b".version\n.numvars 1\n.begin\n.end\n", Err((14, 3))),
    (b".version\n.numvars 1\n.variables a\n.end\n", Err((14, 4))),
    (b".Version\n.numvars 1\n.variables a\n.begin\n.end\n", Err((14, 1))),
    (b".version\n.numvars\n.variables a\n.begin\n.end\n", Err((14, 2))),
    (b".version\n.numvars 1 1\n.variables a\n.begin\n.end\n", Err((14, 2))),
    (b".version\n.numvars 01\n.variables a\n.begin\n.end\n", Err((14, 2))),
    (b".version\n.numvars +1\n.variables a\n.begin\n.end\n", Err((14, 2))),
    (b".version\n.numvars 2\n.variables a\n.begin\n.end\n", Err((14, 3))),
    (b".version\n.numvars 18446744073709551617\n.variables a\n.begin\n.end\n", Err((14, 3))),
    (b".version\n.numvars 2\n.variables a a\n.begin\n.end\n", Err((14, 3))),
    (b".version\n.numvars 1\n.variables abcdefghi\n.begin\n.end\n", Err((14, 3))),
    (b".version\n.numvars 1\n.variables a-b\n.begin\n.end\n", Err((14, 3))),
    (b".version\n.numvars 1\n.variables a #\n.begin\n.end\n", Err((14, 3))),
    (b".version\n.numvars 0\n.variables\n.begin\n.end\n", Err((3, 0))),
    // optional parts
    (b".version\n.numvars 1\n.variables a\n.inputs a\n.garbage -\n.inputs a\n.begin\n.end\n", Err((14, 6))),
    (b".version\n.numvars 1\n.variables a\n.constants 0\n.begin\n.end\n", Err((14, 4))),
    (b".version\n.numvars 2\n.variables a b\n.constants - -\n.begin\n.end\n", Err((14, 4))),
    (b".version\n.numvars 2\n.variables a b\n.constants ---\n.begin\n.end\n", Err((14, 4))),
    (b".version\n.numvars 0\n.variables\n.constants\n.begin\n.end\n", Err((14, 4))),
    (b".version\n.numvars 1\n.variables a\n.define a\n.begin\n.end\n", Err((14, 4))),
    (b".version\n.numvars 1\n.variables a\n.begin a\n.end\n", Err((14, 4))),
    // gates
    (b".version\n.numvars 2\n.variables a b\n.begin\nt\n.end\n", Err((14, 5))),
    (b".version\n.numvars 2\n.variables a b\n.begin\nt0\n.end\n", Err((14, 5))),
    (b".version\n.numvars 2\n.variables a b\n.begin\nt02 a b\n.end\n", Err((14, 5))),
    (b".version\n.numvars 2\n.variables a b\n.begin\n2t a b\n.end\n", Err((14, 5))),
    (b".version\n.numvars 2\n.variables a b\n.begin\nt1 a b\n.end\n", Err((14, 5))),
    (b".version\n.numvars 2\n.variables a b\n.begin\nt18446744073709551618 a b\n.end\n", Err((14, 5))),
    (b".version\n.numvars 2\n.variables a b\n.begin\nt2 a c\n.end\n", Err((14, 5))),
    (b".version\n.numvars 2\n.variables a b\n.begin\nt3 a a b\n.end\n", Err((14, 5))),
    (b".version\n.numvars 2\n.variables a b\n.begin\nt3 a a a\n.end\n", Err((14, 5))),
    (b".version\n.numvars 2\n.variables a b\n.begin\nt1 a\nt2 b b\nt2 a a\n.end\n", Err((7, 2))),
    (b".version\n.numvars 2\n.variables a b\n.begin\nt2 b b\nt2 a c\n.end\n", Err((14, 6))),
    (b".version\n.numvars 2\n.variables a b\n.begin\nT1 a\n.end\n", Err((15, 5))),
    (b".version\n.numvars 2\n.variables a b\n.begin\n\n f2 a \x80\r\r\n.end\n", Err((15, 6))),
    (b".version\n.numvars 2\n.variables a b\n.begin\nt2 a c\nv a b\n.end\n", Err((14, 5))),
    (b".version\n.numvars 2\n.variables a b\n.begin\nv a b\nt2 a c\n.end\n", Err((15, 5))),
    (b".version\n.numvars 2\n.variables a b\nv a b\n.begin\n.end\n", Err((14, 4))),
    // the end
    (b".version\n.numvars 1\n.variables a\n.begin\n.end a\n", Err((14, 5))),
    (b".version\n.numvars 1\n.variables a\n.begin\n.end\nv a\n", Err((14, 6))),
    (b".version\n.numvars 1\n.variables a\n.begin\n.end\n#\n \n.end\n", Err((14, 8))),
    // bytes
    (b".version\n.numvars 1\n.variables a\n.begin\n.end\r", Err((14, 5))),
    (b".version \r 1\n.numvars 1\n.variables a\n.begin\n.end\n", Err((14, 1))),
    (b".version\r\r\n.numvars 1\n.variables a\n.begin\n.end\n", Err((14, 1))),
    (b".version \x7f\n.numvars 1\n.variables a\n.begin\n.end\n", Err((14, 1))),
    (b".version\n.numvars 1\n.variables a\n.inputs \0\n.begin\n.end\n", Err((14, 4))),
    (b".version\n.numvars 1\n.variables a\n.begin\n\x0b\n.end\n", Err((14, 5))),
    (b".version\n.numvars 1\n.variables a\n.begin\n\xc3\xa4\n.end\n", Err((14, 5))),
    (b".version\n.numvars 1\n.variables a\n.begin\nt1 a\x0c\n.end\n", Err((14, 5))),
];

#[cfg(test)]
mod tests {
    use super::{REAL_SAMPLES, SAMPLE_REAL};
    use model::{export_real, import_real};

    #[test]
    fn the_simulator_says_what_is_right() {
        for (text, right) in REAL_SAMPLES.iter().copied() {
            let told = import_real(text, usize::MAX);
            let told = told.map(|circuit| (circuit.lines, circuit.words()));
            let told = told.map_err(|refusal| (refusal.number, refusal.place));
            let right = right.map(|(lines, gates)| (lines, gates.to_vec()));
            assert_eq!(told, right, "{}", text.escape_ascii());
        }
    }

    #[test]
    fn the_simulator_writes_the_sample() {
        let told = export_real(3, &[3, 0, 2, 1, 0, 1], SAMPLE_REAL.len());
        assert_eq!(told, Ok(SAMPLE_REAL.to_string()));
    }
}
