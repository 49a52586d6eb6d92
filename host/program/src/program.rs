//! Starts the program, feeds it and hears what it says.

use std::cell::Cell;
use std::io::{self, ErrorKind, Write};
use std::iter;
use std::process::{Child, Command, Stdio};
use std::thread;
use std::time::Duration;

pub struct Program {
    words: Vec<String>,
    runs: Cell<u64>,
}

/// What the program said. It always ends with 0.
#[derive(PartialEq, Eq, Debug)]
pub struct Said {
    status: Option<i32>,
    text: String,
    complaint: String,
}

impl Said {
    pub fn text(text: &str) -> Said {
        Said {
            status: Some(0),
            text: text.to_string(),
            complaint: String::new(),
        }
    }

    pub fn complaint(complaint: &str) -> Said {
        Said {
            status: Some(0),
            text: String::new(),
            complaint: complaint.to_string(),
        }
    }
}

impl Program {
    pub fn new(words: Vec<String>) -> Program {
        Program {
            words,
            runs: Cell::new(0),
        }
    }

    pub fn runs(&self) -> u64 {
        self.runs.get()
    }

    pub fn is_emulated(&self) -> bool {
        self.words.len() > 1
    }

    pub fn on(&self, input: &[u8]) -> io::Result<Said> {
        self.on_pieces(iter::once(input), Duration::ZERO)
    }

    /// Hands the pieces over with a pause after each. The program may end before it has taken them all.
    pub fn on_pieces<'a>(
        &self,
        pieces: impl Iterator<Item = &'a [u8]>,
        pause: Duration,
    ) -> io::Result<Said> {
        let mut child = self.start(Command::new(&self.words[0]).args(&self.words[1..]))?;
        feed(&mut child, pieces, pause)?;
        heard(child)
    }

    /// Input and output are files of the caller's; only what goes to a pipe is heard.
    pub fn between(&self, input: Stdio, output: Stdio) -> io::Result<Said> {
        self.runs.set(self.runs.get() + 1);
        let mut command = Command::new(&self.words[0]);
        command.args(&self.words[1..]);
        heard(
            command
                .stdin(input)
                .stdout(output)
                .stderr(Stdio::piped())
                .spawn()?,
        )
    }

    /// The shell redirects the program's files, as `<&-` does, before it starts.
    pub fn redirected(&self, redirection: &str, input: &[u8]) -> io::Result<Said> {
        let script = format!("exec \"$@\" {}", redirection);
        let mut shell = Command::new("sh");
        let mut child = self.start(shell.args(["-c", &script, "sh"]).args(&self.words))?;
        feed(&mut child, iter::once(input), Duration::ZERO)?;
        heard(child)
    }

    fn start(&self, command: &mut Command) -> io::Result<Child> {
        self.runs.set(self.runs.get() + 1);
        let command = command.stdin(Stdio::piped()).stdout(Stdio::piped());
        command.stderr(Stdio::piped()).spawn()
    }
}

fn feed<'a>(
    child: &mut Child,
    pieces: impl Iterator<Item = &'a [u8]>,
    pause: Duration,
) -> io::Result<()> {
    let mut input = child.stdin.take().expect("the input is a pipe");
    for piece in pieces {
        match input.write_all(piece) {
            Err(error) if error.kind() == ErrorKind::BrokenPipe => break,
            written => written?,
        }
        thread::sleep(pause);
    }
    Ok(())
}

fn heard(child: Child) -> io::Result<Said> {
    let output = child.wait_with_output()?;
    Ok(Said {
        status: output.status.code(),
        text: String::from_utf8_lossy(&output.stdout).into_owned(),
        complaint: String::from_utf8_lossy(&output.stderr).into_owned(),
    })
}
