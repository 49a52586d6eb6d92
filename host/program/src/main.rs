//! Runs the report program and holds what it says against the simulator. The arguments are the words that start it.

mod program;

use inputs::{longest_job, make, Random, LONGEST_TEXT};
use model::{image_of, Job, LONGEST_JOB};
use program::{Program, Said};
use std::fs::{File, OpenOptions};
use std::io::{self, Write};
use std::os::unix::io::OwnedFd;
use std::os::unix::net::UnixStream;
use std::process::{ExitCode, Stdio};
use std::time::Duration;

const SEED: u64 = 2026;
const JOBS: u64 = 1000;
const MUCH: usize = 30_000_000;

const UNREAD: &str = "report: the input could not be read\n";
const UNWRITTEN: &str = "report: the report could not be written\n";

fn main() -> ExitCode {
    let program = Program::new(std::env::args().skip(1).collect());
    let tests: [(&str, Test); 7] = [
        ("the longest job, and longer inputs", longest),
        ("input in small pieces", pieces),
        ("a full device", full_device),
        ("an input that is no file", directory),
        ("an input that breaks off", broken_off),
        ("closed input and output", closed),
        ("whole, damaged and random jobs", jobs),
    ];
    for (subject, test) in tests {
        if let Err(words) = test(&program) {
            println!("host: the program: {}: {}", subject, words);
            return ExitCode::FAILURE;
        }
    }
    println!(
        "host: the program was run {} times, and each time said what it should",
        program.runs()
    );
    ExitCode::SUCCESS
}

type Test = fn(&Program) -> Result<(), String>;

/// The program reads one byte more than the longest job has; what stands behind that changes nothing.
fn longest(program: &Program) -> Result<(), String> {
    let image = image_of(&longest_job());
    same(program.on(&image), Said::text(LONGEST_TEXT))?;
    for length in [LONGEST_JOB + 1, LONGEST_JOB + 2, MUCH] {
        let mut longer = image.clone();
        longer.resize(length, 0);
        same(program.on(&longer), Said::text(&model::report(&longer)))?;
    }
    let zeros = vec![0; MUCH];
    same(program.on(&zeros), Said::text(&model::report(&zeros)))
}

fn pieces(program: &Program) -> Result<(), String> {
    let job = sample();
    let slowly = program.on_pieces(job.chunks(1), Duration::from_millis(1));
    same(slowly, Said::text(&model::report(&job)))?;
    let job = image_of(&longest_job());
    let slowly = program.on_pieces(job.chunks(1000), Duration::from_millis(1));
    same(slowly, Said::text(LONGEST_TEXT))
}

fn full_device(program: &Program) -> Result<(), String> {
    let full = OpenOptions::new().write(true).open("/dev/full");
    let said = full.and_then(|full| program.between(holding(&sample())?, full.into()));
    same(said, Said::complaint(UNWRITTEN))
}

fn directory(program: &Program) -> Result<(), String> {
    let directory = File::open("/");
    let said = directory.and_then(|input| program.between(input.into(), Stdio::piped()));
    same(said, Said::complaint(UNREAD))
}

/// A whole job, and then no end of the input but a read that fails: the other side went away with bytes unread.
fn broken_off(program: &Program) -> Result<(), String> {
    let said = UnixStream::pair().and_then(|(mut input, mut other)| {
        input.write_all(b"?")?;
        other.write_all(&sample())?;
        drop(other);
        program.between(OwnedFd::from(input).into(), Stdio::piped())
    });
    same(said, Said::complaint(UNREAD))
}

/// Where an emulator starts the program this is left out: files that the emulator opens take the places of closed ones.
fn closed(program: &Program) -> Result<(), String> {
    if program.is_emulated() {
        return Ok(());
    }
    same(program.redirected("<&-", &[]), Said::complaint(UNREAD))?;
    same(
        program.redirected(">&-", &sample()),
        Said::complaint(UNWRITTEN),
    )
}

/// A tenth of them where an emulator starts the program, which takes its time.
fn jobs(program: &Program) -> Result<(), String> {
    let rounds = if program.is_emulated() {
        JOBS / 10
    } else {
        JOBS
    };
    for round in 0..rounds {
        let mut random = Random::of_round(SEED, round);
        let mut drawn = make::circuit(&mut random);
        if random.one_in(5) {
            make::damage(&mut random, &mut drawn);
        }
        let job = make::job(&mut random, &drawn);
        let bytes = make::image(&mut random, &job);
        same(program.on(&bytes), Said::text(&model::report(&bytes)))
            .map_err(|words| format!("{}\nseed {}, round {}", words, SEED, round))?;
    }
    Ok(())
}

fn sample() -> Vec<u8> {
    image_of(&Job {
        lines: 3,
        classes: 15,
        gates: vec![3, 0, 2, 1, 0, 1],
        vectors: vec![0, 3, 5],
    })
}

/// An input that holds these bytes, few enough for a socket to take, and then ends.
fn holding(bytes: &[u8]) -> io::Result<Stdio> {
    let (input, mut other) = UnixStream::pair()?;
    other.write_all(bytes)?;
    Ok(OwnedFd::from(input).into())
}

fn same(said: io::Result<Said>, due: Said) -> Result<(), String> {
    match said {
        Err(error) => Err(format!("it could not be run: {}", error)),
        Ok(said) if said == due => Ok(()),
        Ok(said) => Err(format!("it says {:?}, and should say {:?}", said, due)),
    }
}
