//! Reads a job from standard input, adds to its set a test for each fault that escapes, class by class, and prints the report
//! on the job with that set.
//!
//!     cargo run --manifest-path examples/rust/Cargo.toml < my.job

use nufsadeem::{report, Class, Job};
use std::error::Error;
use std::io::Read;

fn main() {
    if let Err(error) = complete() {
        eprintln!("{}", error);
        std::process::exit(1);
    }
}

fn complete() -> Result<(), Box<dyn Error>> {
    let mut bytes = Vec::new();
    std::io::stdin().read_to_end(&mut bytes)?;
    let mut job = Job::read(&bytes)?;
    for class in Class::ALL {
        if job.classes >> (class as u32 - 1) & 1 == 0 {
            continue;
        }
        while let Some(fault) = job.circuit().judge(&job.vectors, class)?.first_uncaught {
            let test = job.circuit().test_for(fault)?;
            println!("{} escapes; vector {} catches it", fault, test);
            job.vectors.push(test);
        }
    }
    print!("{}", report(&job.write()?));
    Ok(())
}
