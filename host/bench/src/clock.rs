//! Medians of two ways to do the same job, in turn, so that both meet the same machine.

use std::fmt::Debug;
use std::time::Instant;

pub struct Row {
    pub job: String,
    pub library: f64,
    pub plain: f64,
}

/// Times both ways `runs` times and holds their answers against each other. In seconds.
pub fn row<T: PartialEq + Debug>(
    job: &str,
    runs: usize,
    library: impl Fn() -> T,
    plain: impl Fn() -> T,
) -> Row {
    let mut times = [Vec::new(), Vec::new()];
    for _ in 0..runs {
        let from_library = timed(&mut times[0], &library);
        let from_plain = timed(&mut times[1], &plain);
        assert_eq!(from_library, from_plain, "{}: the answers differ", job);
    }
    let [library, plain] = times.map(median);
    Row {
        job: job.to_string(),
        library,
        plain,
    }
}

/// Hides a value from the optimiser, so that no run can be left out or shared.
pub fn keep<T: Copy>(value: T) -> T {
    unsafe { std::ptr::read_volatile(&value) }
}

fn timed<T>(times: &mut Vec<f64>, job: impl Fn() -> T) -> T {
    let start = Instant::now();
    let answer = job();
    times.push(start.elapsed().as_secs_f64());
    answer
}

fn median(mut times: Vec<f64>) -> f64 {
    times.sort_by(f64::total_cmp);
    times[times.len() / 2]
}
