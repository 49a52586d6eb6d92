use model::Job;

/// The report on [`longest_job`]. Each line has all the digits that it can have.
pub const LONGEST_TEXT: &str = "J 32 1024 2048\nS 32779 32780 1002 30 0\nM 1023 1024 1000\nC 15333 15334 1001 15\nX 16381 16410 1000 15\n";

/// A job as long as a job can be, with a report as long as a report can be.
/// Lines 0 to 14 control nearly every gate, and line 31 is its target.
pub fn longest_job() -> Job {
    let common = (1 << 15) - 1;
    let mut gates = vec![[common, 0, 31]; 1024];
    // line 31 is 0 here whenever the other controls are 1, so that this gate never inverts
    gates[999] = [common | 1 << 31, 0, 30];
    gates[1000] = [1 << 15 | 1 << 31, 0, 28];
    // line 30 is 0 in every run after this one
    gates[1001] = [1 << 29, 0, 30];
    Job {
        lines: 32,
        classes: 15,
        gates: gates.concat(),
        vectors: vectors(),
    }
}

/// One zero, on each line in turn, save that lines 29 and 30 are zero together and line 31 along with 0 and 1.
fn vectors() -> Vec<u32> {
    let mut vectors: Vec<u32> = (0..29).map(|line| !(1 << line)).collect();
    vectors.push(!(1 << 29 | 1 << 30));
    vectors.push(!(1 << 31 | 1 << 1 | 1));
    vectors.resize(2048, u32::MAX);
    vectors
}

#[cfg(test)]
mod tests {
    use super::{longest_job, LONGEST_TEXT};
    use model::{image_of, report, LONGEST_JOB};

    #[test]
    fn both_are_the_longest() {
        assert_eq!(image_of(&longest_job()).len(), LONGEST_JOB);
        assert_eq!(LONGEST_TEXT.len(), 100);
    }

    #[test]
    fn the_simulator_says_the_same() {
        assert_eq!(report(&image_of(&longest_job())), LONGEST_TEXT);
    }
}
