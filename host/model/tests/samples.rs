//! The samples of docs/SCOPE.md, on its sample circuit.

use model::*;

const LINES: u32 = 3;
const GATES: [u32; 6] = [3, 0, 2, 1, 0, 1];

fn sample(vectors: &[u32]) -> Job {
    Job {
        lines: LINES,
        classes: 15,
        gates: GATES.to_vec(),
        vectors: vectors.to_vec(),
    }
}

#[test]
fn levels_of_four_inputs() {
    for (input, levels) in [
        (3, [3, 7, 5]),
        (7, [7, 3, 1]),
        (1, [1, 1, 3]),
        (6, [6, 6, 6]),
    ] {
        for (level, state) in levels.iter().enumerate() {
            assert_eq!(forward(LINES, &GATES, level as u32, input), Ok(*state));
            assert_eq!(backward(LINES, &GATES, level as u32, *state), Ok(input));
        }
    }
}

#[test]
fn both_sets() {
    assert_eq!(backward_set(LINES, &GATES, 4), Ok(vec![0, 7, 3, 5]));
    assert_eq!(compact_bound(LINES, &GATES), Ok(5));
    assert_eq!(compact_set(LINES, &GATES, 5), Ok(vec![0, 3, 5]));
    assert_eq!(compact_set(1, &[], 2), Ok(vec![0, 1]));
}

#[test]
fn first_uncaught() {
    let told = |vectors: &[u32]| {
        let verdict = judge(LINES, &GATES, vectors, 1).unwrap();
        let first = verdict.first_uncaught.map(Fault::words);
        (verdict.caught, verdict.total, first)
    };
    assert_eq!(told(&[0, 7]), (14, 16, Some([1, 1, 2, 0])));
    assert_eq!(told(&[0, 7, 3]), (15, 16, Some([1, 2, 1, 0])));
    let empty = judge(1, &[], &[], 1).unwrap();
    assert_eq!((empty.caught, empty.total), (0, 2));
    assert_eq!(empty.first_uncaught.map(Fault::words), Some([1, 0, 0, 0]));
    assert_eq!(judge(1, &[], &[], 2).unwrap().first_uncaught, None);
}

#[test]
fn inputs_that_catch() {
    let catching = |fault| -> Vec<u32> {
        (0..8)
            .filter(|input| catches(LINES, &GATES, *input, fault) == Ok(true))
            .collect()
    };
    assert_eq!(catching([2, 1, 0, 0]), [3, 7]);
    assert_eq!(catching([3, 1, 0, 0]), [2, 6]);
    assert_eq!(catching([4, 2, 2, 0]), [1, 7]);
}

#[test]
fn a_fault_hidden_by_a_later_one() {
    let early = [1, 0, 2, 1];
    let late = [1, 1, 2, 0];
    assert_eq!(catches(LINES, &GATES, 0, early), Ok(true));
    assert_eq!(
        catches_multiple(LINES, &GATES, 0, &[early, late].concat()),
        Ok(false)
    );
}

#[test]
fn image_and_report() {
    let job = sample(&[0, 3, 5]);
    let image = write_job(&job, 64).unwrap();
    assert_eq!(image.len(), 64);
    assert_eq!(&image[..8], [1, 0, 3, 0, 15, 0, 0, 0]);
    assert_eq!(read_job(&image, 6, 3), Ok(job));
    assert_eq!(
        report(&image),
        "J 3 2 3\nS 16 16 ok\nM 2 2 ok\nC 2 3 1 0\nX 0 1 2 2\n"
    );
    assert_eq!(report(&image[..63]), "E 6 0\n");
    assert_eq!(LONGEST_JOB, 20508);
}

#[test]
fn dropping_keeps_the_order() {
    let list = [[1, 0, 0, 0], [2, 1, 0, 0], [1, 0, 0, 1], [3, 1, 0, 0]].concat();
    let left = [[1, 0, 0, 0], [2, 1, 0, 0], [3, 1, 0, 0], BLANK].concat();
    assert_eq!(drop_caught(LINES, &GATES, 0, &list), Ok((left, 3)));
}
