//! What a site is, what names none, and how many there are.

use model::*;

const LINES: u32 = 3;
const GATES: [u32; 6] = [3, 0, 2, 1, 0, 1];

/// Line 2 at level 2 of the sample circuit, whose gate 2 does not touch it.
const NO_SITE: [u32; 4] = [1, 2, 2, 0];

fn circuit(lines: u32, gates: &[u32]) -> Circuit {
    Circuit::checked(lines, gates, 0).unwrap()
}

/// Levels and lines, in order.
fn sites(circuit: &Circuit) -> Vec<(usize, u32)> {
    let levels = 0..=circuit.depth() + 1;
    levels
        .flat_map(|level| (0..=circuit.lines).map(move |line| (level, line)))
        .filter(|(level, line)| circuit.is_site(*level, *line))
        .collect()
}

fn total(lines: u32, gates: &[u32]) -> u32 {
    judge(lines, gates, &[], 1).unwrap().total
}

fn refused<T>(number: u32, place: u32) -> Told<T> {
    Err(Refusal { number, place })
}

#[test]
fn the_sample_has_8_sites_and_16_faults() {
    let sample = circuit(LINES, &GATES);
    let all = [
        (0, 0),
        (0, 1),
        (0, 2),
        (1, 0),
        (1, 1),
        (1, 2),
        (2, 0),
        (2, 1),
    ];
    assert_eq!(sites(&sample), all);
    assert_eq!(sample.sites(), 8);
    assert_eq!(total(LINES, &GATES), 16);
    let faults = Fault::all(&sample, 1).into_iter().map(Fault::words);
    let in_order = all.iter().flat_map(|(level, line)| {
        let values = [0, 1];
        values.map(|value| [1, *level as u32, *line, value])
    });
    assert!(faults.eq(in_order));
}

#[test]
fn level_0_takes_any_line() {
    for lines in 1..=32 {
        for gates in [&[][..], &[0, 0, 0]] {
            for line in 0..lines {
                assert_eq!(catches(lines, gates, 0, [1, 0, line, 1]), Ok(true));
                assert_eq!(catches(lines, gates, 0, [1, 0, line, 0]), Ok(false));
            }
            assert_eq!(catches(lines, gates, 0, [1, 0, lines, 0]), refused(9, 1));
        }
    }
}

#[test]
fn a_circuit_without_gates_has_a_site_for_each_line() {
    for lines in 1..=32 {
        assert_eq!(circuit(lines, &[]).sites(), lines as usize);
        assert_eq!(total(lines, &[]), 2 * lines);
    }
}

#[test]
fn a_line_that_no_gate_touches_is_there_at_level_0_alone() {
    let gates = [1, 0, 2, 4, 0, 0];
    let all = [(0, 0), (0, 1), (0, 2), (1, 0), (1, 2), (2, 0), (2, 2)];
    assert_eq!(sites(&circuit(3, &gates)), all);
    assert_eq!(total(3, &gates), 14);
    for value in 0..2 {
        assert!(catches(3, &gates, 0, [1, 0, 1, value]).is_ok());
        assert_eq!(catches(3, &gates, 0, [1, 1, 1, value]), refused(9, 1));
        assert_eq!(catches(3, &gates, 0, [1, 2, 1, value]), refused(9, 1));
    }
    // it is 0 in both vectors
    let verdict = judge(3, &gates, &[0, 5], 1).unwrap();
    let first = verdict.first_uncaught.map(Fault::words);
    assert_eq!(first, Some([1, 0, 1, 0]));
}

#[test]
fn no_site_asked_alone() {
    assert_eq!(catches(LINES, &GATES, 0, NO_SITE), refused(9, 1));
    assert_eq!(test_for(LINES, &GATES, NO_SITE), refused(9, 1));
    let site = [1, 2, 1, 0];
    assert_eq!(catches(LINES, &GATES, 0, site), Ok(false));
    assert_eq!(test_for(LINES, &GATES, site), Ok(5));
}

#[test]
fn no_site_in_a_list() {
    let sound = [[1, 2, 1, 0], [2, 1, 0, 0], [4, 2, 2, 0]];
    for at in 0..=sound.len() {
        let list = [&sound[..at], &[NO_SITE], &sound[at..]].concat().concat();
        let told = drop_caught(LINES, &GATES, 0, &list);
        assert_eq!(told, refused(9, at as u32 + 1));
    }
}

#[test]
fn no_site_in_a_multiple_fault() {
    let told = |entries: &[[u32; 4]]| catches_multiple(LINES, &GATES, 0, &entries.concat());
    let site = [1, 0, 2, 1];
    assert_eq!(told(&[site]), Ok(true));
    assert_eq!(told(&[NO_SITE]), refused(9, 1));
    assert_eq!(told(&[site, NO_SITE]), refused(9, 2));
    // 9 is told before 13, of a site twice and of too many entries
    assert_eq!(told(&[site, site]), refused(13, 0));
    assert_eq!(told(&[NO_SITE, NO_SITE]), refused(9, 1));
    assert_eq!(told(&[site, site, NO_SITE]), refused(9, 3));
    assert_eq!(told(&[site; 257]), refused(13, 0));
    assert_eq!(
        told(&[&[site; 257][..], &[NO_SITE]].concat()),
        refused(9, 258)
    );
}

/// All circuits of two gates on three lines.
fn small_circuits() -> Vec<Circuit> {
    let gates: Vec<[u32; 3]> = (0..24)
        .map(|number| [number % 8, 0, number / 8])
        .filter(|[controls, _, target]| controls >> target & 1 == 0)
        .collect();
    let pairs = gates
        .iter()
        .flat_map(|first| gates.iter().map(move |second| [*first, *second].concat()));
    pairs.map(|words| circuit(3, &words)).collect()
}

#[test]
fn as_many_sites_as_are_counted() {
    for circuit in small_circuits() {
        assert_eq!(sites(&circuit).len(), circuit.sites());
        assert_eq!(Fault::all(&circuit, 1).len(), 2 * circuit.sites());
    }
}

/// So nothing is lost by what is no site.
#[test]
fn a_line_stuck_at_no_site_gives_the_outputs_of_its_last_site_before() {
    for circuit in small_circuits() {
        for (level, line) in [(1, 0), (1, 1), (1, 2), (2, 0), (2, 1), (2, 2)] {
            let last = (0..=level).rev().find(|at| circuit.is_site(*at, line));
            for (input, value) in (0..16).map(|number| (number / 2, number % 2)) {
                let output = |level| {
                    let fault = Fault::StuckAt { level, line, value };
                    fault.faulty_output(&circuit, &circuit.levels(input))
                };
                assert_eq!(last.map(output), Some(output(level)));
            }
        }
    }
}

#[test]
fn the_room_of_a_compact_set() {
    // 4 lines and gates of one line: 7, 8, 15 and 16 sites
    for (depth, bound) in [(3, 4), (4, 5), (11, 5), (12, 6)] {
        let gates = [0, 0, 0].repeat(depth);
        assert_eq!(compact_bound(4, &gates), Ok(bound));
        assert_eq!(compact_set(4, &gates, bound - 1), refused(10, 0));
        assert!(compact_set(4, &gates, bound).is_ok());
    }
}
