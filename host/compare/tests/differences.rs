//! The comparison in short, for `cargo test`.

#[test]
fn no_fixed_case_differs() {
    for (subject, part) in compare::FIXED {
        assert!(told(compare::fixed(subject, part)) > 0);
    }
}

#[test]
fn no_random_case_differs() {
    assert!(told(compare::random(1, 300)) > 0);
}

fn told(compared: Result<u64, String>) -> u64 {
    match compared {
        Ok(cases) => cases,
        Err(difference) => panic!("{}", difference),
    }
}
