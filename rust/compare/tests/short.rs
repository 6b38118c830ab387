//! A short comparison, for every run of the tests.

#[test]
fn the_two_implementations_agree() {
    match compare::run(5_000, 7, 0, |_| {}) {
        Ok(counts) => {
            for (number, &count) in counts.numbers.iter().enumerate() {
                assert!(count >= 20, "number {number} was given only {count} times");
            }
            assert!(counts.verdicts.iter().all(|&count| count >= 500));
        }
        Err(found) => panic!("seed 7, case {}: {}", found.number, found.difference.what),
    }
}

#[test]
fn a_case_is_the_same_whenever_it_is_run() {
    let text = |case: u64| {
        let mut dice = compare::dice::Dice::of_case(3, case);
        format!("{:?}", compare::case::Case::any(&mut dice))
    };
    for case in 0..50 {
        assert_eq!(text(case), text(case));
    }
    assert_ne!(text(1), text(2));
}
