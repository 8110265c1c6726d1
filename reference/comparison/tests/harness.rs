//! A difference and a thing not met each make a failing status.

use std::process::ExitCode;

use comparison::harness::{Verdict, count_and_tell};

/// `ExitCode` has no equality.
fn is_success(status: ExitCode) -> bool {
    format!("{status:?}") == format!("{:?}", ExitCode::SUCCESS)
}

#[test]
fn verdicts() {
    for (differences, is_long, times, shown, good) in [
        (0, true, 1, "0 differences, 0 not met", true),
        (0, false, 0, "0 differences, 0 not met", true),
        (0, true, 0, "0 differences, 1 not met", false),
        (3, true, 1, "3 differences, 0 not met", false),
        (3, false, 0, "3 differences, 0 not met", false),
    ] {
        let mut verdict = Verdict::of(differences, is_long);
        verdict.need("a test", times);
        assert_eq!(verdict.to_string(), shown);
        assert_eq!(is_success(verdict.status()), good, "{shown}");
    }
}

#[test]
fn ten_are_told() {
    let mut differences = 0;
    let told = (0..15).filter(|_| count_and_tell(&mut differences)).count();
    assert_eq!((told, differences), (10, 15));
}
