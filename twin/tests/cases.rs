//! The reports of the repository's plans, byte for byte.

use std::fs;
use std::path::PathBuf;

#[cfg(proved)]
use twin::proved::{self, Failure};
use twin::report::report;

fn crates(path: &str) -> PathBuf {
    PathBuf::from(env!("CARGO_MANIFEST_DIR")).join("../crates").join(path)
}

fn text(path: &str) -> String {
    fs::read_to_string(crates(path)).unwrap_or_else(|error| panic!("{path}: {error}"))
}

#[test]
fn sample_plan() {
    let plan = fs::read(crates("bench/stdin")).unwrap();
    assert_eq!(report(&plan), text("bench/stdout"));
}

/// The expected output has the name of each plan and then its report.
#[test]
fn edge_plans_and_damaged_plans() {
    let mut reports = String::new();
    for name in text("cases/args").split_whitespace() {
        let plan = fs::read(crates("cases/data").join(name)).unwrap();
        reports += name;
        reports += "\n";
        reports += &report(&plan);
    }
    for (line, (ours, expected)) in reports.lines().zip(text("cases/stdout").lines()).enumerate() {
        assert_eq!(ours, expected, "line {}", line + 1);
    }
    assert_eq!(reports, text("cases/stdout"));
}

#[cfg(proved)]
#[test]
fn proved_reports_are_the_same() {
    for name in text("cases/args").split_whitespace() {
        let plan = fs::read(crates("cases/data").join(name)).unwrap();
        assert_eq!(proved::report(&plan), Ok(report(&plan).into_bytes()), "{name}");
    }
}

#[cfg(proved)]
#[test]
fn a_buffer_that_is_too_short_is_left_alone() {
    let plan = fs::read(crates("bench/stdin")).unwrap();
    let expected = text("bench/stdout");
    let mut out = vec![b'?'; expected.len() + 1];
    for length in 0..expected.len() {
        let needed = Failure::TooShort(expected.len());
        assert_eq!(proved::report_into(&plan, &mut out[..length]), Err(needed));
    }
    assert!(out.iter().all(|&byte| byte == b'?'));
    assert_eq!(proved::report_into(&plan, &mut out), Ok(expected.len()));
    assert_eq!(out, [expected.as_bytes(), b"?"].concat());
}
