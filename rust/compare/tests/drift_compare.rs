//! Runs the comparison as a user does.

use std::process::Command;

/// Exit code, output and error output of a comparison with these arguments.
fn compare(arguments: &[&str]) -> (Option<i32>, String, String) {
    let output = Command::new(env!("CARGO_BIN_EXE_drift-compare"))
        .args(arguments)
        .output()
        .expect("drift-compare runs");
    let text = |bytes| String::from_utf8(bytes).expect("text");
    (
        output.status.code(),
        text(output.stdout),
        text(output.stderr),
    )
}

#[test]
fn the_static_library_agrees_on_single_posts() {
    let (code, output, error) = compare(&["posts", "1", "60000"]);
    assert_eq!((code, error.as_str()), (Some(0), ""), "{output}");
    let first = "posts: static library and second implementation agree (seed 1)\n";
    assert!(output.starts_with(first), "{output}");
    let all = output.lines().find(|line| line.starts_with("all"));
    assert!(all.is_some_and(|line| line.ends_with(" 60000")), "{output}");
}

#[test]
fn too_few_requests_fail() {
    for count in ["0", "5"] {
        let (code, output, error) = compare(&["posts", "1", count]);
        assert_eq!((code, error.as_str()), (Some(1), ""), "{output}");
        for what in ["order: order sent", "hear: 12, only: log repeats"] {
            let line = format!("{what} never came, so nothing is compared for it\n");
            assert!(output.contains(&line), "{output}");
        }
    }
}

#[test]
fn every_part_is_run_and_told() {
    // With so few inputs not everything comes, but nothing differs.
    let (code, output, error) = compare(&["3", "10", "10", "10", "2", "10", "2"]);
    assert_eq!((code, error.as_str()), (Some(1), ""), "{output}");
    for line in [
        "frames: static library and second implementation agree (seed 3)",
        "posts: static library and second implementation agree (seed 3)",
        "scripts: static library and second implementation agree (seed 3)",
        "lists: demand 3 holds for the static library (seed 3)",
        "csv: static library and second implementation agree (seed 3)",
        "grants: request K2's promise holds for the static library (seed 3)",
    ] {
        assert!(output.lines().any(|told| told == line), "{line}\n{output}");
    }
}

#[test]
fn one_part_is_run_alone() {
    let (code, output, error) = compare(&["second-lists", "1", "60", "5"]);
    assert_eq!((code, error.as_str()), (Some(0), ""), "{output}");
    assert!(output.starts_with("lists: demand 3 holds for the second implementation (seed 1)\n"));
    let (code, output, error) = compare(&["second-grants", "1", "60", "5"]);
    assert_eq!((code, error.as_str()), (Some(0), ""), "{output}");
    let first = "grants: request K2's promise holds for the second implementation (seed 1)\n";
    assert!(output.starts_with(first), "{output}");
    for part in ["frames", "csv"] {
        let (code, output, error) = compare(&[part, "1", "1000"]);
        assert_eq!((code, error.as_str()), (Some(0), ""), "{output}");
        assert!(output.starts_with(&format!("{part}: ")), "{output}");
        assert!(!output.contains("posts: "), "{output}");
    }
}

#[test]
fn bad_arguments_are_told() {
    let bad: [&[&str]; 5] = [
        &["x"],
        &["1", "2", "-3"],
        &["1", "2", "3", "4", "5", "6", "7", "8"],
        &["scripts", "1"],
        &["posts", "1", "2", "3"],
    ];
    for arguments in bad {
        let (code, output, error) = compare(arguments);
        assert_eq!((code, output.as_str()), (Some(2), ""));
        assert!(error.starts_with("usage: "), "{error}");
    }
}
