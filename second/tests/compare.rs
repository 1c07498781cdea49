// The comparison of two outputs, alone and as a program.

use std::process::{Command, Output};

use second::compare::first_difference;

const COMPARE: &str = env!("CARGO_BIN_EXE_compare");
const COMPARE_LIST: &str = env!("CARGO_BIN_EXE_compare_list");

/// Compares a program over the seeds 10 to 13.
fn run(comparison: &str, program: &str) -> Output {
    Command::new(comparison)
        .args(["10", "14", program])
        .output()
        .expect("the comparison runs")
}

#[test]
fn equal_outputs_have_no_difference() {
    assert_eq!(first_difference(b"", b""), None);
    assert_eq!(first_difference(b"a\nb\n", b"a\nb\n"), None);
}

#[test]
fn the_first_line_that_differs_is_told() {
    let difference = first_difference(b"a\nb\nc\n", b"a\nx\ny\n").expect("they differ");
    assert_eq!(difference.line, 2);
    assert_eq!(difference.expected, "b");
    assert_eq!(difference.received, "x");
}

#[test]
fn an_output_that_ends_early_differs() {
    let difference = first_difference(b"a\nb\n", b"a\n").expect("they differ");
    assert_eq!(difference.line, 2);
    assert_eq!(difference.received, "(nothing)");
    let difference = first_difference(b"a\n", b"a").expect("they differ");
    assert_eq!(difference.received, "a (no newline)");
}

#[test]
fn the_program_finds_the_model_equal_to_itself() {
    let output = run(COMPARE, env!("CARGO_BIN_EXE_bench"));
    assert_eq!(output.stdout, b"4 scripts, 0 differences\n");
    assert!(output.status.success());
    let output = run(COMPARE_LIST, env!("CARGO_BIN_EXE_list"));
    assert_eq!(output.stdout, b"4 inputs, 0 differences\n");
    assert!(output.status.success());
}

#[test]
fn the_program_counts_differences_and_fails() {
    let output = run(COMPARE, env!("CARGO_BIN_EXE_vectors"));
    let text = String::from_utf8_lossy(&output.stdout).to_string();
    assert!(text.starts_with("seed 10: output line 1 differs\n  asked by: script line 1: W "));
    assert!(text.ends_with("4 scripts, 4 differences\n"));
    assert_eq!(output.status.code(), Some(1));
}

#[test]
fn the_program_fails_where_the_command_is_not_there() {
    let output = run(COMPARE, "there-is-no-such-program");
    assert_eq!(output.status.code(), Some(2));
}

#[test]
fn the_program_fails_without_a_command() {
    let output = Command::new(COMPARE)
        .args(["10", "14"])
        .output()
        .expect("the comparison runs");
    assert_eq!(output.status.code(), Some(2));
}
