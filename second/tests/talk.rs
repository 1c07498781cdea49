// A bench answers a line when it is typed: the conversation as a program.

use std::fs::File;
use std::process::{Command, Output, Stdio};

const TALK: &str = env!("CARGO_BIN_EXE_talk");
const BENCH: &str = env!("CARGO_BIN_EXE_bench");
/// A script with comments, empty lines and every kind of answer to a host.
const SCRIPT: &str = concat!(env!("CARGO_MANIFEST_DIR"), "/../examples/late-host.bench");

fn talk(arguments: &[&str]) -> Output {
    let script = File::open(SCRIPT).expect("the script is there");
    Command::new(TALK)
        .args(arguments)
        .stdin(Stdio::from(script))
        .output()
        .expect("the conversation runs")
}

fn printed(output: &Output) -> String {
    String::from_utf8_lossy(&output.stdout).to_string()
}

#[test]
fn the_model_answers_what_is_typed() {
    let output = talk(&["30", BENCH]);
    assert_eq!(printed(&output), "what was typed was answered each time\n");
    assert!(output.status.success());
}

/// It prints what a bench prints, but only when the input is over.
#[test]
fn a_program_that_holds_its_answers_back_is_found_out() {
    let whole = "script=$(cat); printf '%s\\n' \"$script\" | \"$0\"";
    let output = talk(&["1", "sh", "-c", whole, BENCH]);
    let text = printed(&output);
    assert!(text.starts_with("line 1 of the answers differs\n  expected: P 00 | "));
    assert!(text.ends_with("\n  received in time: (nothing)\n"));
    assert_eq!(output.status.code(), Some(1));
}

/// It prints a line only when the next one is printed too.
#[test]
fn a_program_that_holds_one_answer_back_is_found_out() {
    let late =
        "\"$0\" | { read -r first; while read -r next; do echo \"$first\"; first=$next; done; }";
    let output = talk(&["1", "sh", "-c", late, BENCH]);
    assert!(printed(&output).ends_with("\n  received in time: (nothing)\n"));
    assert_eq!(output.status.code(), Some(1));
}

#[test]
fn a_wrong_answer_is_found_out() {
    let output = talk(&[
        "1",
        "sh",
        "-c",
        "while read -r line; do echo \"$line\"; done",
    ]);
    assert!(printed(&output).starts_with("line 1 of the answers differs\n"));
    assert_eq!(output.status.code(), Some(1));
}

#[test]
fn nobody_to_talk_with_is_an_error() {
    assert_eq!(
        talk(&["1", "there-is-no-such-program"]).status.code(),
        Some(2)
    );
    assert_eq!(talk(&["1"]).status.code(), Some(2));
    assert_eq!(talk(&["soon", BENCH]).status.code(), Some(2));
}
