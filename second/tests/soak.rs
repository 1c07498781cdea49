// The soak: its long scripts and its count of byte times, alone and as a program.

use std::fs;
use std::path::PathBuf;
use std::process::{Command, Output};

use second::bench::{self, Bench};
use second::generate;
use second::script::{self, Parsed};

const SOAK: &str = env!("CARGO_BIN_EXE_soak");
const BENCH: &str = env!("CARGO_BIN_EXE_bench");
/// A program that is no bench.
const VECTORS: &str = env!("CARGO_BIN_EXE_vectors");

/// An empty directory to soak in, since a soak may leave scripts there.
fn empty_directory(name: &str) -> PathBuf {
    let path = PathBuf::from(env!("CARGO_TARGET_TMPDIR")).join(name);
    let _ = fs::remove_dir_all(&path);
    fs::create_dir_all(&path).expect("the directory can be made");
    path
}

fn run(directory: &PathBuf, arguments: &[&str]) -> Output {
    Command::new(SOAK)
        .args(arguments)
        .current_dir(directory)
        .output()
        .expect("the soak runs")
}

/// The byte times that the lines of an output tell.
fn told_byte_times(output: &str) -> u64 {
    let told = |line: &str| match line.as_bytes() {
        [b'G', ..] => u64::from_str_radix(&line[5..9], 16).expect("a number"),
        [b'B', ..] => u64::from(line.starts_with("B 00")),
        _ => 0,
    };
    output.lines().map(told).sum()
}

#[test]
fn a_bench_counts_the_byte_times_that_pass() {
    let mut bench = Bench::new();
    for text in ["B", "G 10", "G 0", "C 14 200", "G 5", "B", "P 0 800", "B"] {
        match script::parse(text.as_bytes()) {
            Parsed::Line(line) => bench.carry_out(&line).expect("the line is carried out"),
            _ => panic!("{} is a line", text),
        };
    }
    assert_eq!(bench.byte_times, 1 + 16 + 3 + 1);
}

#[test]
fn a_long_script_has_the_byte_times_that_its_output_tells() {
    let long = generate::long_script(5, 60_000);
    let output = bench::run(long.text.as_bytes());
    assert!(long.byte_times >= 60_000);
    assert_eq!(
        told_byte_times(&String::from_utf8_lossy(&output)),
        long.byte_times
    );
}

#[test]
fn a_seed_always_gives_the_same_long_script() {
    let text = |seed| generate::long_script(seed, 20_000).text;
    assert_eq!(text(7), text(7));
    assert_ne!(text(7), text(8));
}

#[test]
fn the_program_finds_the_model_equal_to_itself() {
    let directory = empty_directory("equal");
    let output = run(&directory, &["3", "50000", BENCH]);
    let byte_times = generate::long_script(3, 50_000).byte_times;
    assert_eq!(
        String::from_utf8_lossy(&output.stdout),
        format!(
            "seed 3: 1 scripts, {} byte times, 0 differences\n",
            byte_times
        )
    );
    assert!(output.status.success());
    assert!(!directory.join("target").exists());
}

#[test]
fn the_program_goes_on_until_enough_byte_times_have_passed() {
    let output = run(&empty_directory("enough"), &["3", "450000", BENCH]);
    let text = String::from_utf8_lossy(&output.stdout).to_string();
    let words: Vec<&str> = text.split(' ').collect();
    // Each is made for 200,000, and ends with the scene in which these have passed.
    assert!(["2", "3"].contains(&words[2]), "{}", text);
    assert!(words[4].parse::<u64>().expect("a number") >= 450_000);
    assert!(output.status.success());
}

#[test]
fn the_program_tells_the_first_difference_and_keeps_the_script() {
    let directory = empty_directory("different");
    let output = run(&directory, &["3", "50000", VECTORS]);
    let text = String::from_utf8_lossy(&output.stdout).to_string();
    assert!(text.starts_with("seed 3: output line 1 differs\n  asked by: script line 1: "));
    assert!(text.contains("\n  kept in: target/soak-3.bench\n"));
    assert!(text.ends_with(" byte times, 1 differences\n"));
    assert_eq!(output.status.code(), Some(1));
    let kept = fs::read_to_string(directory.join("target/soak-3.bench")).expect("it is kept");
    assert_eq!(kept, generate::long_script(3, 50_000).text);
}

#[test]
fn the_program_fails_where_the_command_is_not_there() {
    let directory = empty_directory("nothing");
    let output = run(&directory, &["3", "50000", "there-is-no-such-program"]);
    assert_eq!(output.status.code(), Some(2));
}

#[test]
fn the_program_fails_without_its_arguments() {
    let directory = empty_directory("arguments");
    for arguments in [
        &["3", "50000"][..],
        &["3", "many", BENCH],
        &["a", "1", BENCH],
    ] {
        assert_eq!(run(&directory, arguments).status.code(), Some(2));
    }
}
