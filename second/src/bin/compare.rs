// Compares another bench with the model over the scripts of many seeds.

#![forbid(unsafe_code)]

use std::process::ExitCode;

use second::compare::{self, Case};
use second::{bench, generate, script};

fn main() -> ExitCode {
    let arguments: Vec<String> = std::env::args().skip(1).collect();
    compare::compare_seeds(&arguments, "scripts", case)
}

fn case(seed: u64) -> Case {
    let text = generate::script(seed);
    Case {
        expected: bench::run(text.as_bytes()),
        asked_by: script::printing_lines(&text),
        input: text.into_bytes(),
    }
}
