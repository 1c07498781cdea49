// Compares another list program with the model over the picture inputs of many seeds.

#![forbid(unsafe_code)]

use std::process::ExitCode;

use second::compare::{self, Case};
use second::{list, pictures};

fn main() -> ExitCode {
    let arguments: Vec<String> = std::env::args().skip(1).collect();
    compare::compare_seeds(&arguments, "inputs", case)
}

fn case(seed: u64) -> Case {
    let input = pictures::input(seed);
    Case {
        expected: list::text(&input).into_bytes(),
        asked_by: Vec::new(),
        input,
    }
}
