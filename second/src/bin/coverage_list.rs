// Counts the inputs of many seeds that show it, where a list gets a sentence wrong.

#![forbid(unsafe_code)]

use std::process::ExitCode;

fn main() -> ExitCode {
    let arguments: Vec<String> = std::env::args().skip(1).collect();
    second::coverage::coverage_list(&arguments)
}
