// Compares another bench with the model over long scripts until so many byte times have passed.

#![forbid(unsafe_code)]

use std::process::ExitCode;

fn main() -> ExitCode {
    let arguments: Vec<String> = std::env::args().skip(1).collect();
    second::soak::soak(&arguments)
}
