// Prints the bench script of a seed.

#![forbid(unsafe_code)]

use std::process::ExitCode;

fn main() -> ExitCode {
    let seed = std::env::args().nth(1).and_then(|text| text.parse().ok());
    match seed {
        Some(seed) => {
            print!("{}", second::generate::script(seed));
            ExitCode::SUCCESS
        }
        None => {
            eprintln!("usage: generate SEED");
            ExitCode::from(2)
        }
    }
}
