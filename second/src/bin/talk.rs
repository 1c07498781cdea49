// Talks with another bench by the lines of the script on standard input.

#![forbid(unsafe_code)]

use std::io::{self, Read};
use std::process::ExitCode;

fn main() -> ExitCode {
    let arguments: Vec<String> = std::env::args().skip(1).collect();
    let mut script = Vec::new();
    match io::stdin().read_to_end(&mut script) {
        Ok(_) => second::talk::talk(&arguments, &script),
        Err(error) => {
            eprintln!("talk: standard input: {}", error);
            ExitCode::from(2)
        }
    }
}
