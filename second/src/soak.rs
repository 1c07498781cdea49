// The soak: long scripts, one after another, until so many byte times have passed.

use std::fs;
use std::io;
use std::path::PathBuf;
use std::process::ExitCode;

use crate::bench;
use crate::compare::{self, Case};
use crate::generate;
use crate::script;

/// Byte times that one script is made for. Starting a program takes longer than a line does, so
/// there are few scripts; but one that differs should still be short enough to read.
const BYTE_TIMES_A_SCRIPT: u64 = 200_000;
/// Where a script that shows a difference is kept, seen from where the soak was started.
const KEPT_IN: &str = "target";

/// What to start with, how long to go on, and the program to run.
struct Order<'a> {
    seed: u64,
    byte_times: u64,
    command: &'a [String],
}

/// What a soak has done.
#[derive(Default)]
struct Tally {
    scripts: u64,
    byte_times: u64,
    differences: usize,
}

/// Soaks as the arguments SEED BYTE_TIMES COMMAND... ask. Gives 0 where nothing differs, 1 where
/// something does, 2 where nothing can be compared.
pub fn soak(arguments: &[String]) -> ExitCode {
    let order = match parse(arguments) {
        Some(order) => order,
        None => {
            eprintln!("usage: soak SEED BYTE_TIMES COMMAND...");
            return ExitCode::from(2);
        }
    };
    match run(&order) {
        Ok(tally) => {
            println!(
                "seed {}: {} scripts, {} byte times, {} differences",
                order.seed, tally.scripts, tally.byte_times, tally.differences
            );
            compare::exit_code(tally.differences)
        }
        Err(error) => {
            eprintln!("seed {}: {}: {}", order.seed, order.command[0], error);
            ExitCode::from(2)
        }
    }
}

fn parse(arguments: &[String]) -> Option<Order<'_>> {
    match arguments {
        [seed, byte_times, command @ ..] if !command.is_empty() => Some(Order {
            seed: seed.parse().ok()?,
            byte_times: byte_times.parse().ok()?,
            command,
        }),
        _ => None,
    }
}

/// The scripts have the seeds from the order's own on.
fn run(order: &Order) -> io::Result<Tally> {
    let mut tally = Tally::default();
    while tally.byte_times < order.byte_times {
        let seed = order.seed.wrapping_add(tally.scripts);
        let wanted = BYTE_TIMES_A_SCRIPT.min(order.byte_times - tally.byte_times);
        let long = generate::long_script(seed, wanted);
        let case = Case {
            expected: bench::run(long.text.as_bytes()),
            asked_by: script::printing_lines(&long.text),
            input: long.text.into_bytes(),
        };
        if !compare::compare_case(seed, order.command, &case)? {
            tally.differences += 1;
            keep(seed, &case.input)?;
        }
        tally.scripts += 1;
        tally.byte_times += long.byte_times;
    }
    Ok(tally)
}

/// Writes a script that shows a difference into a file, and tells where it is.
fn keep(seed: u64, script: &[u8]) -> io::Result<()> {
    let path = PathBuf::from(KEPT_IN).join(format!("soak-{}.bench", seed));
    fs::create_dir_all(KEPT_IN)?;
    fs::write(&path, script)?;
    println!("  kept in: {}", path.display());
    Ok(())
}
