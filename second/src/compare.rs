// Compares another program with the model over many seeds and tells where they differ.

use std::io::{self, Read, Write};
use std::process::{Child, Command, ExitCode, Stdio};
use std::thread;

/// What a seed stands for: what the program is given and what it must print.
pub struct Case {
    pub input: Vec<u8>,
    pub expected: Vec<u8>,
    /// For each line of the output, what in the input asked for it; empty where nothing can be
    /// named.
    pub asked_by: Vec<String>,
}

/// The first lines that differ; a line is missing where an output has ended.
#[derive(Clone, Debug, PartialEq, Eq)]
pub struct Difference {
    /// The line's number in the outputs, from 1.
    pub line: usize,
    pub expected: String,
    pub received: String,
}

/// The seeds to compare and the program to run.
struct Order<'a> {
    from: u64,
    to: u64,
    command: &'a [String],
}

/// Compares as the arguments FROM TO COMMAND... ask: every seed from FROM up to, but not with,
/// TO. Gives 0 where nothing differs, 1 where something does, 2 where nothing can be compared.
/// `plural` is what the cases are called.
pub fn compare_seeds(arguments: &[String], plural: &str, case: fn(u64) -> Case) -> ExitCode {
    let order = match parse(arguments) {
        Some(order) => order,
        None => {
            eprintln!("usage: FROM TO COMMAND...");
            return ExitCode::from(2);
        }
    };
    let mut differences = 0;
    for seed in order.from..order.to {
        match compare_case(seed, order.command, &case(seed)) {
            Ok(same) => differences += usize::from(!same),
            Err(error) => {
                eprintln!("seed {}: {}: {}", seed, order.command[0], error);
                return ExitCode::from(2);
            }
        }
    }
    let count = order.to.saturating_sub(order.from);
    println!("{} {}, {} differences", count, plural, differences);
    exit_code(differences)
}

/// 0 where nothing differs, 1 where something does.
pub fn exit_code(differences: usize) -> ExitCode {
    if differences > 0 {
        ExitCode::FAILURE
    } else {
        ExitCode::SUCCESS
    }
}

fn parse(arguments: &[String]) -> Option<Order<'_>> {
    match arguments {
        [from, to, command @ ..] if !command.is_empty() => Some(Order {
            from: from.parse().ok()?,
            to: to.parse().ok()?,
            command,
        }),
        _ => None,
    }
}

/// Whether the command prints what the seed's case expects; where it does not, the first
/// difference is told.
pub fn compare_case(seed: u64, command: &[String], case: &Case) -> io::Result<bool> {
    let received = output_of(command, case.input.clone())?;
    match first_difference(&case.expected, &received) {
        None => Ok(true),
        Some(difference) => {
            println!("seed {}: output line {} differs", seed, difference.line);
            if let Some(asked_by) = case.asked_by.get(difference.line - 1) {
                println!("  asked by: {}", asked_by);
            }
            println!("  expected: {}", difference.expected);
            println!("  received: {}", difference.received);
            Ok(false)
        }
    }
}

/// What the command prints when it is given the input.
fn output_of(command: &[String], input: Vec<u8>) -> io::Result<Vec<u8>> {
    let mut child = Command::new(&command[0])
        .args(&command[1..])
        .stdin(Stdio::piped())
        .stdout(Stdio::piped())
        .spawn()?;
    let writer = write_in_background(&mut child, input);
    let mut output = Vec::new();
    if let Some(mut stdout) = child.stdout.take() {
        stdout.read_to_end(&mut output)?;
    }
    child.wait()?;
    // A program that ends before it has read all may refuse the rest; its output tells enough.
    let _ = writer.join();
    Ok(output)
}

/// An input and its output may both be larger than a pipe, so they must flow at the same time.
fn write_in_background(child: &mut Child, input: Vec<u8>) -> thread::JoinHandle<io::Result<()>> {
    let stdin = child.stdin.take();
    thread::spawn(move || match stdin {
        Some(mut pipe) => pipe.write_all(&input),
        None => Ok(()),
    })
}

/// The first difference of two outputs, byte for byte.
pub fn first_difference(expected: &[u8], received: &[u8]) -> Option<Difference> {
    if expected == received {
        return None;
    }
    let mut ours = expected.split_inclusive(|&byte| byte == b'\n');
    let mut theirs = received.split_inclusive(|&byte| byte == b'\n');
    let mut line = 1;
    loop {
        let (our, their) = (ours.next(), theirs.next());
        if our != their {
            return Some(Difference {
                line,
                expected: shown(our),
                received: shown(their),
            });
        }
        line += 1;
    }
}

/// A line for people: what is no text, and a missing newline, can be seen.
fn shown(line: Option<&[u8]>) -> String {
    match line {
        None => "(nothing)".to_string(),
        Some(bytes) => match bytes.strip_suffix(b"\n") {
            Some(text) => text.escape_ascii().to_string(),
            None => format!("{} (no newline)", bytes.escape_ascii()),
        },
    }
}
