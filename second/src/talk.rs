// Talks with another bench as a person does, who types on only when what was typed is answered.

use std::io::{self, BufRead, BufReader, Write};
use std::process::{Child, ChildStdin, Command, ExitCode, Stdio};
use std::sync::mpsc::{self, Receiver};
use std::thread;
use std::time::Duration;

use crate::compare::{self, Difference};
use crate::session::Session;

/// How long an answer is awaited, and the program that is to give it.
struct Order<'a> {
    patience: Duration,
    command: &'a [String],
}

/// The two ends of a conversation.
struct Desk {
    typed: ChildStdin,
    answers: Receiver<Vec<u8>>,
    patience: Duration,
    /// How many lines of answers have come.
    lines: usize,
}

/// Talks as the arguments SECONDS COMMAND... ask, by the lines of the script. Gives 0 where each
/// answer comes in time and is right, 1 where one does not, 2 where nobody can be talked with.
pub fn talk(arguments: &[String], script: &[u8]) -> ExitCode {
    let order = match parse(arguments) {
        Some(order) => order,
        None => {
            eprintln!("usage: talk SECONDS COMMAND... < script");
            return ExitCode::from(2);
        }
    };
    match run(&order, script) {
        Ok(difference) => {
            tell(&difference);
            compare::exit_code(usize::from(difference.is_some()))
        }
        Err(error) => {
            eprintln!("talk: {}: {}", order.command[0], error);
            ExitCode::from(2)
        }
    }
}

fn parse(arguments: &[String]) -> Option<Order<'_>> {
    match arguments {
        [seconds, command @ ..] if !command.is_empty() => Some(Order {
            patience: Duration::from_secs(seconds.parse().ok()?),
            command,
        }),
        _ => None,
    }
}

fn tell(difference: &Option<Difference>) {
    match difference {
        None => println!("what was typed was answered each time"),
        Some(difference) => {
            println!("line {} of the answers differs", difference.line);
            println!("  expected: {}", difference.expected);
            println!("  received in time: {}", difference.received);
        }
    }
}

fn run(order: &Order, script: &[u8]) -> io::Result<Option<Difference>> {
    let mut child = Command::new(&order.command[0])
        .args(&order.command[1..])
        .stdin(Stdio::piped())
        .stdout(Stdio::piped())
        .spawn()?;
    let difference = converse(&mut child, order.patience, script);
    // Its input is over now. It is ended, for it may be in a loop.
    let _ = child.kill();
    child.wait()?;
    difference
}

/// The first answer that is not right or does not come in time.
fn converse(
    child: &mut Child,
    patience: Duration,
    script: &[u8],
) -> io::Result<Option<Difference>> {
    let mut desk = match child.stdin.take() {
        Some(typed) => Desk {
            typed,
            answers: answers_of(child),
            patience,
            lines: 0,
        },
        None => return Ok(None),
    };
    let mut session = Session::default();
    for piece in pieces(script) {
        let expected = session.take(piece);
        if let Some(difference) = desk.exchange(piece, &expected)? {
            return Ok(Some(difference));
        }
    }
    Ok(None)
}

impl Desk {
    /// Types some bytes, and awaits what they should print before any more are typed.
    fn exchange(&mut self, bytes: &[u8], expected: &str) -> io::Result<Option<Difference>> {
        self.typed.write_all(bytes)?;
        self.typed.flush()?;
        for line in expected.lines() {
            self.lines += 1;
            let answer = self.answers.recv_timeout(self.patience).ok();
            if answer.as_deref() != Some(line.as_bytes()) {
                return Ok(Some(self.difference(line, answer)));
            }
        }
        Ok(None)
    }

    fn difference(&self, expected: &str, answer: Option<Vec<u8>>) -> Difference {
        Difference {
            line: self.lines,
            expected: expected.to_string(),
            received: match answer {
                None => "(nothing)".to_string(),
                Some(line) => line.escape_ascii().to_string(),
            },
        }
    }
}

/// The lines that the program prints, as they come.
fn answers_of(child: &mut Child) -> Receiver<Vec<u8>> {
    let (sender, answers) = mpsc::channel();
    if let Some(stdout) = child.stdout.take() {
        let lines = BufReader::new(stdout).split(b'\n').map_while(Result::ok);
        thread::spawn(move || lines.map(|line| sender.send(line)).all(|sent| sent.is_ok()));
    }
    answers
}

/// The script in pieces. Each ends with a line, every second one with a line and the first byte of
/// the next: a line is answered also where the next one has begun.
fn pieces(script: &[u8]) -> Vec<&[u8]> {
    let mut pieces = Vec::new();
    let (mut from, mut end) = (0, 0);
    for (index, line) in script.split_inclusive(|&byte| byte == b'\n').enumerate() {
        end += line.len();
        let to = script.len().min(end + index % 2);
        pieces.push(&script[from..to]);
        from = to;
    }
    pieces
}
