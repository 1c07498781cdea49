// A script that comes in piece by piece, as a person types it or a pipe delivers it.

use crate::bench::Bench;
use crate::script::{self, Parsed};

/// A script as far as it has come.
#[derive(Default)]
pub struct Session {
    bench: Bench,
    /// The bytes of the line that has not ended yet.
    begun: Vec<u8>,
    /// How many lines have ended.
    lines: usize,
    /// Whether a line could not be carried out: then no other is.
    over: bool,
}

impl Session {
    pub fn is_over(&self) -> bool {
        self.over
    }

    /// Takes the next bytes of the script. Gives what the lines print that end in them.
    pub fn take(&mut self, bytes: &[u8]) -> String {
        let mut printed = String::new();
        for piece in bytes.split_inclusive(|&byte| byte == b'\n') {
            if let Some(rest) = piece.strip_suffix(b"\n") {
                self.begun.extend_from_slice(rest);
                self.drop_carriage_return();
                printed.push_str(&self.end_line());
            } else {
                self.begun.extend_from_slice(piece);
            }
        }
        printed
    }

    /// "A carriage return just before a newline belongs to the line's end."
    fn drop_carriage_return(&mut self) {
        if self.begun.ends_with(b"\r") {
            self.begun.pop();
        }
    }

    /// "The last may end with the input": what it prints then.
    pub fn end(&mut self) -> String {
        self.end_line()
    }

    /// What the line prints whose bytes have come.
    fn end_line(&mut self) -> String {
        let bytes = std::mem::take(&mut self.begun);
        self.lines += 1;
        if self.over {
            return String::new();
        }
        let printed = match script::parse(&bytes) {
            Parsed::Empty => return String::new(),
            Parsed::Line(line) => self.bench.carry_out(&line),
            Parsed::Bad => None,
        };
        match printed {
            Some(text) => format!("{}\n", text),
            None => {
                self.over = true;
                format!("error {}\n", self.lines)
            }
        }
    }
}
