// Carries out the bench script on standard input. What has come of it is answered before more of
// it is awaited.

#![forbid(unsafe_code)]

use std::io::{self, Read, Write};

use second::session::Session;

/// The most bytes that are read at once.
const PIECE: usize = 65536;

fn main() -> io::Result<()> {
    let (mut input, mut output) = (io::stdin(), io::stdout());
    let mut session = Session::default();
    let mut piece = vec![0; PIECE];
    loop {
        let count = input.read(&mut piece)?;
        let printed = match count {
            0 => session.end(),
            _ => session.take(&piece[..count]),
        };
        output.write_all(printed.as_bytes())?;
        output.flush()?;
        if count == 0 || session.is_over() {
            return Ok(());
        }
    }
}
