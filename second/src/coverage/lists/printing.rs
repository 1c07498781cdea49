// Wrong lists of the lines: how a picture and its IDs are printed.

use super::{by_lines, wrong, Sentence};
use crate::list::Page;

pub const SENTENCES: &[Sentence] = &[
    Sentence {
        says: "F or M, track, side as one digit",
        wrongs: &[
            wrong("side 0 always", |input| {
                by_heading(input, |page| {
                    format!("{} {:02X} 0", page.kind.letter, page.track)
                })
            }),
            wrong("side as two digits", |input| {
                by_heading(input, |page| {
                    let (letter, track) = (page.kind.letter, page.track);
                    format!("{} {:02X} {:02}", letter, track, page.side)
                })
            }),
            wrong("track in decimal", |input| {
                by_heading(input, |page| {
                    let (letter, track) = (page.kind.letter, page.track);
                    format!("{} {:02} {}", letter, track, page.side)
                })
            }),
            wrong("side, track", |input| {
                by_heading(input, |page| {
                    let (letter, track) = (page.kind.letter, page.track);
                    format!("{} {} {:02X}", letter, page.side, track)
                })
            }),
        ],
    },
    Sentence {
        says: "cell in decimal, four bytes, CRC good or bad, data mark",
        wrongs: &[
            wrong("cell in hexadecimal", |input| {
                by_cell(input, |cell| format!("{:X}", cell))
            }),
            wrong("cell in five digits", |input| {
                by_cell(input, |cell| format!("{:05}", cell))
            }),
            wrong("no IDs, no count", |input| {
                by_lines(input, |_, _, lines| lines.replace("\nids 0\n", "\n"))
            }),
        ],
    },
    Sentence {
        says: "Bytes are two capital hex digits.",
        wrongs: &[
            wrong("small ones", |input| by_byte(input, str::to_lowercase)),
            wrong("no 0 before a digit", |input| {
                by_byte(input, |byte| match byte.strip_prefix('0') {
                    Some(digit) => digit.to_string(),
                    None => byte.to_string(),
                })
            }),
        ],
    },
];

/// What a list prints whose first line of a picture is this one.
fn by_heading(input: &[u8], heading: impl Fn(&Page) -> String) -> String {
    by_lines(input, |page, _, lines| {
        let rest = lines.split_once('\n').map_or("", |parts| parts.1);
        format!("{}\n{}", heading(page), rest)
    })
}

/// What a list prints that has the cell of an ID in this form.
fn by_cell(input: &[u8], form: impl Fn(usize) -> String) -> String {
    by_lines(input, |_, _, lines| {
        let changed = lines.lines().map(|line| match line.split_once(' ') {
            Some((cell, rest)) => match cell.parse() {
                Ok(cell) => format!("{} {}\n", form(cell), rest),
                Err(_) => format!("{}\n", line),
            },
            None => format!("{}\n", line),
        });
        changed.collect()
    })
}

/// What a list prints that has the words of two characters, which are bytes, in this form.
fn by_byte(input: &[u8], form: impl Fn(&str) -> String) -> String {
    by_lines(input, |_, _, lines| {
        let words = |line: &str| -> Vec<String> {
            let is_byte = |(number, word): &(usize, &str)| *number > 0 && word.len() == 2;
            let words = line.split(' ').enumerate();
            words
                .map(|it| {
                    if is_byte(&it) {
                        form(it.1)
                    } else {
                        it.1.to_string()
                    }
                })
                .collect()
        };
        let changed = lines.lines().map(|line| words(line).join(" ") + "\n");
        changed.collect()
    })
}
