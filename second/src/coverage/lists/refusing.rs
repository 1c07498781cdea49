// Wrong lists of the refusals, their order, and of pictures one after another.

use super::{wrong, Sentence};
use crate::list::{self, Outcome, STEPS};
use crate::number::{CUT, KIND, SIDE_OR_PADDING};
use crate::picture::Kind;

pub const SENTENCES: &[Sentence] = &[
    Sentence {
        says: "9 | picture ends early or is empty | nothing written",
        wrongs: &[
            wrong("a byte may be missing", |input| complete(input, |_| 1)),
            wrong("flag bytes may be missing", |input| {
                complete(input, Kind::flag_bytes)
            }),
            wrong("missing bytes are 00", |input| {
                complete(input, |kind| kind.body)
            }),
            wrong("empty input prints nothing", |input| match input {
                [] => String::new(),
                _ => list::text(input),
            }),
        ],
    },
    Sentence {
        says: "Lowest first, except in the picture reader: empty (9), 8, 9, 12, 10.",
        wrongs: &[
            wrong("8 before 9 where it is empty", |input| {
                refuse(
                    input,
                    |number, rest| if rest.is_empty() { KIND } else { number },
                )
            }),
            wrong("9 before 8", |input| {
                let is_short = |rest: &[u8]| rest.len() <= Kind::FM.body;
                refuse(
                    input,
                    |number, rest| if is_short(rest) { CUT } else { number },
                )
            }),
            wrong("10 before 9", |input| {
                refuse(input, |number, rest| match rest {
                    [_, _, side, ..] if number == CUT && *side > 1 => SIDE_OR_PADDING,
                    _ => number,
                })
            }),
            wrong("9 for any kind but the four", |input| {
                refuse(input, |number, _| if number == KIND { CUT } else { number })
            }),
        ],
    },
    Sentence {
        says: "A list program reads pictures, one after another, on standard input; only wholly \
               empty input is 9 at a picture's start.",
        wrongs: &[
            wrong("the first one alone", |input| take_at_most(input, 1)),
            wrong("two at most", |input| take_at_most(input, 2)),
            wrong("9 at the end of each", |input| {
                by_outcome(input, |outcome| {
                    outcome.refusal = outcome.refusal.or(Some(CUT));
                })
            }),
        ],
    },
    Sentence {
        says: "A refusal prints `refused` and its number, and ends the run.",
        wrongs: &[
            wrong("in hexadecimal", |input| {
                list::text(input).replace("refused 10", "refused A")
            }),
            wrong("in two digits", |input| {
                let text = list::text(input).replace("refused 8", "refused 08");
                text.replace("refused 9", "refused 09")
            }),
            wrong("nothing of pictures before it", |input| {
                by_outcome(input, |outcome| {
                    if outcome.refusal.is_some() {
                        outcome.pictures.clear();
                    }
                })
            }),
            wrong("10 does not end it", go_on_after_10),
            wrong("it prints no number", |input| {
                let outcome = list::run(STEPS, input);
                match outcome.refusal {
                    Some(_) => outcome.pictures.concat() + "refused\n",
                    None => outcome.text(),
                }
            }),
        ],
    },
];

/// What a list prints that comes to another outcome.
fn by_outcome(input: &[u8], change: impl Fn(&mut Outcome)) -> String {
    let mut outcome = list::run(STEPS, input);
    change(&mut outcome);
    outcome.text()
}

/// What a list prints that refuses the bytes after the pictures taken by another number.
fn refuse(input: &[u8], number_of: impl Fn(u8, &[u8]) -> u8) -> String {
    by_outcome(input, |outcome| {
        outcome.refusal = outcome
            .refusal
            .map(|number| number_of(number, outcome.rest));
    })
}

/// What a list prints that takes bytes for 00 where so many are missing at most.
fn complete(input: &[u8], most: impl Fn(Kind) -> usize) -> String {
    let rest = list::run(STEPS, input).rest;
    let kind = rest.first().and_then(|&byte| Kind::of_byte(byte));
    let missing = kind.map_or(0, |kind| (1 + kind.body).saturating_sub(rest.len()));
    match kind {
        Some(kind) if missing <= most(kind) => list::text(&[input, &vec![0; missing]].concat()),
        _ => list::text(input),
    }
}

/// What a list prints that ends after so many pictures.
fn take_at_most(input: &[u8], count: usize) -> String {
    by_outcome(input, |outcome| {
        if outcome.pictures.len() >= count {
            outcome.pictures.truncate(count);
            outcome.refusal = None;
        }
    })
}

/// The picture after the refused one is taken.
fn go_on_after_10(input: &[u8]) -> String {
    let outcome = list::run(STEPS, input);
    let kind = outcome.rest.first().and_then(|&byte| Kind::of_byte(byte));
    let next = kind.and_then(|kind| outcome.rest.get(1 + kind.body..));
    match next {
        Some(next) if outcome.refusal == Some(SIDE_OR_PADDING) && !next.is_empty() => {
            outcome.text() + &list::text(next)
        }
        _ => outcome.text(),
    }
}
