// The table of wrong lists: sentences on pictures and the list, and the ways to get each wrong.

mod entries;
mod kinds;
mod marks;
mod printing;
mod reading;
mod refusing;

use crate::list::{self, Entry, Page, Steps, STEPS};
use crate::picture::Kind;

/// All sentences, those of request h first.
const SENTENCES: [&[Sentence]; 6] = [
    kinds::SENTENCES,
    reading::SENTENCES,
    refusing::SENTENCES,
    entries::SENTENCES,
    marks::SENTENCES,
    printing::SENTENCES,
];

/// A sentence, or a part of one.
struct Sentence {
    /// As the document has it; ".." stands where words are left out.
    says: &'static str,
    wrongs: &'static [Wrong],
}

/// A list that gets it wrong; all else is right.
pub struct Wrong {
    /// What the wrong list does.
    pub does: &'static str,
    /// What it prints for an input.
    text: fn(&[u8]) -> String,
}

const fn wrong(does: &'static str, text: fn(&[u8]) -> String) -> Wrong {
    Wrong { does, text }
}

/// The sentences, each with one way to get it wrong.
pub fn table() -> Vec<(&'static str, &'static Wrong)> {
    let sentences = SENTENCES.iter().flat_map(|some| some.iter());
    sentences
        .flat_map(|it| it.wrongs.iter().map(move |wrong| (it.says, wrong)))
        .collect()
}

/// The numbers of the rows that an input shows: the wrong list prints something else than the right
/// one.
pub fn shown(input: &[u8]) -> Vec<usize> {
    let right = list::text(input);
    let rows = table().into_iter().enumerate();
    let differs = rows.filter(|(_, (_, wrong))| (wrong.text)(input) != right);
    differs.map(|(number, _)| number).collect()
}

/// What a list prints that knows these kinds.
fn by_kinds(input: &[u8], kinds: &[Kind]) -> String {
    list::run(Steps { kinds, ..STEPS }, input).text()
}

/// What a list prints that reads pictures in this way.
fn by_reader(input: &[u8], read: impl Fn(Kind, &[u8]) -> Result<Page, u8>) -> String {
    list::run(
        Steps {
            read: &read,
            ..STEPS
        },
        input,
    )
    .text()
}

/// What a list prints that changes the IDs of a picture in this way.
fn by_entries(input: &[u8], change: impl Fn(&Page, &mut Vec<Entry>)) -> String {
    let entries = |page: &Page| {
        let mut entries = list::entries(page);
        change(page, &mut entries);
        entries
    };
    list::run(
        Steps {
            entries: &entries,
            ..STEPS
        },
        input,
    )
    .text()
}

/// What a list prints that changes each ID in this way.
fn by_entry(input: &[u8], change: impl Fn(&Page, &mut Entry)) -> String {
    by_entries(input, |page, entries| {
        entries.iter_mut().for_each(|entry| change(page, entry));
    })
}

/// What a list prints that changes the lines of a picture in this way.
fn by_lines(input: &[u8], change: impl Fn(&Page, &[Entry], String) -> String) -> String {
    let print = |page: &Page, entries: &[Entry]| change(page, entries, list::print(page, entries));
    list::run(
        Steps {
            print: &print,
            ..STEPS
        },
        input,
    )
    .text()
}
