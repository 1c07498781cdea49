// The list program: the IDs of pictures, one picture after another.

use crate::data_mark::DataMark;
use crate::field::{self, Id, ID_MARK};
use crate::machine::LONGEST_TRACK;
use crate::picture::{self, Kind};

/// "The rows of every program hold 10,416 cells."
const ROOM: usize = LONGEST_TRACK as usize;

/// A picture that was read.
#[derive(Clone, Debug, PartialEq, Eq)]
pub struct Page {
    pub kind: Kind,
    pub track: u8,
    pub side: u8,
    pub cells: Vec<u16>,
}

/// An ID as it is listed.
#[derive(Clone, Copy, Debug, PartialEq, Eq)]
pub struct Entry {
    /// The cell of its FE.
    pub cell: usize,
    pub id: Id,
    pub data_mark: Option<DataMark>,
}

/// What the list does with a picture, step by step. A wrong list does a step in another way.
#[derive(Clone, Copy)]
pub(crate) struct Steps<'a> {
    pub kinds: &'a [Kind],
    pub read: &'a dyn Fn(Kind, &[u8]) -> Result<Page, u8>,
    pub entries: &'a dyn Fn(&Page) -> Vec<Entry>,
    pub print: &'a dyn Fn(&Page, &[Entry]) -> String,
}

/// What becomes of an input.
pub(crate) struct Outcome<'a> {
    /// The lines of each picture that was taken.
    pub pictures: Vec<String>,
    /// The bytes after these pictures.
    pub rest: &'a [u8],
    /// The number by which a picture was refused.
    pub refusal: Option<u8>,
}

pub(crate) const STEPS: Steps = Steps {
    kinds: &Kind::ALL,
    read: &read_page,
    entries: &entries,
    print: &print,
};

/// Everything that the list program prints for an input.
pub fn text(input: &[u8]) -> String {
    run(STEPS, input).text()
}

/// Pictures one after another; a refusal "ends the run".
pub(crate) fn run<'a>(steps: Steps, input: &'a [u8]) -> Outcome<'a> {
    let mut outcome = Outcome {
        pictures: Vec::new(),
        rest: input,
        refusal: None,
    };
    // "Only wholly empty input is 9 at a picture's start."
    while outcome.refusal.is_none() && (outcome.pictures.is_empty() || !outcome.rest.is_empty()) {
        match picture_text(steps, outcome.rest) {
            Ok((lines, taken)) => {
                outcome.pictures.push(lines);
                outcome.rest = &outcome.rest[taken..];
            }
            Err(number) => outcome.refusal = Some(number),
        }
    }
    outcome
}

impl Outcome<'_> {
    /// "A refusal prints `refused` and its number."
    pub fn text(&self) -> String {
        let refusal = self.refusal.map(|number| format!("refused {}\n", number));
        self.pictures.concat() + &refusal.unwrap_or_default()
    }
}

/// The lines of the first picture and how many bytes it has, or its refusal.
fn picture_text(steps: Steps, bytes: &[u8]) -> Result<(String, usize), u8> {
    let kind = picture::kind_among(steps.kinds, bytes)?;
    let page = (steps.read)(kind, bytes)?;
    let lines = (steps.print)(&page, &(steps.entries)(&page));
    Ok((lines, 1 + kind.body))
}

pub(crate) fn read_page(kind: Kind, bytes: &[u8]) -> Result<Page, u8> {
    let mut cells = vec![0; ROOM];
    let answer = picture::read_as(kind, bytes, &mut cells)?;
    cells.truncate(kind.length);
    Ok(Page {
        kind,
        track: answer.track,
        side: answer.side,
        cells,
    })
}

/// "IDs by cell of FE, round the ring."
pub(crate) fn entries(page: &Page) -> Vec<Entry> {
    let places = 0..page.cells.len();
    places.filter_map(|cell| entry_at(page, cell)).collect()
}

/// The ID whose FE is this cell, if it is that of one.
fn entry_at(page: &Page, cell: usize) -> Option<Entry> {
    let density = page.kind.density;
    if field::byte_of(page.cells[cell]) != ID_MARK {
        return None;
    }
    let id = field::id_at_end(density, &page.id_cells(cell))?;
    let after_id = page.after_id(cell, density.window());
    let data_mark = field::first_data_mark(density, &after_id).map(|found| found.1);
    Some(Entry {
        cell,
        id,
        data_mark,
    })
}

impl Page {
    /// So many cells from a place on, round the ring.
    fn round_ring(&self, place: usize, count: usize) -> Vec<u16> {
        let places = place..place + count;
        places
            .map(|index| self.cells[index % self.cells.len()])
            .collect()
    }

    /// The cells of the ID whose FE is this cell, its mark and its CRC with it.
    pub(crate) fn id_cells(&self, cell: usize) -> Vec<u16> {
        let density = self.kind.density;
        let first = cell + self.cells.len() + 1 - field::mark_length(density);
        self.round_ring(first, field::id_length(density))
    }

    /// So many cells after the ID whose FE is this cell.
    pub(crate) fn after_id(&self, cell: usize, count: usize) -> Vec<u16> {
        self.round_ring(cell + field::ID_CELLS + 1, count)
    }
}

/// The kind's letter, "track, side as one digit"; the IDs; and how many they are.
pub(crate) fn print(page: &Page, entries: &[Entry]) -> String {
    let lines: String = entries.iter().map(id_line).collect();
    format!(
        "{} {:02X} {}\n{}ids {}\n",
        page.kind.letter,
        page.track,
        page.side,
        lines,
        entries.len()
    )
}

/// "Cell in decimal, four bytes, CRC good or bad, data mark FB, F8 or none even if bad": the ID's
/// CRC does not count. With the old marks the list "prints F9 or FA".
fn id_line(entry: &Entry) -> String {
    let id = entry.id;
    format!(
        "{} {:02X} {:02X} {:02X} {:02X} {} {}\n",
        entry.cell,
        id.track,
        id.side,
        id.sector,
        id.length,
        if id.crc_good { "good" } else { "bad" },
        match entry.data_mark {
            Some(mark) => format!("{:02X}", mark.byte()),
            None => "none".to_string(),
        }
    )
}
