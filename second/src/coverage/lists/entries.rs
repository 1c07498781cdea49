// Wrong lists of the IDs: which there are, in which order, and what is said of them.

use super::{by_entries, by_entry, by_lines, wrong, Sentence};
use crate::crc;
use crate::field::{self, FLAG, ID_CELLS, ID_MARK};
use crate::list::{Entry, Page};

pub const SENTENCES: &[Sentence] = &[
    Sentence {
        says: "IDs by cell of FE, round the ring",
        wrongs: &[
            wrong("not over the ring's end", |input| {
                by_entries(input, |page, entries| {
                    entries.retain(|entry| !is_over_end(page, entry));
                })
            }),
            wrong("not with FE before the ring's end", |input| {
                by_entries(input, |page, entries| {
                    entries.retain(|entry| entry.cell + ID_CELLS < page.cells.len());
                })
            }),
            wrong("not in the ring's first cells", |input| {
                by_entries(input, |page, entries| {
                    entries.retain(|entry| first_cell(page, entry) <= entry.cell);
                })
            }),
            wrong("by the first cell", |input| {
                by_entry(input, |page, entry| entry.cell = first_cell(page, entry))
            }),
            wrong("in the order of their first cells", |input| {
                by_entries(input, |page, entries| {
                    entries.sort_by_key(|entry| first_cell(page, entry));
                })
            }),
            wrong("from cell 1 on", |input| {
                by_entry(input, |_, entry| entry.cell += 1)
            }),
            wrong("the last first", |input| {
                by_entries(input, |_, entries| entries.reverse())
            }),
        ],
    },
    Sentence {
        says: "An ID is mark FE and six unflagged cells: track, side, sector, length, CRC.",
        wrongs: &[
            wrong("flags are ignored", |input| by_entries(input, ignore_flags)),
            wrong("five unflagged cells", |input| {
                by_entries(input, |page, entries| add_with_flags(page, entries, 1))
            }),
            wrong("sector, then side", |input| {
                by_entry(input, |_, entry| {
                    std::mem::swap(&mut entry.id.side, &mut entry.id.sector);
                })
            }),
            wrong("two bits of length", |input| {
                by_entry(input, |_, entry| entry.id.length &= 3)
            }),
        ],
    },
    Sentence {
        says: "CRC good or bad",
        wrongs: &[
            wrong("always good", |input| {
                by_entry(input, |_, entry| entry.id.crc_good = true)
            }),
            wrong("good and bad change places", |input| {
                by_entry(input, |_, entry| entry.id.crc_good ^= true)
            }),
            wrong("bad ones are left out", |input| {
                by_entries(input, |_, entries| {
                    entries.retain(|entry| entry.id.crc_good)
                })
            }),
            wrong("without the A1s", |input| {
                by_entry(input, |page, entry| {
                    entry.id.crc_good = is_good_from_fe(page, entry)
                })
            }),
            wrong("bad IDs are not counted", |input| {
                by_lines(input, |_, entries, lines| {
                    let good = entries.iter().filter(|entry| entry.id.crc_good).count();
                    let right = format!("ids {}\n", entries.len());
                    lines.replace(&right, &format!("ids {}\n", good))
                })
            }),
        ],
    },
];

/// The first cell of an ID's mark.
fn first_cell(page: &Page, entry: &Entry) -> usize {
    let length = page.cells.len();
    (entry.cell + length + 1 - field::mark_length(page.kind.density)) % length
}

fn is_over_end(page: &Page, entry: &Entry) -> bool {
    first_cell(page, entry) + field::id_length(page.kind.density) > page.cells.len()
}

fn is_good_from_fe(page: &Page, entry: &Entry) -> bool {
    let cells = page.id_cells(entry.cell);
    let from_fe = cells[cells.len() - ID_CELLS - 1..].iter();
    let bytes: Vec<u8> = from_fe.map(|&cell| field::byte_of(cell)).collect();
    crc::of_field(&bytes) == 0
}

fn ignore_flags(page: &Page, entries: &mut Vec<Entry>) {
    add_with_flags(page, entries, ID_CELLS);
}

/// IDs with flags on so many of their last cells are listed too.
fn add_with_flags(page: &Page, entries: &mut Vec<Entry>, count: usize) {
    let cells = (0..page.cells.len()).filter(|&it| field::byte_of(page.cells[it]) == ID_MARK);
    entries.extend(cells.filter_map(|cell| flagged_entry(page, cell, count)));
    entries.sort_by_key(|entry| entry.cell);
}

/// An ID but for flags on so many of its last cells.
fn flagged_entry(page: &Page, cell: usize, count: usize) -> Option<Entry> {
    let density = page.kind.density;
    let mut id_cells = page.id_cells(cell);
    if field::id_at_end(density, &id_cells).is_some() {
        return None;
    }
    for last in id_cells.iter_mut().rev().take(count) {
        *last %= FLAG;
    }
    let data_mark = field::first_data_mark(density, &page.after_id(cell, density.window()));
    Some(Entry {
        cell,
        id: field::id_at_end(density, &id_cells)?,
        data_mark: data_mark.map(|found| found.1),
    })
}
