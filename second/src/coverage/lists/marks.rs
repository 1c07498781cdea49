// Wrong lists of the data marks: which of them an ID has, and where it may stand.

use super::{by_entry, wrong, Sentence};
use crate::coverage::slips::viewing::{self, Found};
use crate::data_mark::DataMark;
use crate::density::Density::{self, Fm, Mfm};
use crate::field::{self, FLAG, ID_CELLS};
use crate::list::{Entry, Page};

pub const SENTENCES: &[Sentence] = &[
    Sentence {
        says: "data mark FB, F8 or none even if bad",
        wrongs: &[
            wrong("none if bad", |input| {
                by_entry(input, |_, entry| {
                    entry.data_mark = entry.data_mark.filter(|_| entry.id.crc_good);
                })
            }),
            wrong("none if good", |input| {
                by_entry(input, |_, entry| {
                    entry.data_mark = entry.data_mark.filter(|_| !entry.id.crc_good);
                })
            }),
            wrong("F8 for FB", |input| {
                by_entry(input, |_, entry| {
                    let is_fb = entry.data_mark == Some(DataMark::FB);
                    entry.data_mark = if is_fb {
                        Some(DataMark::F8)
                    } else {
                        entry.data_mark
                    };
                })
            }),
            wrong("not over the ring's end", |input| {
                by_entry(input, stop_at_end)
            }),
        ],
    },
    Sentence {
        says:
            "In FM only, flagged F9 and FA become data marks: .. and the list, which prints F9 or \
               FA.",
        wrongs: &[
            wrong("F9 is none", |input| by_finder(input, viewing::without_f9)),
            wrong("FA is none", |input| by_finder(input, viewing::without_fa)),
            wrong("F9 in MFM too", |input| by_finder(input, viewing::with_f9)),
            wrong("FA in MFM too", |input| by_finder(input, viewing::with_fa)),
            wrong("F8 for F9", |input| by_finder(input, viewing::f8_for_f9)),
            wrong("FB for FA", |input| by_finder(input, viewing::fb_for_fa)),
            wrong("plain ones too", |input| by_finder(input, take_plain)),
        ],
    },
    Sentence {
        says:
            "The mark byte must be among the first 30 (FM) or 43 (MFM) cells after the ID's last; \
               in MFM its three A1s too. Other marks there are passed over.",
        wrongs: &[
            wrong("29 (FM)", |input| by_window(input, Fm, 29)),
            wrong("31 (FM)", |input| by_window(input, Fm, 31)),
            wrong("42 (MFM)", |input| by_window(input, Mfm, 42)),
            wrong("44 (MFM)", |input| by_window(input, Mfm, 44)),
            wrong("the last one counts", |input| by_finder(input, take_last)),
            wrong("other marks end it", |input| {
                by_finder(input, stop_at_other)
            }),
        ],
    },
];

/// What a list prints that finds an ID's data mark in this way. One cell more than the window is
/// there to look at.
fn by_finder(input: &[u8], find: impl Fn(Density, &[u16]) -> Found) -> String {
    by_entry(input, |page, entry| {
        let density = page.kind.density;
        let after_id = page.after_id(entry.cell, density.window() + 1);
        entry.data_mark = find(density, &after_id).map(|found| found.1);
    })
}

/// The first data mark among so many cells.
fn first_among(density: Density, after_id: &[u16], count: usize) -> Found {
    (1..=count).find_map(|place| {
        let mark = field::data_mark_at_end(density, &after_id[..place]);
        mark.map(|mark| (place, mark))
    })
}

fn by_window(input: &[u8], of: Density, window: usize) -> String {
    by_finder(input, |density, after_id| {
        let right = density.window();
        first_among(
            density,
            after_id,
            if density == of { window } else { right },
        )
    })
}

/// The window ends with the ring, unless the ID stands over its end.
fn stop_at_end(page: &Page, entry: &mut Entry) {
    let density = page.kind.density;
    let before_end = page.cells.len().checked_sub(entry.cell + 1 + ID_CELLS);
    let count = before_end.map_or(density.window(), |count| count.min(density.window()));
    let after_id = page.after_id(entry.cell, density.window());
    entry.data_mark = first_among(density, &after_id, count).map(|found| found.1);
}

/// A byte of FM that would be a data mark if it were flagged is one.
fn take_plain(density: Density, after_id: &[u16]) -> Found {
    let flag = |&cell: &u16| match DataMark::of_byte(field::byte_of(cell), Fm) {
        Some(_) if density == Fm => cell | FLAG,
        _ => cell,
    };
    let cells: Vec<u16> = after_id.iter().map(flag).collect();
    field::first_data_mark(density, &cells)
}

fn take_last(density: Density, after_id: &[u16]) -> Found {
    let mut places = (1..=density.window()).rev();
    places.find_map(|place| {
        let mark = field::data_mark_at_end(density, &after_id[..place]);
        mark.map(|mark| (place, mark))
    })
}

fn stop_at_other(density: Density, after_id: &[u16]) -> Found {
    let first = (1..=density.window())
        .find(|&place| field::mark_at_end(density, &after_id[..place]).is_some())?;
    field::data_mark_at_end(density, &after_id[..first]).map(|mark| (first, mark))
}
