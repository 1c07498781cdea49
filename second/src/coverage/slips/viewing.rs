// Slips of the viewer: which data marks it looks for, and what a record's CRC starts with.

use super::old_marks::{is_new, is_old};
use super::{slip, Sentence, Subject};
use crate::coverage::step::{Call, Outcome, Step};
use crate::data_mark::DataMark::{self, F8, F9, FA, FB};
use crate::density::Density::{self, Fm};
use crate::field;
use crate::viewer::{self, FindMark};

/// Where the data mark ends after the ID, and which one it is.
pub type Found = Option<(usize, DataMark)>;

pub const SUBJECT: Subject = Subject {
    concerns: views,
    sentences: SENTENCES,
};

const SENTENCES: &[Sentence] = &[Sentence {
    says: "What finds a data mark must say which of the four it met, and its callers follow: the \
           machine, the viewer",
    slips: &[
        slip("F9 is none", views, |step, wrong| {
            view_by(step, wrong, without_f9)
        }),
        slip("FA is none", views, |step, wrong| {
            view_by(step, wrong, without_fa)
        }),
        slip("F9 in MFM too", views, |step, wrong| {
            view_by(step, wrong, with_f9)
        }),
        slip("FA in MFM too", views, |step, wrong| {
            view_by(step, wrong, with_fa)
        }),
        slip("CRC with F8 for F9", views, |step, wrong| {
            view_by(step, wrong, f8_for_f9)
        }),
        slip("CRC with FB for FA", views, |step, wrong| {
            view_by(step, wrong, fb_for_fa)
        }),
        slip("29 for F9 or FA", views, |step, wrong| {
            view_by(step, wrong, up_to_29)
        }),
        slip("31 for F9 or FA", views, |step, wrong| {
            view_by(step, wrong, up_to_31)
        }),
        slip("FB or F8 first", views, |step, wrong| {
            view_by(step, wrong, new_first)
        }),
        slip("F9 or FA first", views, |step, wrong| {
            view_by(step, wrong, old_first)
        }),
    ],
}];

fn views(step: &Step) -> bool {
    matches!(step.call, Call::View(_))
}

/// Views the rows, the data mark of an ID found in this way.
fn view_by(step: &Step, wrong: &mut Outcome, find_mark: FindMark) {
    if let Call::View(wanted) = step.call {
        let sides = [step.row, step.other_row];
        wrong.show_view(viewer::view_by(find_mark, sides, wanted));
    }
}

/// The first in the window of the four marks, in MFM too, that is such.
fn first(density: Density, cells: &[u16], such: impl Fn(DataMark) -> bool) -> Found {
    let window = density.window().min(cells.len());
    (1..=window).find_map(|place| {
        let byte = field::mark_at_end(density, &cells[..place])?;
        let mark = DataMark::of_byte(byte, Fm).filter(|&mark| such(mark));
        mark.map(|mark| (place, mark))
    })
}

/// The first data mark of the density that is such.
fn first_right(density: Density, cells: &[u16], such: fn(DataMark) -> bool) -> Found {
    let marks = DataMark::of_density(density);
    first(density, cells, |mark| marks.contains(&mark) && such(mark))
}

pub fn without_f9(density: Density, cells: &[u16]) -> Found {
    first_right(density, cells, |mark| mark != F9)
}

pub fn without_fa(density: Density, cells: &[u16]) -> Found {
    first_right(density, cells, |mark| mark != FA)
}

pub fn with_f9(density: Density, cells: &[u16]) -> Found {
    first(density, cells, |mark| density == Fm || mark != FA)
}

pub fn with_fa(density: Density, cells: &[u16]) -> Found {
    first(density, cells, |mark| density == Fm || mark != F9)
}

/// The first data mark; one of them is reported as another.
fn reported_as(density: Density, cells: &[u16], marks: [DataMark; 2]) -> Found {
    let [met, reported] = marks;
    let found = field::first_data_mark(density, cells);
    found.map(|(place, mark)| (place, if mark == met { reported } else { mark }))
}

pub fn f8_for_f9(density: Density, cells: &[u16]) -> Found {
    reported_as(density, cells, [F9, F8])
}

pub fn fb_for_fa(density: Density, cells: &[u16]) -> Found {
    reported_as(density, cells, [FA, FB])
}

fn up_to_29(density: Density, cells: &[u16]) -> Found {
    let found = field::first_data_mark(density, cells);
    found.filter(|&(place, mark)| is_new(mark) || place < density.window())
}

fn up_to_31(density: Density, cells: &[u16]) -> Found {
    field::first_data_mark(density, cells).or_else(|| {
        let place = density.window() + 1;
        let next = field::data_mark_at_end(density, cells.get(..place)?);
        next.filter(|&mark| is_old(mark)).map(|mark| (place, mark))
    })
}

/// FB or F8, wherever it stands in the window; else F9 or FA.
fn new_first(density: Density, cells: &[u16]) -> Found {
    first_right(density, cells, is_new).or_else(|| field::first_data_mark(density, cells))
}

/// F9 or FA, wherever it stands in the window; else FB or F8.
fn old_first(density: Density, cells: &[u16]) -> Found {
    first_right(density, cells, is_old).or_else(|| field::first_data_mark(density, cells))
}
